//! What `library_speed` is measured against: the units of PIDs 0x0100 and 0x0101 of standard input kept in memory, put into packets in plain
//! Rust as often as the first argument says, with their stamps moved, and the last packets written to standard output.

use std::io::{Read, Write, stdin, stdout};

const DELTA: u64 = 1_234_567;
const TURN: u64 = 1 << 33;
const PIDS: [u16; 2] = [0x0100, 0x0101];

struct Place {
    start: usize,
    random_access: bool,
}

/// The units of one stream, their bytes one after another.
#[derive(Default)]
struct Stream {
    bytes: Vec<u8>,
    places: Vec<Place>,
}

fn payload(packet: &[u8]) -> &[u8] {
    match packet[3] >> 4 & 3 {
        1 => &packet[4..],
        3 => &packet[5 + usize::from(packet[4])..],
        _ => &[],
    }
}

fn units(input: &[u8], pid: u16) -> Stream {
    let mut stream = Stream::default();
    for packet in input.chunks_exact(188) {
        if u16::from(packet[1] & 0x1F) << 8 | u16::from(packet[2]) != pid {
            continue;
        }
        if packet[1] & 0x40 != 0 {
            let random_access = packet[3] & 0x20 != 0 && packet[4] != 0 && packet[5] & 0x40 != 0;
            stream.places.push(Place { start: stream.bytes.len(), random_access });
        }
        if !stream.places.is_empty() {
            stream.bytes.extend_from_slice(payload(packet));
        }
    }
    stream
}

/// Moves the stamp in five bytes, and keeps their other bits.
fn move_stamp(bytes: &mut [u8]) {
    let old = u64::from(bytes[0] >> 1 & 7) << 30
        | u64::from(bytes[1]) << 22
        | u64::from(bytes[2] >> 1) << 15
        | u64::from(bytes[3]) << 7
        | u64::from(bytes[4] >> 1);
    let new = (old + DELTA) % TURN;
    bytes[0] = bytes[0] & 0xF1 | ((new >> 30) as u8 & 7) << 1;
    bytes[1] = (new >> 22) as u8;
    bytes[2] = bytes[2] & 1 | ((new >> 15) as u8) << 1;
    bytes[3] = (new >> 7) as u8;
    bytes[4] = bytes[4] & 1 | (new as u8) << 1;
}

/// Moves PTS and DTS, where the unit that begins so has them.
fn move_stamps(front: &mut [u8]) {
    if front.len() < 9 || front[..3] != [0, 0, 1] || front[6] & 0xC0 != 0x80 {
        return;
    }
    if matches!(front[3], 0xBC | 0xBE | 0xBF | 0xF0 | 0xF1 | 0xF2 | 0xF8 | 0xFF) {
        return;
    }
    let (flags, length) = (front[7] >> 6, front[8]);
    if flags >= 2 && length >= 5 {
        move_stamp(&mut front[9..14]);
    }
    if flags == 3 && length >= 10 {
        move_stamp(&mut front[14..19]);
    }
}

fn put_packet(pid: u16, counter: u8, start: bool, random_access: bool, part: &[u8], out: &mut Vec<u8>) {
    let mut packet = [0xFF; 188];
    packet[0] = 0x47;
    packet[1] = (pid >> 8) as u8 | if start { 0x40 } else { 0 };
    packet[2] = pid as u8;
    let front = 188 - part.len();
    if front == 4 {
        packet[3] = 0x10 | counter;
    } else {
        packet[3] = 0x30 | counter;
        packet[4] = (front - 5) as u8;
        if front > 5 {
            packet[5] = if random_access { 0x40 } else { 0 };
        }
    }
    packet[front..].copy_from_slice(part);
    if start {
        move_stamps(&mut packet[front..]);
    }
    out.extend_from_slice(&packet);
}

fn put_stream(stream: &Stream, pid: u16, out: &mut Vec<u8>) {
    let mut counter = 0;
    for (index, place) in stream.places.iter().enumerate() {
        let end = stream.places.get(index + 1).map_or(stream.bytes.len(), |next| next.start);
        let unit = &stream.bytes[place.start..end];
        let size = unit.len().min(if place.random_access { 182 } else { 184 });
        put_packet(pid, counter, true, place.random_access, &unit[..size], out);
        counter = (counter + 1) % 16;
        for part in unit[size..].chunks(184) {
            put_packet(pid, counter, false, false, part, out);
            counter = (counter + 1) % 16;
        }
    }
}

fn main() {
    let rounds: u32 = std::env::args().nth(1).map_or(1, |word| word.parse().expect("a number"));
    let mut input = Vec::new();
    stdin().lock().read_to_end(&mut input).expect("standard input");
    let streams = PIDS.map(|pid| units(&input, pid));
    drop(input);
    let mut out = Vec::new();
    for _ in 0..rounds {
        out.clear();
        for (stream, pid) in streams.iter().zip(PIDS) {
            put_stream(stream, pid, &mut out);
        }
    }
    stdout().lock().write_all(&out).expect("standard output");
}
