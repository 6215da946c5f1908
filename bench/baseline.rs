//! What `dpi_chain cut` is measured against: the same work in plain Rust, one packet at a time out of the buffer of a reader and
//! through a buffered writer of 256 KiB each. The PID's last payload packet stays where it was read: two packets change places, and
//! neither is copied. Only files; the command line is `cut --pid P --from T --length D --in FILE --out FILE`.

use std::fs::File;
use std::io::{BufRead, BufReader, BufWriter, ErrorKind, Read, Write};

const BUFFER_SIZE: usize = 262_144;
const TURN: i64 = 1 << 33;
const MAX_JUMP: i64 = 900_000;

/// One packet, and what is read of it.
struct Packet {
    bytes: [u8; 188],
}

impl Packet {
    fn fault(&self) -> Option<&'static str> {
        if self.bytes[0] != 0x47 {
            return Some("SyncLost");
        }
        if self.error() {
            return None;
        }
        match self.control() {
            2 if self.bytes[4] > 183 => Some("BadAdaptation"),
            3 if self.bytes[4] > 182 => Some("BadAdaptation"),
            _ => None,
        }
    }

    fn error(&self) -> bool {
        self.bytes[1] & 0x80 != 0
    }

    fn unit_start(&self) -> bool {
        self.bytes[1] & 0x40 != 0
    }

    fn pid(&self) -> u16 {
        u16::from(self.bytes[1] & 0x1F) << 8 | u16::from(self.bytes[2])
    }

    fn scrambled(&self) -> bool {
        self.bytes[3] & 0xC0 != 0
    }

    fn control(&self) -> u8 {
        self.bytes[3] >> 4 & 3
    }

    fn counter(&self) -> u8 {
        self.bytes[3] & 15
    }

    fn payload(&self) -> Option<&[u8]> {
        match self.control() {
            1 => Some(&self.bytes[4..]),
            3 => Some(&self.bytes[5 + usize::from(self.bytes[4])..]),
            _ => None,
        }
    }
}

/// The time stamp in five bytes.
fn stamp(bytes: &[u8]) -> i64 {
    i64::from(bytes[0] >> 1 & 7) << 30
        | i64::from(bytes[1]) << 22
        | i64::from(bytes[2] >> 1) << 15
        | i64::from(bytes[3]) << 7
        | i64::from(bytes[4] >> 1)
}

/// The presentation time of a unit that starts with this payload, if it has one.
fn presentation_time(payload: &[u8]) -> Result<Option<i64>, &'static str> {
    const SPLIT: &str = "HeaderSplit";
    let at = |index: usize| payload.get(index).copied().ok_or(SPLIT);
    if at(0)? != 0 || at(1)? != 0 || at(2)? != 1 {
        return Ok(None);
    }
    if matches!(at(3)?, 0xBC | 0xBE | 0xBF | 0xF0 | 0xF1 | 0xF2 | 0xF8 | 0xFF) || at(6)? & 0xC0 != 0x80 {
        return Ok(None);
    }
    let stamps = match at(7)? >> 6 {
        2 => 5,
        3 => 10,
        _ => return Ok(None),
    };
    if at(8)? < stamps {
        return Ok(None);
    }
    let bytes = payload.get(9..9 + usize::from(stamps)).ok_or(SPLIT)?;
    Ok(Some(stamp(bytes)))
}

/// The time congruent to this one modulo 2^33 that lies within 2^32 of another.
fn near(time: i64, other: i64) -> i64 {
    other + (time - other + TURN / 2).rem_euclid(TURN) - TURN / 2
}

/// The state of a cut.
struct Cut {
    pid: u16,
    from: i64,
    length: i64,
    high: Option<i64>,
    start: i64,
    is_inside: bool,
    dropped: u8,
    /// The counter with which the PID's last payload packet came.
    last_counter: Option<u8>,
    is_repeat: bool,
}

/// What becomes of a packet.
struct Fate {
    is_kept: bool,
    /// Whether it is the PID's last payload packet now.
    is_last: bool,
}

impl Cut {
    /// Follows a unit's start.
    fn start_unit(&mut self, payload: &[u8]) -> Result<(), &'static str> {
        let Some(pts) = presentation_time(payload)? else {
            return Ok(());
        };
        let time = match self.high {
            None => {
                self.start = near(self.from, pts);
                self.high = Some(pts);
                pts
            }
            Some(high) => {
                let time = near(pts, high);
                if (time - high).abs() > MAX_JUMP {
                    return Err("TimeJump");
                }
                self.high = Some(high.max(time));
                time
            }
        };
        self.is_inside = self.start <= time && time < self.start + self.length;
        Ok(())
    }

    /// Whether the packet repeats the payload packet before it on its PID, which `last` holds, with whatever counter.
    fn repeats(&self, packet: &Packet, payload: &[u8], last: &Packet) -> bool {
        !self.is_repeat
            && self.last_counter == Some(packet.counter())
            && last.unit_start() == packet.unit_start()
            && last.payload() == Some(payload)
    }

    /// What becomes of the packet, with its counter changed where that is due.
    fn judge(&mut self, packet: &mut Packet, last: &Packet) -> Result<Fate, &'static str> {
        if packet.error() || packet.pid() != self.pid {
            return Ok(Fate { is_kept: true, is_last: false });
        }
        let mut is_last = false;
        if let Some(payload) = packet.payload() {
            if packet.scrambled() {
                return Err("Scrambled");
            }
            let repeats = self.repeats(packet, payload, last);
            if packet.unit_start() && !repeats {
                self.start_unit(payload)?;
            }
            self.last_counter = Some(packet.counter());
            self.is_repeat = repeats;
            is_last = true;
            if self.is_inside {
                if !repeats {
                    self.dropped = self.dropped.wrapping_add(1);
                }
                return Ok(Fate { is_kept: false, is_last });
            }
        }
        packet.bytes[3] = packet.bytes[3] & 0xF0 | packet.counter().wrapping_sub(self.dropped) & 15;
        Ok(Fate { is_kept: true, is_last })
    }
}

/// Reads a packet of which the buffer holds a part at most; false at the end.
#[cold]
fn read_on(reader: &mut impl Read, packet: &mut Packet) -> Result<bool, &'static str> {
    let mut at = 0;
    while at < 188 {
        match reader.read(&mut packet.bytes[at..]) {
            Ok(0) => return if at == 0 { Ok(false) } else { Err("Truncated") },
            Ok(count) => at += count,
            Err(error) if error.kind() == ErrorKind::Interrupted => {}
            Err(_) => return Err("Io"),
        }
    }
    Ok(true)
}

/// Reads the next packet, out of the buffer where it stands there whole; false at the end.
fn read(reader: &mut BufReader<File>, packet: &mut Packet) -> Result<bool, &'static str> {
    if reader.buffer().len() >= 188 {
        packet.bytes.copy_from_slice(&reader.buffer()[..188]);
        reader.consume(188);
    } else if !read_on(reader, packet)? {
        return Ok(false);
    }
    match packet.fault() {
        None => Ok(true),
        Some(fault) => Err(fault),
    }
}

fn run(cut: &mut Cut, reader: &mut BufReader<File>, writer: &mut impl Write) -> Result<(), &'static str> {
    let (mut first, mut second) = (Packet { bytes: [0; 188] }, Packet { bytes: [0; 188] });
    let (mut packet, mut last) = (&mut first, &mut second);
    while read(reader, packet)? {
        let fate = cut.judge(packet, last)?;
        if fate.is_kept {
            writer.write_all(&packet.bytes).map_err(|_| "Io")?;
        }
        if fate.is_last {
            std::mem::swap(&mut packet, &mut last);
        }
    }
    Ok(())
}

fn main() {
    let words: Vec<String> = std::env::args().collect();
    let value = |name: &str| {
        let place = words.iter().position(|word| word == name).expect(name);
        words[place + 1].as_str()
    };
    let mut cut = Cut {
        pid: value("--pid").parse().expect("--pid"),
        from: value("--from").parse().expect("--from"),
        length: value("--length").parse().expect("--length"),
        high: None,
        start: 0,
        is_inside: false,
        dropped: 0,
        last_counter: None,
        is_repeat: false,
    };
    let mut reader = BufReader::with_capacity(BUFFER_SIZE, File::open(value("--in")).expect("--in"));
    let mut writer = BufWriter::with_capacity(BUFFER_SIZE, File::create(value("--out")).expect("--out"));
    let result = run(&mut cut, &mut reader, &mut writer);
    let flushed = writer.flush().map_err(|_| "Io");
    if let Err(fault) = result.and(flushed) {
        eprintln!("fault: {fault}");
        std::process::exit(1);
    }
}
