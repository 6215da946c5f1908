//! What `crc` of `psi_section` is measured against: CRC_32 by a table of 256 words in plain Rust, over standard input.

use std::io::{Read, stdin};

fn table() -> [u32; 256] {
    let mut words = [0u32; 256];
    for (number, word) in words.iter_mut().enumerate() {
        let mut value = (number as u32) << 24;
        for _ in 0..8 {
            value = if value & 0x8000_0000 != 0 { value << 1 ^ 0x04C1_1DB7 } else { value << 1 };
        }
        *word = value;
    }
    words
}

fn main() {
    let mut bytes = Vec::new();
    stdin().lock().read_to_end(&mut bytes).expect("standard input");
    let words = table();
    let mut value = u32::MAX;
    for byte in &bytes {
        value = value << 8 ^ words[usize::from((value >> 24) as u8 ^ byte)];
    }
    println!("{value:08X}");
}
