//! The unit block as RULES 1 lays it out: the name of each byte and part, the two fresh blocks,
//! and packed pairs (shades and palette numbers, four to a byte, the first in the high pair).

use std::ops::Range;

pub const LEN: usize = 30_020;
pub const SCREEN_LEN: usize = 5_760;

pub const MASK: usize = 0;
pub const JOYPAD_INDEX: usize = 1;
pub const JOYPAD_MASK: usize = 2;
pub const P15_HIGH: usize = 3;
pub const LINES_HIGH: usize = 4;
pub const RECEIVER: usize = 5;
pub const EXPECTED: usize = 6;
pub const RECEIVED: usize = 7;
pub const BIT_INDEX: usize = 8;
pub const PRESET_IN_FORCE: usize = 9;
pub const COUNTDOWN: usize = 10;
pub const KIND: usize = 11;
pub const FROZEN_PRESENT: usize = 12;

pub const SPARE: Range<usize> = 13..16;
pub const PACKET: Range<usize> = 16..32;
pub const STORE: Range<usize> = 32..144;
pub const PRESET: Range<usize> = 144..152;
pub const PALETTES: Range<usize> = 152..184;
pub const MAP: Range<usize> = 184..274;
pub const SYSTEM_PALETTES: Range<usize> = 274..4370;
pub const FILES: Range<usize> = 4370..8420;
pub const LIVE: Range<usize> = 8420..14180;
pub const FROZEN: Range<usize> = 14180..19940;
pub const TILES: Range<usize> = 19940..28132;
pub const BORDER_MAP: Range<usize> = 28132..29924;
pub const BORDER_PALETTES: Range<usize> = 29924..LEN;

/// Every part after the sixteen single bytes, with its name.
pub const PARTS: [(&str, Range<usize>); 12] = [
    ("packet", PACKET),
    ("store", STORE),
    ("preset", PRESET),
    ("palettes", PALETTES),
    ("map", MAP),
    ("system palettes", SYSTEM_PALETTES),
    ("files", FILES),
    ("live", LIVE),
    ("frozen", FROZEN),
    ("tiles", TILES),
    ("border map", BORDER_MAP),
    ("border palettes", BORDER_PALETTES),
];

fn words(words: &[u16]) -> Vec<u8> {
    words.iter().flat_map(|w| w.to_le_bytes()).collect()
}

/// `new`, byte for byte.
pub fn new() -> Vec<u8> {
    let mut block = vec![0; LEN];
    block[PRESET_IN_FORCE] = 1;
    block[PRESET].copy_from_slice(&words(&[0x67BF, 0x265B, 0x10B5, 0x2866]));
    for palette in block[SYSTEM_PALETTES].chunks_mut(8) {
        palette.copy_from_slice(&words(&[0x7FFF, 0x56B5, 0x294A, 0x0000]));
    }
    block
}

/// `post_boot`: `new` with both lines noted high.
pub fn post_boot() -> Vec<u8> {
    let mut block = new();
    block[P15_HIGH] = 1;
    block[LINES_HIGH] = 1;
    block
}

/// Numbers 0 to 3, four to a byte.
pub fn pack(pairs: &[u8]) -> Vec<u8> {
    pairs
        .chunks_exact(4)
        .map(|p| p[0] << 6 | p[1] << 4 | p[2] << 2 | p[3])
        .collect()
}

pub fn unpack(bytes: &[u8]) -> Vec<u8> {
    // made at once: a capture is unpacked at each screen
    let mut pairs = vec![0; 4 * bytes.len()];
    for (four, b) in pairs.chunks_exact_mut(4).zip(bytes) {
        four.copy_from_slice(&[b >> 6, b >> 4 & 3, b >> 2 & 3, b & 3]);
    }
    pairs
}

/// Where `at` stands, by the part's name in RULES 1.5: a reader of a failure looks there.
pub fn place(at: usize) -> String {
    match PARTS.iter().find(|(_, part)| part.contains(&at)) {
        Some((name, part)) => format!("byte {at} ({name} + {})", at - part.start),
        None => format!("byte {at}"),
    }
}

/// The first byte at which two blocks differ, or nothing.
pub fn difference(port: &[u8], rust: &[u8]) -> Result<(), String> {
    if port == rust {
        return Ok(());
    }
    if port.len() != rust.len() {
        return Err(format!("{} bytes, not {}", port.len(), rust.len()));
    }
    match (0..port.len()).find(|&i| port[i] != rust[i]) {
        None => Ok(()),
        Some(i) => Err(format!(
            "{} is {:02X}, the Rust's {:02X}",
            place(i),
            port[i],
            rust[i]
        )),
    }
}
