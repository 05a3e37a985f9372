//! V1 to V6, read from RULES 1.6 to 1.12 alone, clause by clause. It shares nothing with the port's check
//! or with the generator, so that each can be held to it.

use crate::block::*;

/// The count of a command by its first byte (RULES 3.8).
pub fn count(first: u8) -> u8 {
    if first / 8 >= 0x1E { 1 } else { first & 7 }
}

/// The first clause that a block of 30,020 bytes breaks, in the order of RULES.
pub fn check(block: &[u8]) -> Result<(), &'static str> {
    assert_eq!(block.len(), LEN);
    clauses(block)
        .into_iter()
        .find(|(_, holds)| !holds)
        .map_or(Ok(()), |(name, _)| Err(name))
}

/// Every clause by name, and whether the block keeps it.
pub fn clauses(b: &[u8]) -> Vec<(&'static str, bool)> {
    let zero = |part: std::ops::Range<usize>| b[part].iter().all(|x| *x == 0);
    let idle = b[5] == 0;
    let receiving = b[5] == 1;
    let awaiting = b[5] == 2;
    let first = receiving && b[7] == 0;
    let later = awaiting || (receiving && b[7] > 0);
    let bit = |i: usize| b[16 + i / 8] >> (i % 8) & 1;

    vec![
        ("V1: byte 0 at most 3", b[0] <= 3),
        ("V1: byte 2 at most 3", b[2] <= 3),
        ("V1: byte 1 within byte 2", b[1] & !b[2] == 0),
        ("V2: byte 3 a flag", b[3] <= 1),
        ("V2: byte 4 a flag", b[4] <= 1),
        ("V2: byte 9 a flag", b[9] <= 1),
        ("V2: byte 12 a flag", b[12] <= 1),
        ("V2: byte 4 only with byte 3", b[4] != 1 || b[3] == 1),
        ("V2: bytes 13 to 15 zero", zero(13..16)),
        ("V3: a receiver number", idle || receiving || awaiting),
        ("V3: idle, bytes 6 to 8 zero", !idle || zero(6..9)),
        ("V3: idle, bytes 16 to 143 zero", !idle || zero(16..144)),
        (
            "V3: receiving, index at most 128",
            !receiving || b[8] <= 128,
        ),
        (
            "V3: receiving, bits past the index zero",
            !receiving || (usize::from(b[8])..128).all(|i| bit(i) == 0),
        ),
        ("V3: awaiting, index zero", !awaiting || b[8] == 0),
        ("V3: awaiting, packet zero", !awaiting || zero(16..32)),
        ("V3: first packet, expected 0", !first || b[6] == 0),
        ("V3: first packet, store zero", !first || zero(32..144)),
        ("V3: later packet, received 1 or more", !later || b[7] >= 1),
        (
            "V3: later packet, received < expected",
            !later || b[7] < b[6],
        ),
        ("V3: later packet, expected at most 7", !later || b[6] <= 7),
        (
            "V3: later packet, expected is the count",
            !later || b[6] == count(b[32]),
        ),
        (
            "V3: later packet, store zero past what is in",
            !later || b[7] > 7 || zero(32 + 16 * usize::from(b[7])..144),
        ),
        (
            "V4: countdown and kind",
            (b[10] == 0 && b[11] == 0) || ((1..=3).contains(&b[10]) && b[11] <= 4),
        ),
        ("V5: no preset, its bytes zero", b[9] != 0 || zero(144..152)),
        ("V6: mask 1 has a frozen capture", b[0] != 1 || b[12] == 1),
        ("V6: mask 2 has none", b[0] != 2 || b[12] == 0),
        ("V6: mask 3 has none", b[0] != 3 || b[12] == 0),
        ("V6: none, its bytes zero", b[12] != 0 || zero(14180..19940)),
    ]
}
