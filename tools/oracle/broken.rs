//! Which of V1 to V6 a block breaks first, and at which byte: a second reading of the offsets that a refusal tells, from what was asked
//! for alone. Each rule lists the offset of every part of it that is broken, and the lowest is told. It shares nothing with the port, and
//! with `valid` the count of a first byte alone.

use crate::block::*;
use crate::valid::count;

/// The number of the first rule that a block of 30,020 bytes breaks, 21 for V1 to 26 for V6, and the lowest offset at which it does.
pub fn broken(b: &[u8]) -> Option<(u8, usize)> {
    assert_eq!(b.len(), LEN);
    let rules: [fn(&[u8]) -> Vec<usize>; 6] = [v1, v2, v3, v4, v5, v6];
    let mut told = rules.iter().zip(21..);
    told.find_map(|(rule, number)| Some((number, rule(b).into_iter().min()?)))
}

/// The same as one number, the offset above the low byte, or 0.
pub fn number(told: Option<(u8, usize)>) -> u32 {
    told.map_or(0, |(number, at)| 256 * at as u32 + u32::from(number))
}

/// The refusal that a block by itself calls for, 1 if it has another length, or 0.
pub fn refusal(b: &[u8]) -> u32 {
    if b.len() == LEN { number(broken(b)) } else { 1 }
}

/// The bytes of a part that must be zero and are not.
fn set(b: &[u8], part: impl IntoIterator<Item = usize>) -> Vec<usize> {
    part.into_iter().filter(|at| b[*at] != 0).collect()
}

fn v1(b: &[u8]) -> Vec<usize> {
    let mut at = Vec::new();
    if b[MASK] > 3 {
        at.push(MASK);
    }
    // also where the mask itself is too great
    if b[JOYPAD_INDEX] | b[JOYPAD_MASK] != b[JOYPAD_MASK] {
        at.push(JOYPAD_INDEX);
    }
    if b[JOYPAD_MASK] > 3 {
        at.push(JOYPAD_MASK);
    }
    at
}

fn v2(b: &[u8]) -> Vec<usize> {
    let flags = [P15_HIGH, LINES_HIGH, PRESET_IN_FORCE, FROZEN_PRESENT];
    let mut at: Vec<usize> = flags.into_iter().filter(|at| b[*at] > 1).collect();
    // bytes 3 and 4 against each other: the lower one is told
    if b[LINES_HIGH] == 1 && b[P15_HIGH] != 1 {
        at.push(P15_HIGH);
    }
    at.extend(set(b, SPARE));
    at
}

fn v3(b: &[u8]) -> Vec<usize> {
    match b[RECEIVER] {
        0 => set(b, (EXPECTED..=BIT_INDEX).chain(PACKET).chain(STORE)),
        1 if b[RECEIVED] == 0 => [bits(b), set(b, [EXPECTED].into_iter().chain(STORE))].concat(),
        1 => [bits(b), packets(b)].concat(),
        2 => [set(b, [BIT_INDEX].into_iter().chain(PACKET)), packets(b)].concat(),
        _ => vec![RECEIVER],
    }
}

/// A packet that is coming in: an index past its end, and each byte with a bit that can't have come yet.
fn bits(b: &[u8]) -> Vec<usize> {
    let index = usize::from(b[BIT_INDEX]);
    let places = (index..128).filter(|i| b[PACKET.start + i / 8] & 1 << (i % 8) != 0);
    let mut at: Vec<usize> = places.map(|i| PACKET.start + i / 8).collect();
    if index > 128 {
        at.push(BIT_INDEX);
    }
    at
}

/// A command of which some packets are in and some are not.
fn packets(b: &[u8]) -> Vec<usize> {
    let (expected, received) = (b[EXPECTED], b[RECEIVED]);
    let mut at = set(b, STORE.start + 16 * usize::from(received)..STORE.end);
    if received == 0 {
        at.push(RECEIVED);
    }
    // the byte of those received, and the store's first, against the byte of those expected, which is the lower one
    if expected <= received || expected > 7 || expected != count(b[STORE.start]) {
        at.push(EXPECTED);
    }
    at
}

fn v4(b: &[u8]) -> Vec<usize> {
    let most = if b[COUNTDOWN] == 0 { 0 } else { 4 };
    if b[COUNTDOWN] > 3 {
        vec![COUNTDOWN]
    } else if b[KIND] > most {
        vec![KIND]
    } else {
        vec![]
    }
}

fn v5(b: &[u8]) -> Vec<usize> {
    match b[PRESET_IN_FORCE] {
        0 => set(b, PRESET),
        _ => vec![],
    }
}

/// V1 and V2 hold here: there are four modes, and byte 12 is a flag.
fn v6(b: &[u8]) -> Vec<usize> {
    let frozen = b[FROZEN_PRESENT] != 0;
    let mut at = if frozen { vec![] } else { set(b, FROZEN) };
    // byte 0 against byte 12: mode 1 is the one that must have a capture, mode 0 may have one
    if b[MASK] != 0 && frozen != (b[MASK] == 1) {
        at.push(MASK);
    }
    at
}
