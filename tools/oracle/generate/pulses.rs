//! Commands, the writes that send them, with and without faults, and whole logs.

use super::{fill, screen};
use crate::block::*;
use crate::event::Event;
use crate::rng::Rng;
use crate::valid;

/// The bytes of a command of this code (00 to 1F hex) that says it is of `packets` packets (0 to 7): as many packets as
/// the receiver will take for it, at least one.
pub fn command(rng: &mut Rng, code: u8, packets: u8) -> Vec<u8> {
    let first = code << 3 | packets;
    let mut d = vec![0; 16 * usize::from(valid::count(first).max(1))];
    fill(rng, &mut d);
    if !rng.one_in(3) {
        shape(rng, code, &mut d);
    }
    d[0] = first;
    d
}

pub fn any_command(rng: &mut Rng) -> Vec<u8> {
    let code = rng.below(0x20) as u8;
    let packets = if rng.one_in(3) { rng.below(8) } else { 1 };
    command(rng, code, packets as u8)
}

/// Data as a game would send it for this code, near the edges of what it may send.
fn shape(rng: &mut Rng, code: u8, d: &mut [u8]) {
    let room = d.len();
    match code {
        0x04 => {
            d[1] = rng.within(0, room / 6 + 1) as u8;
            for set in d[2..].chunks_mut(6) {
                set[0] = if rng.one_in(8) {
                    rng.byte()
                } else {
                    rng.below(8) as u8
                };
                for corner in set.iter_mut().skip(2) {
                    *corner = rng.below(22) as u8;
                }
            }
        }
        0x05 => {
            d[1] = rng.within(0, room) as u8;
            for line in &mut d[2..] {
                *line = line.wrapping_mul(0x20) | rng.below(22) as u8;
            }
        }
        0x06 => d[2] = rng.below(22) as u8,
        0x07 => {
            d[1] = rng.pick(&[0, 1, 5, 10, 18, 19, 20, 255]);
            d[2] = rng.pick(&[0, 1, 4, 9, 16, 17, 18, 255]);
            let count = rng.pick(&[0, 1, 2, 39, 40, 41, 255, 256, 360, 361, 65_535]);
            d[3..5].copy_from_slice(&u16::to_le_bytes(count));
            d[5] = rng.pick(&[0, 0, 1, 1, 2, 255]);
        }
        0x0A => {
            for i in 0..4 {
                let any = rng.below(512);
                let palette = rng.pick(&[0, 1, 255, 256, 511, 512, 0xFFFF, any]);
                d[1 + 2 * i..3 + 2 * i].copy_from_slice(&(palette as u16).to_le_bytes());
            }
            d[9] = rng.pick(&[0, 0x40, 0x80, 0xC0]) | rng.within(0, 46) as u8;
        }
        0x11 | 0x13 | 0x17 => d[1] = rng.below(4) as u8,
        0x16 => d[1] = rng.pick(&[0, 0x40, 0x80]) | rng.within(0, 46) as u8,
        _ => {}
    }
}

/// Makes a command announce so many items: its first byte, and the number, in byte 1 or, for the cells of ATTR_CHR, in the word at byte 3.
pub fn announce(d: &mut [u8], first: u8, items: usize) {
    d[0] = first;
    match first / 8 {
        0x07 => d[3..5].copy_from_slice(&(items as u16).to_le_bytes()),
        _ => d[1] = items as u8,
    }
}

/// RULES 7.1: 260 writes a packet.
pub fn encode(command: &[u8]) -> Vec<u8> {
    let mut writes = Vec::new();
    for packet in command.chunks(16) {
        writes.extend([0x00, 0x30]);
        for i in 0..8 * packet.len() {
            writes.extend([pulse(packet[i / 8] >> (i % 8) & 1), 0x30]);
        }
        writes.extend([0x20, 0x30]);
    }
    writes
}

fn pulse(bit: u8) -> u8 {
    if bit == 1 { 0x10 } else { 0x20 }
}

/// The writes that bring the command under way in a valid block to its end, whatever its stage.
pub fn rest_of_command(rng: &mut Rng, block: &[u8]) -> Vec<u8> {
    let mut writes = Vec::new();
    let mut received = block[RECEIVED];
    let mut expected = block[EXPECTED];
    if block[RECEIVER] == 1 {
        let mut first = block[PACKET.start];
        for i in block[BIT_INDEX]..128 {
            let bit = rng.byte() & 1;
            first |= if i < 8 { bit << i } else { 0 };
            writes.extend([0x30, pulse(bit)]);
        }
        // the stop pulse is either one
        writes.extend([0x30, pulse(rng.byte() & 1), 0x30]);
        expected = if received == 0 {
            valid::count(first)
        } else {
            expected
        };
        received += 1;
    }
    if received < expected {
        let mut packets = vec![0; 16 * usize::from(expected - received)];
        fill(rng, &mut packets);
        writes.extend(encode(&packets));
    }
    writes
}

/// About `n` writes: whole commands, commands with faults, and lines at random, the other six bits of a write too.
pub fn writes(rng: &mut Rng, n: usize) -> Vec<u8> {
    let mut writes = Vec::new();
    while writes.len() < n {
        let mut part = match rng.below(8) {
            0 => (0..rng.within(1, 60)).map(|_| rng.byte()).collect(),
            1 => [0x30, 0x20, 0x10, 0x30].repeat(rng.within(1, 8)),
            _ => encode(&any_command(rng)),
        };
        if rng.one_in(3) {
            fault(rng, &mut part);
        }
        if rng.one_in(4) {
            let noise = rng.byte() & 0xCF;
            part.iter_mut().for_each(|w| *w |= noise);
        }
        writes.extend(part);
    }
    writes
}

/// A pulse lost, sent twice, changed, without its release, or the command cut short.
fn fault(rng: &mut Rng, writes: &mut Vec<u8>) {
    let at = rng.below(writes.len());
    match rng.below(5) {
        0 => drop(writes.remove(at)),
        1 => writes.insert(at, writes[at]),
        2 => writes[at] ^= rng.pick(&[0x10, 0x20, 0x30]),
        3 => writes.insert(at, rng.pick(&[0x00, 0x10, 0x20, 0x30])),
        _ => writes.truncate(at + 1),
    }
}

/// Events of a log: lines of writes, and after some of them as many screens as a transfer needs to land, or fewer.
pub fn events(rng: &mut Rng, lines: usize) -> Vec<Event> {
    let mut events = Vec::new();
    for _ in 0..lines {
        let transfer = rng.pick(&[0x0B, 0x13, 0x13, 0x14, 0x15]);
        let n = rng.within(1, 600);
        let (mut line, screens) = match rng.below(3) {
            0 => (encode(&command(rng, transfer, 1)), rng.within(1, 4)),
            _ => (writes(rng, n), rng.below(2)),
        };
        line.truncate(SCREEN_LEN);
        events.push(Event::Writes(line));
        events.extend((0..screens).map(|_| Event::Screen(screen(rng))));
    }
    events
}

/// A long log in which most transfers land: one is asked for, as many screens follow as it takes, or one fewer or more, and then
/// writes, which a screen may cut in two wherever it is.
pub fn transfers(rng: &mut Rng, n: usize) -> Vec<Event> {
    let mut events = Vec::new();
    for _ in 0..n {
        let transfer = rng.pick(&[0x0B, 0x13, 0x13, 0x14, 0x15]);
        events.push(Event::Writes(encode(&command(rng, transfer, 1))));
        let screens = rng.pick(&[2, 3, 3, 3, 4]);
        events.extend((0..screens).map(|_| Event::Screen(screen(rng))));
        let most = rng.within(1, 1200);
        let mut line = writes(rng, most);
        line.truncate(SCREEN_LEN);
        if rng.one_in(3) {
            let rest = line.split_off(rng.below(line.len()));
            events.extend([Event::Writes(line), Event::Screen(screen(rng))]);
            line = rest;
        }
        events.push(Event::Writes(line));
    }
    events
}
