//! What each command does, held to the Rust: a block whose receiver has all of a command but its stop pulse, then that
//! pulse. The port's side is the whole unit, and beside it the decoding and the effect on each part; every byte of the block is compared.

use crate::block::{self, *};
use crate::counts::{self, count};
use crate::ctx::Ctx;
use crate::generate;
use crate::oracle::Oracle;
use crate::port::{COMMAND_LEN, write_joypad};
use crate::rng::Rng;
use crate::shrink::{Block, Bytes};
use crate::valid;

unsafe extern "C" {
    safe fn probe_mlt_req(index: u8, d1: u8) -> u16;
    // a slice is a pointer and a length; lengths as RULES 1.5 has them
    fn probe_decode(d: *const u8, len: usize) -> u16;
    fn probe_attr_blk(map: *mut u8, n: usize, d: *const u8, len: usize);
    fn probe_attr_lin(map: *mut u8, n: usize, d: *const u8, len: usize);
    fn probe_attr_div(map: *mut u8, n: usize, d: *const u8, len: usize);
    fn probe_attr_chr(map: *mut u8, n: usize, d: *const u8, len: usize);
    fn probe_attr_set_map(map: *mut u8, n: usize, files: *const u8, m: usize, flags: u8);
    fn probe_pal_set_map(map: *mut u8, n: usize, files: *const u8, m: usize, flags: u8);
    fn probe_pal_pair(p: *mut u8, n: usize, a: usize, b: usize, d: *const u8, len: usize);
    fn probe_pal_set(p: *mut u8, n: usize, s: *const u8, m: usize, d: *const u8, len: usize);
}

/// The stop pulse: P14 low, P15 high.
const STOP: u8 = 0x20;
/// Rows, columns and what lies just past them, and the greatest byte.
const EDGES: [u8; 7] = [0, 1, 17, 18, 19, 20, 255];

pub fn run(ctx: &mut Ctx) {
    for code in 0..0x20 {
        let rounds = if (0x04..0x08).contains(&code) { 150 } else { 30 };
        for _ in ctx.rounds(rounds) {
            let packets = ctx.rng.within(1, 7) as u8;
            let mut d = generate::command(&mut ctx.rng, code, packets);
            if ctx.rng.one_in(2) {
                to_the_edge(&mut ctx.rng, code, &mut d);
            }
            one(ctx, d);
        }
    }
    every_flag(ctx);
    every_index(ctx);
}

fn one(ctx: &mut Ctx, d: Vec<u8>) {
    let b = generate::block(&mut ctx.rng);
    ctx.try_on((Block(b), Bytes(d)), |(b, d)| {
        if 16 * usize::from(valid::count(d.0[0])) != d.0.len() {
            return Ok(());
        }
        let before = all_but_the_stop(&b.0, &d.0);
        let mut rust = Oracle::load(&before);
        match rust.write(STOP) {
            Some(answer) if answer == d.0 => {}
            other => return Err(format!("the Rust answers {other:X?}")),
        }
        let rust = rust.save();
        let (mut unit, mut out) = (before.clone(), [0; COMMAND_LEN]);
        let packets = write_joypad(&mut unit, STOP, &mut out) as usize;
        if 16 * packets != d.0.len() || out[..d.0.len()] != d.0 {
            return Err(format!("the unit answers {packets:X} packets, {out:X?}"));
        }
        counts::command(&d.0);
        count(|c| {
            c.writes += 1;
            c.compared += 2;
        });
        block::difference(&unit, &rust)?;
        block::difference(&carried_out(&before, &d.0, &unit), &rust)
    });
}

/// Corners, lines, starts and counts at and past the edges.
fn to_the_edge(rng: &mut Rng, code: u8, d: &mut [u8]) {
    match code {
        0x04 => {
            d[1] = rng.pick(&[1, 2, 3, 18, 255]);
            for set in d[2..].chunks_mut(6) {
                set.iter_mut()
                    .skip(2)
                    .for_each(|corner| *corner = rng.pick(&EDGES));
            }
        }
        0x05 => {
            d[1] = rng.pick(&[1, 14, 110, 255]);
            for line in &mut d[2..] {
                *line = *line & 0xE0 | rng.pick(&EDGES) & 0x1F;
            }
        }
        0x06 => d[2] = rng.pick(&EDGES),
        0x07 => {
            d[1] = rng.pick(&EDGES);
            d[2] = rng.pick(&EDGES);
            d[3..5].copy_from_slice(&rng.pick(&[1u16, 2, 40, 424, 425, 65_535]).to_le_bytes());
            d[5] &= 1;
        }
        _ => {}
    }
}

/// The block with a receiver that waits for the stop pulse of d's last packet.
fn all_but_the_stop(b: &[u8], d: &[u8]) -> Vec<u8> {
    let (earlier, last) = d.split_at(d.len() - 16);
    let mut b = b.to_vec();
    b[P15_HIGH] = 1;
    b[LINES_HIGH] = 1;
    b[RECEIVER] = 1;
    b[RECEIVED] = (earlier.len() / 16) as u8;
    b[EXPECTED] = if earlier.is_empty() {
        0
    } else {
        valid::count(d[0])
    };
    b[BIT_INDEX] = 128;
    b[PACKET].copy_from_slice(last);
    b[STORE].fill(0);
    b[STORE.start..STORE.start + earlier.len()].copy_from_slice(earlier);
    b
}

/// The block after the stop pulse: an idle receiver, and what the port's parts say of the command. The mask is told by no part but the unit.
fn carried_out(before: &[u8], d: &[u8], unit: &[u8]) -> Vec<u8> {
    let mut b = before.to_vec();
    b[LINES_HIGH] = 0;
    b[RECEIVER..=BIT_INDEX].fill(0);
    b[PACKET.start..STORE.end].fill(0);
    let (at, len) = (d.as_ptr(), d.len());
    let map = b[MAP].as_mut_ptr();
    // SAFETY: each slice has the length that the port's contract asks for
    unsafe {
        match probe_decode(at, len) {
            pair @ (0x01 | 0x23 | 0x03 | 0x12) => {
                end_preset(&mut b);
                let (first, second) = (usize::from(pair >> 4), usize::from(pair & 15));
                probe_pal_pair(b[PALETTES].as_mut_ptr(), 32, first, second, at, len);
            }
            0x40 => probe_attr_blk(map, 90, at, len),
            0x50 => probe_attr_lin(map, 90, at, len),
            0x60 => probe_attr_div(map, 90, at, len),
            0x70 => probe_attr_chr(map, 90, at, len),
            0x80 => {
                let pads = probe_mlt_req(b[JOYPAD_INDEX], d[1]);
                [b[JOYPAD_INDEX], b[JOYPAD_MASK]] = pads.to_le_bytes();
            }
            0x90 | 0x120 => mask_of(unit, &mut b),
            0xA0 => {}
            0x100 => {
                end_preset(&mut b);
                let system = b[SYSTEM_PALETTES].to_vec();
                let palettes = b[PALETTES].as_mut_ptr();
                probe_pal_set(palettes, 32, system.as_ptr(), system.len(), at, len);
                let files = b[FILES].to_vec();
                probe_pal_set_map(map, 90, files.as_ptr(), files.len(), d[9]);
                mask_of(unit, &mut b);
            }
            0x110 => {
                let files = b[FILES].to_vec();
                probe_attr_set_map(map, 90, files.as_ptr(), files.len(), d[1]);
                mask_of(unit, &mut b);
            }
            transfer => [b[COUNTDOWN], b[KIND]] = [3, (transfer & 15) as u8],
        }
    }
    b
}

fn end_preset(b: &mut [u8]) {
    b[PRESET_IN_FORCE] = 0;
    b[PRESET].fill(0);
}

/// The mask mode and the frozen capture.
fn mask_of(unit: &[u8], b: &mut [u8]) {
    b[MASK] = unit[MASK];
    b[FROZEN_PRESENT] = unit[FROZEN_PRESENT];
    b[FROZEN].copy_from_slice(&unit[FROZEN]);
}

/// MASK_EN and ATTR_SET at every byte, PAL_SET at every d9.
fn every_flag(ctx: &mut Ctx) {
    for flags in 0..=255 {
        for code in [0x0A, 0x16, 0x17] {
            let mut d = generate::command(&mut ctx.rng, code, 1);
            d[if code == 0x0A { 9 } else { 1 }] = flags;
            one(ctx, d);
        }
    }
}

/// MLT_REQ at every byte as index, valid or not.
fn every_index(ctx: &mut Ctx) {
    for d1 in 0..8 {
        for index in 0..=255 {
            let mut d = vec![0; 16];
            d[..2].copy_from_slice(&[0x89, d1]);
            let mut b = all_but_the_stop(&block::post_boot(), &d);
            [b[JOYPAD_INDEX], b[JOYPAD_MASK]] = [index, 3];
            let mut rust = Oracle::load(&b);
            rust.write(STOP);
            let rust = rust.save();
            ctx.same(
                || format!("MLT_REQ {d1:02X} at index {index:02X}"),
                probe_mlt_req(index, d1).to_le_bytes(),
                [rust[JOYPAD_INDEX], rust[JOYPAD_MASK]],
            );
        }
    }
}
