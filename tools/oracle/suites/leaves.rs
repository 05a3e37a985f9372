//! The leaves of `bits` and `colour` and the packet count, exhaustively: each byte, pair of bytes and word, and every lent slice up to a few
//! bytes. What the Rust has no function for (`put`, `all_zero`) is held to its plain meaning.

use crate::block;
use crate::ctx::Ctx;
use crate::oracle::{self, BorderMapEntry};

unsafe extern "C" {
    safe fn probe_packet_count(first: u8) -> u8;
    safe fn probe_word(low: u8, high: u8) -> u16;
    safe fn probe_colour(low: u8, high: u8) -> u16;
    safe fn probe_low_byte(w: u16) -> u8;
    safe fn probe_high_byte(w: u16) -> u8;
    safe fn probe_rgb8(w: u16) -> u32;
    safe fn probe_tile(w: u16) -> u16;
    safe fn probe_palette(w: u16) -> u16;
    safe fn probe_flip_x(w: u16) -> u8;
    safe fn probe_flip_y(w: u16) -> u8;
    safe fn probe_low_plane(a: u8, b: u8) -> u8;
    safe fn probe_high_plane(a: u8, b: u8) -> u8;
    // j below 4
    fn probe_pair(x: u8, j: u8) -> u8;
    // at + src within dst; a slice is a pointer and a length
    fn probe_put(dst: *mut u8, dst_len: usize, at: usize, src: *const u8, src_len: usize);
    fn probe_all_zero(s: *const u8, len: usize) -> u8;
}

pub fn run(ctx: &mut Ctx) {
    counts(ctx);
    words(ctx);
    pairs(ctx);
    planes(ctx);
    copies(ctx);
    zeros(ctx);
}

/// Every first byte of a command.
fn counts(ctx: &mut Ctx) {
    for first in 0..=255u8 {
        let (port, rust) = (probe_packet_count(first), oracle::packet_count(first));
        ctx.same(|| format!("packet_count {first:02X}"), port, rust);
    }
}

/// Every word, as two bytes, as a colour and as an entry of the border's map.
fn words(ctx: &mut Ctx) {
    for w in 0..=u16::MAX {
        let [low, high] = w.to_le_bytes();
        let entry = BorderMapEntry(w);
        let mut same =
            |what, port: u32, rust: u32| ctx.same(|| format!("{what} {w:04X}"), port, rust);
        same("word", probe_word(low, high).into(), w.into());
        same(
            "colour",
            probe_colour(low, high).into(),
            oracle::word(low, high).into(),
        );
        same("low_byte", probe_low_byte(w).into(), low.into());
        same("high_byte", probe_high_byte(w).into(), high.into());
        same("rgb8", probe_rgb8(w), oracle::rgb8(w));
        same("tile", probe_tile(w).into(), entry.tile().into());
        same("palette", probe_palette(w).into(), entry.palette().into());
        same("flip_x", probe_flip_x(w).into(), entry.flip_x().into());
        same("flip_y", probe_flip_y(w).into(), entry.flip_y().into());
    }
}

/// Every packed byte, each of its pairs taken. The Rust takes them as an attribute file's cells.
fn pairs(ctx: &mut Ctx) {
    for x in 0..=255u8 {
        let cells = oracle::attribute_cells(&[x])[0];
        for j in 0..4u8 {
            let at = usize::from(j);
            let pair = unsafe { probe_pair(x, j) };
            ctx.same(|| format!("pair {j} of {x:02X}"), pair, cells[at]);
        }
    }
}

/// Every pair of packed bytes, as eight pixels of a tile's row. One screen shows 2,048 such rows to the Rust.
fn planes(ctx: &mut Ctx) {
    let tile_row = |i: usize| (i / 8 / 20 * 8 + i % 8) * 40 + i / 8 % 20 * 2;
    for first in (0..0x10000).step_by(2048) {
        let row = |i: usize| u16::to_be_bytes((first + i) as u16);
        let mut screen = vec![0; block::SCREEN_LEN];
        for i in 0..2048 {
            screen[tile_row(i)..][..2].copy_from_slice(&row(i));
        }
        let page = oracle::transfer_data(&screen);
        for i in 0..2048 {
            let [a, b] = row(i);
            let port = [probe_low_plane(a, b), probe_high_plane(a, b)];
            let rust = [page[2 * i], page[2 * i + 1]];
            ctx.same(|| format!("planes of {a:02X} {b:02X}"), port, rust);
        }
    }
}

/// Every place of every length up to 24, and one copy as long as a capture.
fn copies(ctx: &mut Ctx) {
    let put = |ctx: &mut Ctx, dst: &[u8], at: usize, src: &[u8]| {
        let mut port = dst.to_vec();
        let mut want = dst.to_vec();
        want[at..at + src.len()].copy_from_slice(src);
        unsafe { probe_put(port.as_mut_ptr(), port.len(), at, src.as_ptr(), src.len()) };
        let what = || format!("put of {} bytes at {at} of {}", src.len(), dst.len());
        ctx.same(what, port, want);
    };
    let src: Vec<u8> = (0..6000).map(|_| ctx.rng.byte()).collect();
    let dst: Vec<u8> = (0..9000).map(|_| ctx.rng.byte()).collect();
    for len in 0..=24 {
        for at in 0..=len {
            for n in 0..=len - at {
                put(ctx, &dst[..len], at, &src[..n]);
            }
        }
    }
    for at in [0, 1, 3000, 3240] {
        put(ctx, &dst, at, &src[..5760]);
    }
}

/// No byte, all zero, and each single bit of up to 40 bytes; a few places in a capture's length.
fn zeros(ctx: &mut Ctx) {
    let all_zero = |ctx: &mut Ctx, s: &[u8]| {
        let port = unsafe { probe_all_zero(s.as_ptr(), s.len()) };
        let want = u8::from(s.iter().all(|b| *b == 0));
        let set = s.iter().position(|b| *b != 0);
        ctx.same(
            || format!("all_zero of {}, set at {set:?}", s.len()),
            port,
            want,
        );
    };
    for len in (0..=40).chain([5760]) {
        let mut s = vec![0; len];
        all_zero(ctx, &s);
        let step = (len / 40).max(1);
        for at in (0..len).step_by(step).chain(len.checked_sub(1)) {
            for bit in 0..8 {
                s[at] = 1 << bit;
                all_zero(ctx, &s);
            }
            s[at] = 0;
        }
    }
}
