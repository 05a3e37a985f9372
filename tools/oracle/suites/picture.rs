//! Screens, border and picture: pages, landings, the returned parts, border and screen colours, rows and whole pictures, in
//! every mask mode, with the preset and without, and with every map word.

use crate::block::{self, *};
use crate::counts::count;
use crate::ctx::Ctx;
use crate::generate::{self, Class, Stage};
use crate::oracle::{self, Oracle};
use crate::shrink::{Block, Bytes};
use std::ops::Range;

unsafe extern "C" {
    // a slice is a pointer and a length
    fn probe_plane_byte(screen: *const u8, len: usize, t: usize, r: usize, p: usize) -> u8;
    fn probe_page(out: *mut u8, out_len: usize, screen: *const u8, len: usize);
    fn probe_land_palettes(part: *mut u8, part_len: usize, screen: *const u8, len: usize);
    fn probe_land_files(part: *mut u8, part_len: usize, screen: *const u8, len: usize);
    fn probe_land_tiles(part: *mut u8, part_len: usize, screen: *const u8, len: usize);
    fn probe_land_map(part: *mut u8, part_len: usize, screen: *const u8, len: usize);
    safe fn probe_screened(countdown: u8, kind: u8) -> u32;
    fn probe_displayed(
        live: *const u8,
        live_len: usize,
        frozen: *const u8,
        frozen_len: usize,
        mode: u8,
        out: *mut u8,
        out_len: usize,
    ) -> usize;
    fn probe_tile_part(
        tiles: *const u8,
        len: usize,
        n: usize,
        out: *mut u8,
        out_len: usize,
    ) -> usize;
    fn probe_map_entry(map: *const u8, len: usize, column: usize, row: usize) -> u16;
    fn probe_border_color(
        tiles: *const u8,
        tiles_len: usize,
        map: *const u8,
        map_len: usize,
        palettes: *const u8,
        palettes_len: usize,
        x: usize,
        y: usize,
    ) -> u32;
    fn probe_color_at(block: *const u8, len: usize, x: usize, y: usize, shade: usize) -> u16;
    fn probe_row(block: *const u8, len: usize, y: usize, out: *mut u16, out_len: usize);
    fn probe_picture(block: *const u8, len: usize, out: *mut u16, out_len: usize);
}

/// What an output holds before a call; what lies past the answer must still hold it.
const UNTOUCHED: u16 = 0xA5C3;

pub fn run(ctx: &mut Ctx) {
    pages(ctx);
    screens(ctx);
    captures(ctx);
    tiles(ctx);
    colors(ctx);
    pictures(ctx);
    every_map_word(ctx);
}

fn pages(ctx: &mut Ctx) {
    for _ in ctx.rounds(60) {
        let screen = generate::screen(&mut ctx.rng);
        ctx.try_on(Bytes(screen), |Bytes(s)| {
            let rust = oracle::transfer_data(s);
            let mut page = vec![0xA5; 4096];
            unsafe { probe_page(page.as_mut_ptr(), page.len(), s.as_ptr(), s.len()) };
            let by_planes: Vec<u8> = (0..4096)
                .map(|k| unsafe { probe_plane_byte(s.as_ptr(), s.len(), k / 16, k % 16 / 2, k % 2) })
                .collect();
            for (name, port) in [("page", page), ("plane_byte", by_planes)] {
                if let Some(k) = (0..4096).find(|&k| port[k] != rust[k]) {
                    return Err(format!("{name}: byte {k} is {:02X}, not {:02X}", port[k], rust[k]));
                }
            }
            Ok(())
        });
    }
}

/// The part that each kind lands in.
fn part_of(kind: u8) -> Range<usize> {
    match kind {
        0 => SYSTEM_PALETTES,
        1 => FILES,
        2 => TILES.start..TILES.start + 4096,
        3 => TILES.start + 4096..TILES.end,
        _ => BORDER_MAP.start..LEN,
    }
}

/// A screen at every countdown with every kind: what is left pending, what lands, and all other bytes of the block.
fn screens(ctx: &mut Ctx) {
    let pending = (1..=3).flat_map(|n| (0..=4).map(move |kind| Some((n, kind))));
    for pending in pending.chain([None]) {
        for _ in ctx.rounds(4) {
            let class = Class {
                mask: 0,
                frozen: false,
                stage: Stage::Idle,
                preset: true,
                pending,
            };
            let b = generate::block_of(&mut ctx.rng, class);
            let screen = generate::screen(&mut ctx.rng);
            ctx.try_on((Block(b), Bytes(screen)), |(Block(b), Bytes(s))| {
                let mut rust = Oracle::load(b);
                let landed = rust.screen(s);
                let mut port = b.clone();
                port[LIVE].copy_from_slice(s);
                let [_, countdown, kind, answer] =
                    probe_screened(b[COUNTDOWN], b[KIND]).to_be_bytes();
                (port[COUNTDOWN], port[KIND]) = (countdown, kind);
                let answer = (answer != 255).then_some(answer);
                if answer != landed {
                    return Err(format!("{answer:?} landed, in the Rust {landed:?}"));
                }
                if let Some(kind) = answer {
                    let part = &mut port[part_of(kind)];
                    let land = match kind {
                        0 => probe_land_palettes,
                        1 => probe_land_files,
                        2 | 3 => probe_land_tiles,
                        _ => probe_land_map,
                    };
                    unsafe { land(part.as_mut_ptr(), part.len(), s.as_ptr(), s.len()) };
                }
                block::difference(&port, &rust.save())
            });
        }
    }
}

/// The displayed screen, with captures of other lengths too.
fn captures(ctx: &mut Ctx) {
    for mode in [0, 1, 2, 3, 4, 255] {
        for live in [0, 5759, 5760, 5761] {
            for frozen in [0, 5759, 5760, 5761] {
                let captures = [live, frozen].map(|n| -> Vec<u8> {
                    (0..n).map(|_| ctx.rng.byte()).collect()
                });
                let [l, f] = &captures;
                let mut out = vec![0; 6000];
                let long = unsafe {
                    probe_displayed(
                        l.as_ptr(),
                        live,
                        f.as_ptr(),
                        frozen,
                        mode,
                        out.as_mut_ptr(),
                        out.len(),
                    )
                };
                let expected: &[u8] = match (live, frozen) {
                    (5760, 5760) => &captures[usize::from(mode == 1)],
                    _ => &[],
                };
                ctx.check(&out[..long] == expected, || {
                    format!("displayed, mode {mode}, {live} and {frozen} bytes: {long} bytes")
                });
            }
        }
    }
    for _ in ctx.rounds(20) {
        let b = generate::block(&mut ctx.rng);
        ctx.try_on(Block(b), |Block(b)| {
            let mut out = vec![0; SCREEN_LEN];
            let (live, frozen) = (&b[LIVE], &b[FROZEN]);
            let long = unsafe {
                probe_displayed(
                    live.as_ptr(),
                    live.len(),
                    frozen.as_ptr(),
                    frozen.len(),
                    b[MASK],
                    out.as_mut_ptr(),
                    out.len(),
                )
            };
            match long == SCREEN_LEN && out == Oracle::load(b).displayed() {
                true => Ok(()),
                false => Err(format!("another screen is displayed, of {long} bytes")),
            }
        });
    }
}

/// Every tile's part, and the empty one where there is none.
fn tiles(ctx: &mut Ctx) {
    for len in [0, 32, 8191, 8192, 8193] {
        let tiles: Vec<u8> = (0..len).map(|_| ctx.rng.byte()).collect();
        for n in (0..300).chain([usize::MAX / 32, usize::MAX]) {
            let mut out = [0; 40];
            let long =
                unsafe { probe_tile_part(tiles.as_ptr(), len, n, out.as_mut_ptr(), out.len()) };
            let expected: &[u8] = match len == 8192 && n < 256 {
                true => &tiles[n * 32..n * 32 + 32],
                false => &[],
            };
            ctx.check(&out[..long] == expected, || {
                format!("tile {n} of {len} bytes: {:02X?}", &out[..long])
            });
        }
    }
}

/// Map entries, the border's colour and the screen's, one by one.
fn colors(ctx: &mut Ctx) {
    for _ in ctx.rounds(8) {
        let b = generate::block(&mut ctx.rng);
        ctx.try_on(Block(b), |Block(b)| {
            let rust = Oracle::load(b);
            let (tiles, map, palettes) = (&b[TILES], &b[BORDER_MAP], &b[BORDER_PALETTES]);
            for (column, row) in (0..28).flat_map(|row| (0..32).map(move |column| (column, row))) {
                let port = unsafe { probe_map_entry(map.as_ptr(), map.len(), column, row) };
                if port != rust.map_entry(column, row) {
                    return Err(format!("map entry {column}, {row}: {port:04X}"));
                }
            }
            for (x, y) in (0..224).flat_map(|y| (0..256).map(move |x| (x, y))) {
                let port = unsafe {
                    probe_border_color(
                        tiles.as_ptr(),
                        tiles.len(),
                        map.as_ptr(),
                        map.len(),
                        palettes.as_ptr(),
                        palettes.len(),
                        x,
                        y,
                    )
                };
                if u16::try_from(port).ok() != rust.border_color_at(x, y) {
                    return Err(format!("border at {x}, {y}: {port:05X}"));
                }
            }
            for (x, y) in (0..144).step_by(3).flat_map(|y| (0..160).map(move |x| (x, y))) {
                for shade in 0..4u8 {
                    let port = unsafe {
                        probe_color_at(b.as_ptr(), b.len(), x, y, usize::from(shade))
                    };
                    if port != rust.color_at(x, y, shade) {
                        return Err(format!("shade {shade} at {x}, {y}: {port:04X}"));
                    }
                }
            }
            Ok(())
        });
    }
}

/// The picture and its rows.
fn same_picture(b: &[u8]) -> Result<(), String> {
    let rust = Oracle::load(b).picture();
    let mut whole = vec![UNTOUCHED; 57344 + 16];
    unsafe { probe_picture(b.as_ptr(), b.len(), whole.as_mut_ptr(), whole.len()) };
    if let Some(k) = (0..57344).find(|&k| whole[k] != rust[k]) {
        let (x, y) = (k % 256, k / 256);
        return Err(format!("{x}, {y} is {:04X}, the Rust's {:04X}", whole[k], rust[k]));
    }
    if whole[57344..].iter().any(|&w| w != UNTOUCHED) {
        return Err("the tail past the picture changed".to_string());
    }
    for y in 0..224 {
        let mut row = [UNTOUCHED; 256 + 16];
        unsafe { probe_row(b.as_ptr(), b.len(), y, row.as_mut_ptr(), row.len()) };
        if row[..256] != whole[y * 256..][..256] {
            return Err(format!("row {y} alone is another than in the picture"));
        }
        if row[256..].iter().any(|&w| w != UNTOUCHED) {
            return Err(format!("the tail past row {y} changed"));
        }
    }
    count(|c| {
        c.pictures += 1;
        c.rows += 224;
    });
    Ok(())
}

/// Every mask mode with the preset in force and not, the border empty and not.
fn pictures(ctx: &mut Ctx) {
    for (mask, frozen) in [(0, false), (0, true), (1, true), (2, false), (3, false)] {
        for (preset, empty) in [(false, false), (false, true), (true, false), (true, true)] {
            for _ in ctx.rounds(6) {
                let class = Class {
                    mask,
                    frozen,
                    stage: Stage::Idle,
                    preset,
                    pending: None,
                };
                let mut b = generate::block_of(&mut ctx.rng, class);
                if empty {
                    b[TILES.start..LEN].fill(0);
                }
                ctx.try_on(Block(b), |Block(b)| same_picture(b));
            }
        }
    }
}

/// All 65,536 map words, so every flip, palettes 0 to 7 and tiles to 1,023, 896 to a picture.
fn every_map_word(ctx: &mut Ctx) {
    for first in ctx.rounds(1).flat_map(|_| (0..0x10000).step_by(896)) {
        let mut b = generate::block(&mut ctx.rng);
        b[TILES].iter_mut().for_each(|t| *t = ctx.rng.byte());
        for (i, entry) in b[BORDER_MAP].chunks_mut(2).enumerate() {
            // neighbouring words differ in many bits
            let word = (first + i).wrapping_mul(40503) as u16;
            entry.copy_from_slice(&word.to_le_bytes());
        }
        ctx.try_on(Block(b), |Block(b)| same_picture(b));
    }
}
