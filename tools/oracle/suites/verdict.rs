//! The verdict, which the Rust lacks. It is held to a second reading of RULES 7.2, with a table worked by hand of what packets hold, and by 7.3 to
//! what the Rust does: with a number of packets that it may have, a command conforms exactly if the last item that it announces is carried out.

use crate::block::*;
use crate::both::Both;
use crate::ctx::Ctx;
use crate::generate;
use crate::oracle::attribute_cells;
use crate::rng::Rng;
use crate::valid;

unsafe extern "C" {
    // a slice is a pointer and a length
    fn probe_verdict(command: *const u8, len: usize) -> u8;
}

const ATTR_BLK: u8 = 0x04;
const ATTR_LIN: u8 = 0x05;
const ATTR_CHR: u8 = 0x07;
/// The codes that announce how many items follow: sets, lines, cells.
const ANNOUNCING: [u8; 3] = [ATTR_BLK, ATTR_LIN, ATTR_CHR];

/// How many items are held by one packet, by two, and so on to seven, worked by hand: of 16, 32, 48, 64, 80, 96 and 112 bytes two come before the
/// sets, of six bytes each, two before the lines, of one, and six before the cells, four in a byte. ATTR_CHR may not have seven packets.
const SETS: [usize; 7] = [2, 5, 7, 10, 13, 15, 18];
const LINES: [usize; 7] = [14, 30, 46, 62, 78, 94, 110];
const CELLS: [usize; 7] = [40, 104, 168, 232, 296, 360, 0];

/// ATTR_SET of file 0.
const MAP_ANEW: [u8; 16] = [0xB1, 0, 0, 0, 0, 0, 0, 0, 0, 0, 0, 0, 0, 0, 0, 0];

pub fn run(ctx: &mut Ctx) {
    every_number(ctx);
    every_code(ctx);
    every_length(ctx);
    last_items(ctx);
}

fn verdict(d: &[u8]) -> u8 {
    unsafe { probe_verdict(d.as_ptr(), d.len()) }
}

/// RULES 7.2 read a second time: 5 for a malformed command, 1 for one that conforms, 0 for one that differs.
fn due(d: &[u8]) -> u8 {
    let packets = d.len() / 16;
    if packets == 0 || d.len() != 16 * usize::from(valid::count(d[0])) {
        return 5;
    }
    let (items, held) = match d[0] / 8 {
        ATTR_BLK => (usize::from(d[1]), SETS[packets - 1]),
        ATTR_LIN => (usize::from(d[1]), LINES[packets - 1]),
        ATTR_CHR => (
            usize::from(d[3]) + 256 * usize::from(d[4]),
            CELLS[packets - 1],
        ),
        code => return u8::from(code <= 0x19 && packets == 1),
    };
    u8::from(items >= 1 && items <= held)
}

/// One case: the command with its other bytes zero, and with its other bytes random, on which the answer must not hang.
fn both_ways(ctx: &mut Ctx, len: usize, put: impl Fn(&mut [u8])) {
    let (mut plain, mut noisy) = ([0; 128], noise(&mut ctx.rng));
    put(&mut plain);
    put(&mut noisy);
    let wrong = [&plain[..len], &noisy[..len]]
        .into_iter()
        .find(|d| verdict(d) != due(d));
    ctx.check(wrong.is_none(), || {
        let d = wrong.unwrap();
        let (told, due, start) = (verdict(d), due(d), &d[..len.min(16)]);
        format!("verdict of {len} bytes, {start:02X?} ..: {told}, due {due}")
    });
}

fn noise(rng: &mut Rng) -> [u8; 128] {
    let mut d = [0; 128];
    for eight in d.chunks_exact_mut(8) {
        eight.copy_from_slice(&rng.next().to_le_bytes());
    }
    d
}

/// Every number that can be announced, in every number of packets. A command whose first byte says 0 packets is malformed.
fn every_number(ctx: &mut Ctx) {
    for code in ANNOUNCING {
        let most = if code == ATTR_CHR { 0xFFFF } else { 0xFF };
        for packets in 0..8 {
            let len = 16 * usize::from(packets.max(1));
            for items in 0..=most {
                both_ways(ctx, len, |d| {
                    generate::announce(d, code << 3 | packets, items)
                });
            }
        }
    }
}

/// Every first byte, with numbers at and around each edge in d1 and in the word at d3.
fn every_code(ctx: &mut Ctx) {
    let edges = [0, 1, 2, 17, 18, 19, 109, 110, 111, 255];
    let words = [0u16, 1, 2, 255, 256, 359, 360, 361, 65_535];
    for first in 0..=255u8 {
        let len = 16 * usize::from(valid::count(first).max(1));
        for d1 in edges {
            for word in words {
                both_ways(ctx, len, |d| {
                    d[..2].copy_from_slice(&[first, d1]);
                    d[3..5].copy_from_slice(&word.to_le_bytes());
                });
            }
        }
    }
}

/// Every first byte with every length up to eight packets.
fn every_length(ctx: &mut Ctx) {
    for first in 0..=255 {
        for len in 0..=128 {
            both_ways(ctx, len, |d| d[0] = first);
        }
    }
}

/// Each number of items up to and past what packets hold, in each number of packets, sent to both units.
fn last_items(ctx: &mut Ctx) {
    for _ in ctx.rounds(1) {
        for code in ANNOUNCING {
            for packets in 1..=7 {
                let mut start = post_boot();
                generate::fill(&mut ctx.rng, &mut start[MAP]);
                start.copy_within(MAP, FILES.start);
                let map = unpack(&start[MAP]);
                let (mut d, held) = match code {
                    ATTR_BLK => (sets(&mut ctx.rng, &map), SETS),
                    ATTR_LIN => (lines(&mut ctx.rng, &map), LINES),
                    _ => (cells(&mut ctx.rng, &map), CELLS),
                };
                d.truncate(16 * packets);
                d[0] = code << 3 | packets as u8;
                ascending(ctx, &start, d, held[packets - 1]);
            }
        }
    }
}

/// Commands that are the same but for the number that they announce, which goes up from 0. Each is sent to the same map, and each item changes
/// it (but for cells off the map). So the last item was carried out exactly if the Rust's map is another than after the command before.
fn ascending(ctx: &mut Ctx, start: &[u8], mut d: Vec<u8>, held: usize) {
    let mut both = Both::load(start, 0);
    let mut before = attribute_cells(&start[MAP]);
    let mut carried_out = 0;
    let first = d[0];
    // past what seven packets hold, and the greatest
    let numbers: Vec<usize> = match first / 8 {
        ATTR_CHR => (0..=430).chain(65_530..=65_535).collect(),
        _ => (0..=255).collect(),
    };
    for items in numbers {
        generate::announce(&mut d, first, items);
        let mut writes = generate::encode(&MAP_ANEW);
        writes.extend(generate::encode(&d));
        if let Err(why) = both.play(&writes) {
            ctx.check(false, || format!("{first:02X}, {items} items: {why}"));
            return;
        }
        let after = both.sides().1.0.render_data().attribute_map.cells;
        let last = after != before;
        let told = verdict(&d);
        // ATTR_CHR of seven packets is carried out, but doesn't conform
        ctx.check(told == u8::from(last && held > 0), || {
            format!("{first:02X}, {items} items: {told}; the Rust carries out the last: {last}")
        });
        carried_out += usize::from(last);
        before = after;
    }
    let due = if held > 0 { held } else { 360 };
    ctx.same(
        || format!("items of {first:02X}, by hand and carried out"),
        due,
        carried_out,
    );
}

/// Another palette than this.
fn other(rng: &mut Rng, palette: u8) -> u8 {
    (palette + rng.within(1, 3) as u8) & 3
}

/// Sets of one cell each, which is its line, and of no cell twice. The line takes its own palette or, without bit 1, the inside's.
fn sets(rng: &mut Rng, map: &[u8]) -> Vec<u8> {
    let mut d = noise(rng)[..112].to_vec();
    let from = rng.below(360);
    for (i, set) in d[2..].chunks_exact_mut(6).enumerate() {
        let at = (from + 19 * i) % 360;
        let (x, y) = ((at % 20) as u8, (at / 20) as u8);
        let control = rng.byte() & 0xF8 | rng.within(1, 3) as u8;
        let palettes = rng.byte() & 0xF0 | 5 * other(rng, map[at]);
        set.copy_from_slice(&[control, palettes, x, y, x, y]);
    }
    d
}

/// Rows and columns by turns: each crosses the one before it, and has another palette.
fn lines(rng: &mut Rng, map: &[u8]) -> Vec<u8> {
    let mut d = noise(rng)[..112].to_vec();
    let mut palette = 0;
    for (i, line) in d[2..].iter_mut().enumerate() {
        let (row, most) = if i % 2 == 0 { (0x80, 18) } else { (0, 20) };
        let number = rng.below(most);
        if i == 0 {
            palette = map[20 * number];
        }
        palette = other(rng, palette);
        *line = row | palette << 5 | number as u8;
    }
    d
}

/// All cells of the map from the first on, along rows or along columns; those that follow are off it.
fn cells(rng: &mut Rng, map: &[u8]) -> Vec<u8> {
    let mut d = noise(rng)[..112].to_vec();
    let down = rng.one_in(2);
    let mut palettes = [0; 424];
    for (i, palette) in palettes.iter_mut().enumerate() {
        let at = if down { i % 18 * 20 + i / 18 } else { i };
        *palette = other(rng, map[at % 360]);
    }
    d[1..3].fill(0);
    d[5] = u8::from(down);
    d[6..].copy_from_slice(&pack(&palettes));
    d
}
