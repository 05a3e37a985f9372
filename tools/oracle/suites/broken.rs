//! Damaged blocks, and what a refusal tells of them: the first rule of V1 to V6 that is broken, and the lowest byte that breaks it. First
//! `broken`'s reading itself, on blocks whose answers are written down here, and against `valid`. Then our check of each block, and the
//! calls, which must tell the same and leave every lent byte as it was.

mod worked;

use super::unit::{change, damage};
use super::views::{self, Call, UNTOUCHED};
use crate::block::{self, *};
use crate::both::marked;
use crate::broken;
use crate::counts;
use crate::ctx::Ctx;
use crate::generate::{self, Class, Stage};
use crate::port::*;
use crate::rng::Rng;
use crate::shrink::{Block, List};
use crate::valid;
use std::collections::BTreeSet;
use std::ops::Range;
use worked::{WORKED, Worked};

pub fn run(ctx: &mut Ctx) {
    worked(ctx);
    together(ctx);
    header(ctx);
    numbers(ctx);
    receivers(ctx);
    packet_bits(ctx);
    every_byte(ctx);
    areas(ctx);
    classes(ctx);
    let offsets = counts::offsets();
    ctx.check(offsets == counts::OFFSETS, || {
        format!("{offsets} numbers with their offsets")
    });
}

fn worked(ctx: &mut Ctx) {
    for (bytes, number, at) in WORKED {
        reads(ctx, bytes, at << 8 | number);
        let same = by_all(&hurt(&vec![0; LEN], &changes(bytes)));
        ctx.check(same.is_ok(), || format!("{bytes:?}: {}", same.unwrap_err()));
        damaged(ctx, &vec![0; LEN], changes(bytes));
    }
}

/// Of those that break a rule by one byte alone two and three at once: the first rule is told, and within it the lowest offset. The answer
/// is the least of theirs. Byte 5 as 2 is left out, since bytes 6 and 32 together mend what it breaks.
fn together(ctx: &mut Ctx) {
    let alone = |w: &&Worked| w.0.len() == 1 && w.1 > 0 && w.0[0] != (5, 2);
    let lone: Vec<&Worked> = WORKED.iter().filter(alone).collect();
    let mut at_once = |some: &[&Worked]| {
        let bytes: Vec<(usize, u8)> = some.iter().map(|w| w.0[0]).collect();
        let places: BTreeSet<usize> = bytes.iter().map(|b| b.0).collect();
        if places.len() < bytes.len() {
            return;
        }
        let (number, at) = some.iter().map(|w| (w.1, w.2)).min().unwrap();
        reads(ctx, &bytes, at << 8 | number);
        damaged(ctx, &vec![0; LEN], changes(&bytes));
    };
    for (i, a) in lone.iter().enumerate() {
        for (j, b) in lone.iter().enumerate().skip(i + 1) {
            at_once(&[*a, *b]);
            let rest = &lone[j + 1..];
            rest.iter().for_each(|c| at_once(&[*a, *b, *c]));
        }
    }
}

/// One case of `broken`'s reading, on a block of zeros with these bytes.
fn reads(ctx: &mut Ctx, bytes: &[(usize, u8)], due: u32) {
    let told = broken::refusal(&hurt(&vec![0; LEN], &changes(bytes)));
    ctx.check(told == due, || {
        format!("{bytes:?} is read as {told:X}, not {due:X}")
    });
}

fn changes(bytes: &[(usize, u8)]) -> Vec<u32> {
    let change = |(at, byte): &(usize, u8)| (*at as u32) << 8 | u32::from(*byte);
    bytes.iter().map(change).collect()
}

fn hurt(b: &[u8], changes: &[u32]) -> Vec<u8> {
    let mut hurt = b.to_vec();
    changes.iter().for_each(|c| change(&mut hurt, *c));
    hurt
}

/// One case: a valid block with these changes, by both readings, by the check, and by two of the calls, which take turns.
fn damaged(ctx: &mut Ctx, b: &[u8], changes: Vec<u32>) {
    let turn = ctx.cases as usize % 21;
    let input = (Block(b.to_vec()), turn, List(changes));
    ctx.try_on(input, |(b, turn, changes)| {
        let hurt = hurt(&b.0, &changes.0);
        let told = read(&hurt)?;
        counts::damaged(told);
        by_two(&hurt, broken::number(told), *turn)
    });
}

/// What `broken` tells, if `valid` agrees which rule is the first that is broken, or that none is.
fn read(b: &[u8]) -> Result<Option<(u8, usize)>, String> {
    let (clause, told) = (valid::check(b).err(), broken::broken(b));
    let rule = clause.map(|c| c.as_bytes()[1] - b'0');
    match rule == told.map(|(number, _)| number - 20) {
        true => Ok(told),
        false => Err(format!("broken is {clause:?}, and {told:?} is told")),
    }
}

/// A look of each kind, with nothing else to refuse.
const LOOKS: [Call; 7] = [
    Call::MaskMode,
    Call::Backdrop,
    Call::ColorAt(7, 9, 1),
    Call::MapEntry(31, 27),
    Call::BorderColorAt(255, 223),
    Call::Row(223, 256),
    Call::Picture(57_344),
];

/// The check by both its names; and of a block that it refuses one call that changes blocks and one that looks.
fn by_two(b: &[u8], due: u32, turn: usize) -> Result<(), String> {
    same("check", check(b), due)?;
    same("refusal", views::refusal(b), due)?;
    if due == 0 {
        return Ok(());
    }
    let mut after = b.to_vec();
    by_change(&mut after, turn % 3, COMMAND_LEN, SCREEN_LEN, due)?;
    let look = LOOKS[turn % 7];
    let (told, out) = look.port(&after);
    same(&format!("{look:?}"), told, u64::from(REFUSED | due))?;
    if out.iter().any(|word| *word != UNTOUCHED) {
        return Err(format!("{look:?} changed the output"));
    }
    block::difference(&after, b)
}

/// One of the calls that change blocks, with a buffer of this room or a screen of this length: it is refused, and the buffer is as it was.
fn by_change(
    b: &mut [u8],
    which: usize,
    room: usize,
    screen: usize,
    due: u32,
) -> Result<(), String> {
    let mut out = marked(room);
    let (name, told) = match which {
        0 => ("write_joypad", write_joypad(b, 0x20, &mut out) as usize),
        1 => ("play", play(b, &[0x00, 0x30, 0x20], &mut out)),
        _ => (
            "update_screen",
            update_screen(b, &vec![0x1B; screen]) as usize,
        ),
    };
    same(name, told, (REFUSED | due) as usize)?;
    match out == marked(room) {
        true => Ok(()),
        false => Err(format!("{name} changed the buffer")),
    }
}

/// Every call on a block that it must refuse, with each other cause to refuse as well: the block's length, then its rules, then the rest.
fn by_all(b: &[u8]) -> Result<(), String> {
    let due = broken::refusal(b);
    if due == 0 {
        return Ok(());
    }
    let mut after = b.to_vec();
    for (room, screen) in [
        (0, 0),
        (COMMAND_LEN - 1, SCREEN_LEN - 1),
        (COMMAND_LEN, SCREEN_LEN),
    ] {
        (0..3).try_for_each(|which| by_change(&mut after, which, room, screen, due))?;
    }
    block::difference(&after, b)?;
    views::asked()
        .iter()
        .chain(&LOOKS)
        .try_for_each(|call| call.right(b))?;
    for len in [0, LEN - 1, LEN + 1] {
        after.resize(len, 0);
        same("check of another length", check(&after), 1)?;
        (0..3).try_for_each(|which| by_change(&mut after, which, 0, 0, 1))?;
    }
    Ok(())
}

fn same<T: PartialEq + std::fmt::UpperHex>(what: &str, told: T, due: T) -> Result<(), String> {
    match told == due {
        true => Ok(()),
        false => Err(format!("{what}: {told:X}, not {due:X}")),
    }
}

/// Random valid blocks: each stage of the receiver in each mask mode, with a frozen capture and without.
fn kinds(rng: &mut Rng) -> Vec<Vec<u8>> {
    let mut blocks = Vec::new();
    for stage in [Stage::Idle, Stage::First, Stage::Later, Stage::Awaiting] {
        for (mask, frozen) in [(0, false), (0, true), (1, true), (2, false), (3, false)] {
            let class = Class {
                mask,
                frozen,
                stage,
                preset: rng.one_in(2),
                pending: rng
                    .one_in(2)
                    .then(|| (rng.within(1, 3) as u8, rng.below(5) as u8)),
            };
            blocks.push(generate::block_of(rng, class));
        }
    }
    blocks
}

/// Every value of every byte of the header, and bytes of every two places.
fn header(ctx: &mut Ctx) {
    const EDGES: [u8; 13] = [0, 1, 2, 3, 4, 5, 6, 7, 8, 127, 128, 129, 255];
    for b in kinds(&mut ctx.rng) {
        for at in 0..PACKET.start as u32 {
            for byte in 0..=255 {
                damaged(ctx, &b, vec![at << 8 | byte]);
            }
            for other in 0..at {
                for _ in ctx.rounds(4) {
                    let mut byte = || u32::from(ctx.rng.pick(&EDGES));
                    let two = vec![at << 8 | byte(), other << 8 | byte()];
                    damaged(ctx, &b, two);
                }
            }
        }
    }
}

/// Every joypad index with every mask, every countdown with every kind, and every byte of a preset that is not in force.
fn numbers(ctx: &mut Ctx) {
    let b = generate::block(&mut ctx.rng);
    for [first, second] in [[JOYPAD_INDEX, JOYPAD_MASK], [COUNTDOWN, KIND]] {
        for n in 0..=0xFFFF_u16 {
            let [high, low] = n.to_be_bytes();
            damaged(ctx, &b, changes(&[(first, high), (second, low)]));
        }
    }
    for (at, byte) in PRESET.flat_map(|at| (0..=255).map(move |byte| (at, byte))) {
        damaged(ctx, &vec![0; LEN], changes(&[(at, byte)]));
    }
}

/// Every receiver with few and many packets expected and received, first bytes of every count, and a store that ends at the edge or goes on.
fn receivers(ctx: &mut Ctx) {
    let b = vec![0; LEN];
    const COUNTS: [u8; 11] = [0, 1, 2, 3, 4, 5, 6, 7, 8, 16, 255];
    for stage in 0..4 {
        for (expected, received) in COUNTS.iter().flat_map(|e| COUNTS.map(|r| (*e, r))) {
            for first in (8..16).chain([0, 0xEF, 0xF0, 0xF7, 0xFF]) {
                let mut some = vec![
                    (RECEIVER, stage),
                    (EXPECTED, expected),
                    (RECEIVED, received),
                    (STORE.start, first),
                ];
                damaged(ctx, &b, changes(&some));
                let edge = STORE.start + 16 * usize::from(received);
                let last = STORE.end - 1;
                let at = ctx
                    .rng
                    .pick(&[edge.max(STORE.start + 1) - 1, edge, edge + 1, last])
                    .min(last);
                some.push((at, 1 << ctx.rng.below(8)));
                damaged(ctx, &b, changes(&some));
            }
        }
    }
}

/// Each bit of a packet by itself, at each bit index, and some more behind it.
fn packet_bits(ctx: &mut Ctx) {
    for later in [false, true] {
        let mut b = vec![0; LEN];
        b[RECEIVER] = 1;
        if later {
            (b[EXPECTED], b[RECEIVED], b[STORE.start]) = (7, 6, 0x0F);
        }
        for index in (0..=130).chain([255]) {
            for bit in 0..128 {
                let mut some = vec![(BIT_INDEX, index), (PACKET.start + bit / 8, 1 << (bit % 8))];
                if later {
                    let at = ctx.rng.within(PACKET.start, PACKET.end - 1);
                    some.push((at, ctx.rng.byte()));
                }
                damaged(ctx, &b, changes(&some));
            }
        }
    }
}

/// Each byte of a random block changed, and each byte of a block of zeros that some rule asks about.
fn every_byte(ctx: &mut Ctx) {
    let b = generate::block(&mut ctx.rng);
    for at in 0..LEN {
        let byte = b[at] ^ 1 << ctx.rng.below(8);
        damaged(ctx, &b, changes(&[(at, byte)]));
    }
    for at in (0..PALETTES.start).chain(FROZEN) {
        let bit = 1 << ctx.rng.below(8);
        damaged(ctx, &vec![0; LEN], changes(&[(at, bit)]));
    }
}

/// The parts that must be zero in this block.
fn zeros(b: &[u8]) -> Vec<Range<usize>> {
    let mut parts = vec![SPARE];
    match b[RECEIVER] {
        0 => parts.extend([PACKET, STORE]),
        1 => parts.push(PACKET.start + usize::from(b[BIT_INDEX]).div_ceil(8)..PACKET.end),
        _ => parts.push(PACKET),
    }
    if b[RECEIVER] != 0 {
        parts.push(STORE.start + 16 * usize::from(b[RECEIVED])..STORE.end);
    }
    if b[PRESET_IN_FORCE] == 0 {
        parts.push(PRESET);
    }
    if b[FROZEN_PRESENT] == 0 {
        parts.push(FROZEN);
    }
    parts.retain(|part| !part.is_empty());
    parts
}

/// Parts that must be zero: a byte at each part's start, at its end, before, behind and within it; then one more, anywhere in these parts.
fn areas(ctx: &mut Ctx) {
    for _ in ctx.rounds(10) {
        for b in kinds(&mut ctx.rng) {
            let parts = zeros(&b);
            for part in &parts {
                let (first, last) = (part.start, part.end - 1);
                let (middle, any) = ((first + last) / 2, ctx.rng.within(first, last));
                for at in [first - 1, first, middle, any, last, last + 1] {
                    let byte = ctx.rng.byte() | 1 << ctx.rng.below(8);
                    damaged(ctx, &b, changes(&[(at, byte)]));
                    let other = &parts[ctx.rng.below(parts.len())];
                    let second = ctx.rng.within(other.start, other.end - 1);
                    damaged(ctx, &b, changes(&[(at, byte), (second, 1)]));
                }
            }
        }
    }
}

/// Blocks of every class that V1 to V6 allow, with one, two and many bytes changed where rules look, and with a whole part of noise.
fn classes(ctx: &mut Ctx) {
    for _ in ctx.rounds(4) {
        for class in Class::all() {
            let b = generate::block_of(&mut ctx.rng, class);
            if valid::check(&b).is_err() {
                continue;
            }
            let one = damage(&mut ctx.rng, &b);
            damaged(ctx, &b, one[..1].to_vec());
            let two = [damage(&mut ctx.rng, &b)[0], damage(&mut ctx.rng, &b)[0]];
            damaged(ctx, &b, two.to_vec());
            let times = ctx.rng.pick(&[3, 10, 100]);
            let many = (0..times).flat_map(|_| damage(&mut ctx.rng, &b)).collect();
            damaged(ctx, &b, many);
            let parts = [
                0..SPARE.start,
                RECEIVER..BIT_INDEX + 1,
                SPARE,
                PACKET,
                STORE,
                PRESET,
                FROZEN,
            ];
            let part = &parts[ctx.rng.below(parts.len())];
            let from = ctx.rng.within(part.start, part.end - 1);
            let noise: Vec<_> = (from..part.end).map(|at| (at, ctx.rng.byte())).collect();
            damaged(ctx, &b, changes(&noise));
        }
    }
}
