//! Every refusal of the two calls, held to the second reading in `state.rs`: which one it is, and that no lent byte changes.

use super::anything;
use crate::block::*;
use crate::broken;
use crate::counts;
use crate::ctx::Ctx;
use crate::generate::{self, Class, Stage};
use crate::port::REFUSED;
use crate::rng::Rng;
use crate::state::*;
use crate::suites::unit::{change, damage};
use std::collections::BTreeSet;

pub fn run(ctx: &mut Ctx) {
    worked(ctx);
    spans(ctx);
    borders(ctx);
    packets(ctx);
    cells(ctx);
    fields(ctx);
    together(ctx);
    outgoing(ctx);
}

/// Changes to the state of `new`, with the answers worked by hand from what was asked for.
#[rustfmt::skip]
const WORKED: &[(&str, fn(&mut State), u32)] = &[
    ("nothing", |_| {}, 0),
    ("no field", |s| s.fields.clear(), 8),
    ("a field more", |s| s.fields.push(0), 8),
    // missing is not empty
    ("no packets", |s| s.spans[span::PACKETS] = None, 8),
    ("a packet of 15 bytes", |s| shape(s, span::PACKET, Shape::Short), 8),
    ("no capture", |s| s.spans[span::CAPTURE] = None, 8),
    ("a frozen capture", |s| shape(s, span::FROZEN, Shape::Right), 0),
    ("an empty frozen capture", |s| shape(s, span::FROZEN, Shape::Empty), 8),
    ("a frozen capture, frozen", |s| { s.fields[MASK] = 1; shape(s, span::FROZEN, Shape::Right) }, 0),
    ("frozen", |s| s.fields[MASK] = 1, 26),
    ("black", |s| s.fields[MASK] = 2, 0),
    // the preset is read only with its flag
    ("no preset, with its flag", |s| s.spans[span::PRESET] = None, 8),
    ("a preset of 9 bytes, with its flag", |s| shape(s, span::PRESET, Shape::Long), 8),
    ("a preset of 9 bytes, without", |s| { s.fields[PRESET_IN_FORCE] = 0; shape(s, span::PRESET, Shape::Long) }, 0),
    ("no preset, without", |s| { s.fields[PRESET_IN_FORCE] = 0; s.spans[span::PRESET] = None }, 0),
    ("no preset, flag 2", |s| { s.fields[PRESET_IN_FORCE] = 2; s.spans[span::PRESET] = None }, 9 << 8 | 22),
    ("P15 is 2", |s| s.fields[P15_HIGH] = 2, 3 << 8 | 22),
    // a border of which a span is missing
    ("an empty border span", |s| shape(s, span::TILES, Shape::Empty), 8),
    ("a border span missing", |s| shape(s, span::BORDER_MAP, Shape::Missing), 0),
    ("one missing, the others wrong", |s| {
        shape(s, span::TILES, Shape::Empty);
        shape(s, span::BORDER_MAP, Shape::Long);
        shape(s, span::BORDER_PALETTES, Shape::Missing);
    }, 0),
    // the packets by those received
    ("received 7, idle", |s| { s.fields[RECEIVED] = 7; shape(s, span::PACKETS, Shape::Right) }, 7 << 8 | 23),
    ("received 8", |s| { s.fields[RECEIVED] = 8; shape(s, span::PACKETS, Shape::Right) }, 8),
    ("a packet of a command of two", |s| {
        (s.fields[RECEIVER], s.fields[EXPECTED], s.fields[RECEIVED]) = (2, 2, 1);
        s.spans[span::PACKETS] = Some([&[2][..], &[0; 15]].concat());
    }, 0),
    ("the same, one byte short", |s| {
        (s.fields[RECEIVER], s.fields[EXPECTED], s.fields[RECEIVED]) = (2, 2, 1);
        s.spans[span::PACKETS] = Some([&[2][..], &[0; 14]].concat());
    }, 8),
    // no transfer
    ("countdown 0, kind 4", |s| s.fields[KIND] = 4, 0),
    ("countdown 0, kind 5", |s| s.fields[KIND] = 5, 11 << 8 | 24),
    ("countdown 3, kind 4", |s| (s.fields[COUNTDOWN], s.fields[KIND]) = (3, 4), 0),
    ("countdown 3, kind 5", |s| (s.fields[COUNTDOWN], s.fields[KIND]) = (3, 5), 11 << 8 | 24),
    ("countdown 4, kind 5", |s| (s.fields[COUNTDOWN], s.fields[KIND]) = (4, 5), 10 << 8 | 24),
    // the order
    ("a cell and the mask mode", |s| { s.fields[MASK] = 4; set(s, span::MAP, 0, 4) }, 9),
    ("a cell in a file of another length", |s| { set(s, span::FILES, 0, 4); shape(s, span::FILES, Shape::Long) }, 8),
    ("a cell, and no capture", |s| { set(s, span::MAP, 359, 255); s.spans[span::CAPTURE] = None }, 8),
    ("the last cell of the last file", |s| set(s, span::FILES, 16_199, 4), 9),
    ("a shade over 3", |s| set(s, span::CAPTURE, 0, 255), 0),
    ("the mask mode and the receiver", |s| (s.fields[MASK], s.fields[RECEIVER]) = (4, 3), 21),
    ("the receiver", |s| s.fields[RECEIVER] = 3, 5 << 8 | 23),
];

fn set(s: &mut State, k: usize, at: usize, byte: u8) {
    s.spans[k].as_mut().unwrap()[at] = byte;
}

/// The reading itself, and ours.
fn worked(ctx: &mut Ctx) {
    for (what, change, due) in WORKED {
        let mut s = given(&new());
        change(&mut s);
        let read = taken(&s).err().unwrap_or(0);
        ctx.check(read == *due, || {
            format!("{what} is read as {read:X}, not {due:X}")
        });
        try_state(ctx, s);
    }
}

/// A state into so many bytes: the answer, if it is the one that is due and the block is too.
pub fn comes_as_due(s: &State, len: usize, above: u16, other: &[u8]) -> Result<u32, String> {
    let seed = above.into();
    let mut b = anything(seed, len);
    let (due, after) = match taken(s) {
        _ if len != LEN => (1, anything(seed, len)),
        Ok(block) => (0, block),
        Err(no) => (no, anything(seed, len)),
    };
    let told = from_state_with(&mut b, s, above, other);
    counts::state(told);
    if told != due {
        return Err(format!("from_state: {told:X}, not {due:X}"));
    }
    difference(&b, &after)?;
    Ok(told)
}

/// One case of it, with a block of the right length.
pub fn try_state(ctx: &mut Ctx, s: State) {
    let (above, n) = (
        ctx.rng.below(16) as u16,
        ctx.rng.pick(&[0, 0, 1, 360, 30_000]),
    );
    ctx.try_on((s, above, n), |(s, above, n)| {
        comes_as_due(s, LEN, *above, &vec![0xFF; *n]).map(drop)
    });
}

/// How a span can be. The first is right.
#[derive(Clone, Copy, PartialEq)]
pub enum Shape {
    Right,
    Missing,
    Empty,
    Short,
    Long,
}
pub const SHAPES: [Shape; 5] = [
    Shape::Right,
    Shape::Missing,
    Shape::Empty,
    Shape::Short,
    Shape::Long,
];

/// A span in this shape. One that is missing in the state is zeros if it must be there.
pub fn shape(s: &mut State, k: usize, shape: Shape) {
    let due = match k {
        span::PACKETS => 16 * usize::from(s.fields[RECEIVED]),
        _ => SPANS[k].1,
    };
    let mut data = s.spans[k].take().unwrap_or_default();
    match shape {
        Shape::Right => data.resize(due, 0),
        Shape::Missing => return,
        Shape::Empty => data.clear(),
        Shape::Short => data.resize(due.saturating_sub(1), 0),
        Shape::Long => data.resize(due + 1, 0),
    }
    s.spans[k] = Some(data);
}

/// Two random states of each stage of the receiver, one of them frozen.
fn stages(rng: &mut Rng) -> Vec<State> {
    let mut all = Vec::new();
    for stage in [Stage::Idle, Stage::First, Stage::Later, Stage::Awaiting] {
        let first = rng.one_in(2);
        for frozen in [first, !first] {
            let class = Class {
                mask: u8::from(frozen),
                frozen,
                stage,
                preset: rng.one_in(2),
                pending: rng.one_in(2).then_some((2, 3)),
            };
            all.push(given(&generate::block_of(rng, class)));
        }
    }
    all
}

/// Each span in each shape, with each preset flag, and each two spans.
fn spans(ctx: &mut Ctx) {
    for state in stages(&mut ctx.rng) {
        for (k, flag) in (0..12).flat_map(|k| [0, 1, 2].map(|flag| (k, flag))) {
            for is in SHAPES {
                let mut s = state.clone();
                s.fields[PRESET_IN_FORCE] = flag;
                shape(&mut s, span::PRESET, Shape::Right);
                shape(&mut s, k, is);
                try_state(ctx, s);
            }
        }
        for n in (0..12).chain([13, 24, 255]) {
            let mut s = state.clone();
            s.fields.resize(n, 0);
            try_state(ctx, s);
        }
    }
    let states = stages(&mut ctx.rng);
    for (k, j) in (0..12).flat_map(|k| (0..k).map(move |j| (k, j))) {
        for (one, two) in SHAPES.iter().flat_map(|one| SHAPES.map(|two| (*one, two))) {
            let mut s = states[ctx.rng.below(states.len())].clone();
            shape(&mut s, k, one);
            shape(&mut s, j, two);
            try_state(ctx, s);
        }
    }
}

/// The border's three spans in every shape: 8 is not given where one is missing, whatever the other two are.
fn borders(ctx: &mut Ctx) {
    for shapes in 0..125 {
        let mut s = given(&generate::block(&mut ctx.rng));
        let is = [shapes % 5, shapes / 5 % 5, shapes / 25].map(|i| SHAPES[i]);
        BORDER
            .into_iter()
            .zip(is)
            .for_each(|(k, is)| shape(&mut s, k, is));
        let empty = is.contains(&Shape::Missing);
        let right = is == [Shape::Right; 3];
        let told = taken(&s);
        ctx.check(told.is_ok() == (empty || right), || {
            "the reading of a border".into()
        });
        if let (Ok(b), true) = (&told, empty) {
            let zero = b[TILES.start..].iter().all(|x| *x == 0);
            ctx.check(zero, || "a border is read that is not whole".into());
        }
        try_state(ctx, s);
    }
}

/// Every number of packets received with packets of every length, for each receiver; and expected ones on both sides of it.
fn packets(ctx: &mut Ctx) {
    for (received, receiver) in (0..=9)
        .chain([16, 255])
        .flat_map(|n| [0, 1, 2, 3].map(|r| (n, r)))
    {
        for len in 0..=130 {
            let mut s = given(&new());
            s.fields[RECEIVER] = receiver;
            s.fields[RECEIVED] = received;
            let expected = received.saturating_add(ctx.rng.below(3) as u8);
            s.fields[EXPECTED] = if ctx.rng.one_in(8) { 0 } else { expected };
            let mut data = vec![0; len];
            generate::fill(&mut ctx.rng, &mut data);
            data.iter_mut()
                .take(1)
                .for_each(|first| *first = 0x08 | s.fields[EXPECTED] & 7);
            s.spans[span::PACKETS] = Some(data);
            if taken(&s) == Err(8) && len == 16 * usize::from(received) && received < 8 {
                ctx.check(false, || {
                    format!("{received} packets of {len} bytes are read as 8")
                });
            }
            try_state(ctx, s);
        }
        let mut s = given(&new());
        (s.fields[RECEIVER], s.fields[RECEIVED]) = (receiver, received);
        s.spans[span::PACKETS] = None;
        try_state(ctx, s);
    }
}

/// Every byte as a cell of the map and of each file, the first and the last, and a byte over 3 at every place.
fn cells(ctx: &mut Ctx) {
    let state = given(&generate::block(&mut ctx.rng));
    let mut edges = vec![(span::MAP, 0), (span::MAP, 359)];
    edges.extend(
        (0..45).flat_map(|file| [(span::FILES, 360 * file), (span::FILES, 360 * file + 359)]),
    );
    for (k, at) in edges {
        for cell in [0, 1, 2, 3, 4, 5, 7, 8, 64, 128, 255] {
            let mut s = state.clone();
            set(&mut s, k, at, cell);
            ctx.check((taken(&s) == Err(9)) == (cell > 3), || {
                format!("cell {cell} is misread")
            });
            try_state(ctx, s);
        }
    }
    for (k, at) in [(span::MAP, 200), (span::FILES, 9_999)] {
        for cell in 0..=255 {
            let mut s = state.clone();
            set(&mut s, k, at, cell);
            try_state(ctx, s);
        }
    }
    let mut b = anything(0, LEN);
    let before = b.clone();
    for (k, at) in (0..360)
        .map(|at| (span::MAP, at))
        .chain((0..16_200).map(|at| (span::FILES, at)))
    {
        let mut s = state.clone();
        let cell = 4 << ctx.rng.below(6) | ctx.rng.below(4) as u8;
        set(&mut s, k, at, cell);
        let told = from_state(&mut b, &s);
        counts::state(told);
        ctx.check(told == 9 && b == before, || {
            format!("{} {at}: {told:X}", SPANS[k].0)
        });
    }
}

/// Every value of every field, and values at the edges in every two fields.
fn fields(ctx: &mut Ctx) {
    const EDGES: [u8; 13] = [0, 1, 2, 3, 4, 5, 6, 7, 8, 127, 128, 129, 255];
    for state in stages(&mut ctx.rng).into_iter().step_by(2) {
        for at in 0..12 {
            for byte in 0..=255 {
                let mut s = state.clone();
                s.fields[at] = byte;
                fit(&mut s, &mut ctx.rng);
                try_state(ctx, s);
            }
            for other in 0..at {
                for _ in ctx.rounds(4) {
                    let mut s = state.clone();
                    s.fields[at] = ctx.rng.pick(&EDGES);
                    s.fields[other] = ctx.rng.pick(&EDGES);
                    fit(&mut s, &mut ctx.rng);
                    try_state(ctx, s);
                }
            }
        }
    }
}

/// Most often the spans whose length goes by a field are given that length, so that 8 does not hide what is behind it.
fn fit(s: &mut State, rng: &mut Rng) {
    if !rng.one_in(4) {
        shape(s, span::PACKETS, Shape::Right);
        if s.fields[PRESET_IN_FORCE] == 1 {
            shape(s, span::PRESET, Shape::Right);
        }
    }
}

/// A cause of 8, of 9, and of each of 21 to 24 and 26.
fn wrong_span(rng: &mut Rng, s: &mut State) {
    let k = rng.pick(&[
        span::PALETTES,
        span::MAP,
        span::SYSTEM,
        span::FILES,
        span::PACKET,
        span::CAPTURE,
    ]);
    shape(s, k, rng.pick(&SHAPES[1..]));
}

fn wrong_cell(rng: &mut Rng, s: &mut State) {
    let k = rng.pick(&[span::MAP, span::FILES]);
    let (at, cell) = (rng.below(SPANS[k].1), rng.within(4, 255) as u8);
    set(s, k, at, cell);
}

fn wrong_rule(rng: &mut Rng, s: &mut State, number: u8) {
    match number {
        21 => s.fields[rng.pick(&[MASK, JOYPAD_MASK])] = rng.within(4, 255) as u8,
        22 => s.fields[rng.pick(&[P15_HIGH, LINES_HIGH])] = rng.within(2, 255) as u8,
        23 => s.fields[RECEIVER] = rng.within(3, 255) as u8,
        24 => s.fields[COUNTDOWN] = rng.within(4, 255) as u8,
        _ if s.spans[span::FROZEN].is_some() => s.fields[MASK] = rng.pick(&[2, 3]),
        _ => s.fields[MASK] = 1,
    }
}

/// Every combination of causes: the block's length, a span, a cell, and each set of broken rules. The first is told.
fn together(ctx: &mut Ctx) {
    const RULES: [u8; 5] = [21, 22, 23, 24, 26];
    for causes in ctx.rounds(2 << 8) {
        let has = |i: usize| causes >> i & 1 == 1;
        let mut s = given(&generate::block(&mut ctx.rng));
        // the mask mode is one of V1's bytes and one of V6's
        for (i, number) in RULES.into_iter().enumerate().rev() {
            if has(i) {
                wrong_rule(&mut ctx.rng, &mut s, number);
            }
        }
        if has(5) {
            wrong_cell(&mut ctx.rng, &mut s);
        }
        if has(6) {
            wrong_span(&mut ctx.rng, &mut s);
        }
        let len = if has(7) {
            ctx.rng.pick(&[0, 1, LEN - 1, LEN + 1, 2 * LEN])
        } else {
            LEN
        };
        let first = [
            (7, 1),
            (6, 8),
            (5, 9),
            (0, 21),
            (1, 22),
            (2, 23),
            (3, 24),
            (4, 26),
        ];
        let due = first
            .iter()
            .find(|(i, _)| has(*i))
            .map_or(0, |(_, number)| *number);
        let told = comes_as_due(&s, len, 0, &[]);
        ctx.check(told.as_ref().is_ok_and(|told| told & 0xFF == due), || {
            format!("causes {:08b}: {told:X?}, {due} is due", causes % 256)
        });
    }
}

/// A valid block, one that breaks each of V1 to V6 first, and blocks of another length, of both.
fn blocks(rng: &mut Rng) -> Vec<Vec<u8>> {
    let mut all = vec![generate::block(rng)];
    let mut told = BTreeSet::new();
    while told.len() < 6 {
        let mut hurt = generate::block(rng);
        let changes = damage(rng, &hurt);
        changes.iter().for_each(|c| change(&mut hurt, *c));
        if broken::broken(&hurt).is_some_and(|(number, _)| told.insert(number)) {
            all.push(hurt);
        }
    }
    for len in [0, LEN - 1, LEN + 1] {
        for i in [0, rng.within(1, 6)] {
            let mut b = all[i].clone();
            b.resize(len, 0);
            all.push(b);
        }
    }
    all
}

/// Room enough; each buffer by itself empty, one byte short, or somewhere between; all of them empty, and some of them short.
fn rooms(rng: &mut Rng) -> Vec<[usize; 13]> {
    let mut all = vec![ROOM, [0; 13]];
    for i in 0..13 {
        for n in [0, ROOM[i] - 1, rng.below(ROOM[i])] {
            let mut room = ROOM;
            room[i] = n;
            all.push(room);
        }
    }
    for _ in 0..4 {
        all.push(ROOM.map(|n| match rng.one_in(3) {
            true => rng.below(n),
            false => rng.within(n, n + 1),
        }));
    }
    all
}

/// `to_state` with every block and every room: 1, then 21 to 26, then 6, and no buffer changes.
fn outgoing(ctx: &mut Ctx) {
    for _ in ctx.rounds(12) {
        let rooms = rooms(&mut ctx.rng);
        for b in blocks(&mut ctx.rng) {
            for room in &rooms {
                let short = room.iter().zip(ROOM).any(|(n, due)| *n < due);
                let due = match broken::refusal(&b) {
                    0 if short => 6,
                    no => no,
                };
                let mut held = lent(*room);
                let told = to_state(&b, &mut held);
                let holds = match due {
                    0 => told < REFUSED,
                    _ => told == REFUSED | due && held == lent(*room),
                };
                ctx.check(holds, || {
                    format!(
                        "to_state of {} bytes into {room:?}: {told:X}, {due:X} is due",
                        b.len()
                    )
                });
            }
        }
    }
}
