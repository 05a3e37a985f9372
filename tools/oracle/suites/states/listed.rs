//! Each state that the Rust takes and we refuse is on the list of docs/DIFFERENCES.md. The list is here as kinds, each with the smallest state that
//! shows it; and over random damaged states the two must agree, but for one of these kinds.

use super::refusals::{SHAPES, Shape, comes_as_due, shape};
use crate::block::*;
use crate::counts::{self, count};
use crate::ctx::Ctx;
use crate::generate;
use crate::oracle::Oracle;
use crate::rng::Rng;
use crate::state::*;
use crate::valid::count as packets_of;
use std::panic::{AssertUnwindSafe, catch_unwind};

pub fn run(ctx: &mut Ctx) {
    smallest(ctx);
    forgets(ctx);
    goes_on(ctx);
    shows(ctx);
    damaged(ctx);
}

/// The kinds, in the order in which they are refused.
#[derive(Clone, Copy, Debug, PartialEq, Eq, PartialOrd, Ord)]
enum Listed {
    ManyReceived,
    IdlePackets,
    PacketsLength,
    MapCell,
    FileCell,
    JoypadIndex,
    JoypadMask,
    LinesHigh,
    IdleExpected,
    IdleReceived,
    IdleBits,
    IdlePacket,
    FirstExpected,
    NoneReceived,
    ExpectedNotAbove,
    ExpectedMany,
    ExpectedOther,
    BitIndex,
    AwaitingBits,
    PacketBits,
    AwaitingPacket,
    Countdown,
    Freeze,
    Masked,
}
use Listed::*;

/// A kind with its name, what it is refused with (of a packet's bytes any may be told), and how its smallest state is made from that of `new`.
struct Shown {
    kind: Listed,
    name: &'static str,
    number: u32,
    at: u32,
    make: fn(&mut State),
}

const fn shown(
    kind: Listed,
    name: &'static str,
    (number, at): (u32, u32),
    make: fn(&mut State),
) -> Shown {
    Shown {
        kind,
        name,
        number,
        at,
        make,
    }
}

#[rustfmt::skip]
const LIST: [Shown; counts::LISTED as usize] = [
    shown(ManyReceived, "received over 7", (8, 0), |s| s.fields[RECEIVED] = 8),
    shown(IdlePackets, "idle, with packets", (8, 0), |s| packets(s, &[0])),
    shown(PacketsLength, "packets of another length", (8, 0), |s| { receiving(s); packets(s, &[0]) }),
    shown(MapCell, "a cell of the map over 3", (9, 0), |s| byte(s, span::MAP, 4)),
    shown(FileCell, "a cell of a file over 3", (9, 0), |s| byte(s, span::FILES, 4)),
    shown(JoypadIndex, "index outside the mask", (21, 1), |s| s.fields[JOYPAD_INDEX] = 1),
    shown(JoypadMask, "joypad mask over 3", (21, 2), |s| s.fields[JOYPAD_MASK] = 4),
    shown(LinesHigh, "lines high without P15", (22, 3), |s| s.fields[LINES_HIGH] = 1),
    shown(IdleExpected, "idle, with packets expected", (23, 6), |s| s.fields[EXPECTED] = 1),
    shown(IdleReceived, "idle, with packets received", (23, 7), |s| { s.fields[RECEIVED] = 1; packets(s, &[0; 16]) }),
    shown(IdleBits, "idle, with a bit index", (23, 8), |s| s.fields[BIT_INDEX] = 1),
    shown(IdlePacket, "idle, with a packet", (23, 16), |s| byte(s, span::PACKET, 1)),
    shown(FirstExpected, "packets expected before the first is in", (23, 6), |s| { receiving(s); s.fields[EXPECTED] = 1 }),
    shown(NoneReceived, "awaiting, and none received", (23, 6), |s| s.fields[RECEIVER] = 2),
    shown(ExpectedNotAbove, "expected not above received", (23, 6), |s| awaiting(s, 0, 0)),
    shown(ExpectedMany, "expected over 7", (23, 6), |s| awaiting(s, 8, 0)),
    shown(ExpectedOther, "expected not the count of the first byte", (23, 6), |s| awaiting(s, 2, 0)),
    shown(BitIndex, "bit index over 128", (23, 8), |s| { receiving(s); s.fields[BIT_INDEX] = 129 }),
    shown(AwaitingBits, "awaiting, with a bit index", (23, 8), |s| { awaiting(s, 2, 2); s.fields[BIT_INDEX] = 1 }),
    shown(PacketBits, "packet bits at or past the index", (23, 16), |s| { receiving(s); byte(s, span::PACKET, 1) }),
    shown(AwaitingPacket, "awaiting, with a packet", (23, 16), |s| { awaiting(s, 2, 2); byte(s, span::PACKET, 1) }),
    shown(Countdown, "countdown over 3", (24, 10), |s| s.fields[COUNTDOWN] = 4),
    shown(Freeze, "frozen, with no frozen capture", (26, 0), |s| s.fields[MASK] = 1),
    shown(Masked, "black or backdrop, with a frozen capture", (26, 0), |s| { s.fields[MASK] = 2; shape(s, span::FROZEN, Shape::Right) }),
];

fn receiving(s: &mut State) {
    s.fields[RECEIVER] = 1;
}

/// One packet is in, with this first byte.
fn awaiting(s: &mut State, expected: u8, first: u8) {
    (s.fields[RECEIVER], s.fields[EXPECTED], s.fields[RECEIVED]) = (2, expected, 1);
    packets(s, &[0; 16]);
    byte(s, span::PACKETS, first);
}

fn packets(s: &mut State, data: &[u8]) {
    s.spans[span::PACKETS] = Some(data.to_vec());
}

/// The first byte of a span.
fn byte(s: &mut State, k: usize, byte: u8) {
    s.spans[k].as_mut().unwrap()[0] = byte;
}

impl Listed {
    fn shown(self) -> &'static Shown {
        const { &LIST }
            .iter()
            .find(|shown| shown.kind == self)
            .unwrap()
    }

    fn smallest(self) -> State {
        let mut s = given(&new());
        (self.shown().make)(&mut s);
        s
    }
}

/// The first kind that a state is of. The Rust takes the state: its lengths are right, but for the packets', and its flags are flags.
fn kind(s: &State) -> Option<Listed> {
    let field = |at: usize| s.fields[at];
    let bytes = |k: usize| s.spans[k].as_deref().unwrap();
    let (expected, received) = (field(EXPECTED), field(RECEIVED));
    let (idle, receiving, awaiting) = (
        field(RECEIVER) == 0,
        field(RECEIVER) == 1,
        field(RECEIVER) == 2,
    );
    let (packet, packets) = (bytes(span::PACKET), bytes(span::PACKETS));
    let index = usize::from(field(BIT_INDEX));
    let dirty = packet.iter().any(|byte| *byte != 0);
    let late = (index..128).any(|i| packet[i / 8] >> (i % 8) & 1 == 1);
    let other = packets.len() != 16 * usize::from(received);
    let some = received > 0 && !idle;
    let first = packets.first().copied().unwrap_or(0);
    let frozen = s.spans[span::FROZEN].is_some();
    let is = |kind: Listed| match kind {
        ManyReceived => received > 7,
        IdlePackets => idle && other,
        PacketsLength => !idle && other,
        MapCell => bytes(span::MAP).iter().any(|cell| *cell > 3),
        FileCell => bytes(span::FILES).iter().any(|cell| *cell > 3),
        JoypadIndex => field(JOYPAD_INDEX) & !field(JOYPAD_MASK) != 0,
        JoypadMask => field(JOYPAD_MASK) > 3,
        LinesHigh => field(LINES_HIGH) == 1 && field(P15_HIGH) == 0,
        IdleExpected => idle && expected != 0,
        IdleReceived => idle && received != 0,
        IdleBits => idle && index != 0,
        IdlePacket => idle && dirty,
        FirstExpected => receiving && received == 0 && expected != 0,
        NoneReceived => awaiting && received == 0,
        ExpectedNotAbove => some && expected <= received,
        ExpectedMany => some && expected > 7,
        ExpectedOther => some && expected != packets_of(first),
        BitIndex => receiving && index > 128,
        AwaitingBits => awaiting && index != 0,
        PacketBits => receiving && late,
        AwaitingPacket => awaiting && dirty,
        Countdown => field(COUNTDOWN) > 3,
        Freeze => field(MASK) == 1 && !frozen,
        Masked => field(MASK) >= 2 && frozen,
    };
    LIST.iter().map(|shown| shown.kind).find(|kind| is(*kind))
}

/// The smallest state of each kind is taken by the Rust and refused by us with its number and offset, and is of that kind. With any one of what
/// makes it put back as in `new` it is of that kind no more.
fn smallest(ctx: &mut Ctx) {
    let plain = given(&new());
    for Shown {
        kind: listed,
        name,
        number,
        at,
        ..
    } in &LIST
    {
        let s = listed.smallest();
        let told = comes_as_due(&s, LEN, 0, &[]);
        ctx.check(told == Ok(at << 8 | number), || {
            format!("{name}: {told:X?}")
        });
        ctx.check(kind(&s) == Some(*listed), || {
            format!("{name} is read as {:?}", kind(&s))
        });
        for zero in [Zero::LeftOut, Zero::Kept] {
            let rust = s.rust(zero).is_some();
            ctx.check(rust, || format!("{name}: the Rust refuses it"));
        }
        let mut fewer = Vec::new();
        for i in (0..12).filter(|i| s.fields[*i] != plain.fields[*i]) {
            fewer.push(s.clone());
            fewer.last_mut().unwrap().fields[i] = plain.fields[i];
        }
        for k in (0..12).filter(|k| s.spans[*k] != plain.spans[*k]) {
            fewer.push(s.clone());
            fewer.last_mut().unwrap().spans[k] = plain.spans[k].clone();
        }
        for less in fewer {
            let still = less.rust(Zero::Kept).is_some() && kind(&less) == Some(*listed);
            ctx.check(!still, || format!("{name}: not the smallest"));
        }
    }
}

/// What the Rust makes of the smallest state of a kind.
fn unit(kind: Listed) -> Oracle {
    kind.smallest().rust(Zero::LeftOut).unwrap()
}

fn answers(mut unit: Oracle, writes: &[u8]) -> Vec<Vec<u8>> {
    writes.iter().filter_map(|w| unit.write(*w)).collect()
}

/// The list's column of the Rust: what it forgets.
fn forgets(ctx: &mut Ctx) {
    let mut awaited = new();
    let bytes = [RECEIVER, EXPECTED, RECEIVED, STORE.start];
    bytes
        .iter()
        .zip([2, 2, 1, 2])
        .for_each(|(at, byte)| awaited[*at] = byte);
    for (kind, due) in [
        (ManyReceived, &new()),
        (IdlePackets, &new()),
        (IdleExpected, &new()),
        (IdleReceived, &new()),
        (IdleBits, &new()),
        (IdlePacket, &new()),
        (AwaitingBits, &awaited),
        (AwaitingPacket, &awaited),
    ] {
        let same = difference(&unit(kind).save(), due);
        ctx.check(same.is_ok(), || {
            format!("{kind:?} is not forgotten: {same:?}")
        });
    }
}

/// What its receiver goes on to answer.
fn goes_on(ctx: &mut Ctx) {
    // after so many packets more: the bytes of the one answer
    let packet = [&[1][..], &[0; 15]].concat();
    for (kind, packets, len) in [
        (NoneReceived, 1, 16),
        (ExpectedNotAbove, 1, 32),
        (ExpectedMany, 7, 128),
        (ExpectedOther, 1, 32),
    ] {
        let told = answers(unit(kind), &generate::encode(&packet.repeat(packets)));
        let holds = told.len() == 1 && told[0].len() == len;
        ctx.check(holds, || format!("{kind:?} is answered {told:X?}"));
    }
    // the rest of a packet, with no start pulse: its first byte, and the bytes of the answers
    for (kind, first, lens) in [
        (PacketsLength, 1, vec![17]),
        (PacketBits, 0, vec![16]),
        (FirstExpected, 2, vec![]),
        (FirstExpected, 1, vec![16]),
    ] {
        let mut writes = generate::encode(&[&[first][..], &[0; 15]].concat());
        writes[0] = 0x30;
        let told = answers(unit(kind), &writes);
        let holds = told.iter().map(Vec::len).eq(lens);
        ctx.check(holds, || {
            format!("{kind:?} and {first:02X} is answered {told:X?}")
        });
    }
    let mut after = unit(BitIndex);
    [0x30, 0x20].iter().for_each(|w| drop(after.write(*w)));
    ctx.check(after.save()[RECEIVER] == 0, || {
        "BitIndex: no stop pulse".into()
    });
}

/// What it makes of lines, pads, screens and cells.
fn shows(ctx: &mut Ctx) {
    // index, mask and receiver before a rise of P15, index and bit index after it
    for (kind, before, after) in [
        (LinesHigh, (0, 3, 1), (1, 1)),
        (JoypadIndex, (1, 0, 0), (0, 0)),
        (JoypadMask, (3, 7, 0), (4, 0)),
    ] {
        let mut s = kind.smallest();
        (
            s.fields[JOYPAD_INDEX],
            s.fields[JOYPAD_MASK],
            s.fields[RECEIVER],
        ) = before;
        let mut unit = s.rust(Zero::LeftOut).unwrap();
        unit.write(0x20);
        let b = unit.save();
        let told = (b[JOYPAD_INDEX], b[BIT_INDEX]);
        ctx.check(told == after, || format!("{kind:?} goes on to {told:?}"));
    }
    let screen = [0x1B; SCREEN_LEN];
    let mut after = unit(Countdown);
    let landed = [(); 5].map(|_| after.screen(&screen));
    ctx.check(landed == [None, None, None, Some(0), None], || {
        format!("Countdown: {landed:?}")
    });
    let mut after = unit(Freeze);
    after.screen(&screen);
    ctx.check(after.displayed() == screen, || {
        "Freeze: not shown live".into()
    });
    let b = unit(Masked).save();
    ctx.check((b[MASK], b[FROZEN_PRESENT]) == (2, 1), || {
        "Masked: not kept".into()
    });
    // there is no palette 4 to draw with
    for kind in [MapCell, FileCell] {
        let mut after = unit(kind);
        if kind == FileCell {
            let attr_set = [&[0xB1][..], &[0; 15]].concat();
            let writes = generate::encode(&attr_set);
            writes.iter().for_each(|w| drop(after.write(*w)));
        }
        let drawn = catch_unwind(AssertUnwindSafe(|| after.color_at(0, 0, 1)));
        ctx.check(drawn.is_err(), || format!("{kind:?} is drawn"));
    }
}

/// One to four changes to a state that is right, where the two may come apart.
fn damage(rng: &mut Rng, s: &mut State) {
    const EDGES: [u8; 13] = [0, 1, 2, 3, 4, 5, 6, 7, 8, 127, 128, 129, 255];
    for _ in 0..rng.within(1, 4) {
        match rng.below(20) {
            0..6 => {
                let at = rng.below(12);
                s.fields[at] = match rng.below(3) {
                    0 => rng.byte(),
                    1 => rng.pick(&EDGES),
                    _ => s.fields[at].wrapping_add(rng.pick(&[1, 255])),
                };
            }
            6 | 7 => {
                let at = rng.pick(&[RECEIVER, EXPECTED, RECEIVED, BIT_INDEX]);
                s.fields[at] = rng.pick(&EDGES);
            }
            8 => shape(s, rng.below(12), rng.pick(&SHAPES)),
            9 | 10 => shape(s, span::PACKETS, Shape::Right),
            11 => {
                let n = rng.pick(&[0, 1, 15, 16, 17, 32, 96, 112, 128]);
                s.spans[span::PACKETS]
                    .iter_mut()
                    .for_each(|data| data.resize(n, 0));
            }
            12 | 13 => touch(rng, s, span::PACKET),
            14 => {
                let first = 8 * rng.below(0x1E) as u8 | s.fields[EXPECTED] & 7;
                s.spans[span::PACKETS]
                    .iter_mut()
                    .flat_map(|data| data.first_mut())
                    .for_each(|b| *b = first);
            }
            15 => {
                let k = rng.pick(&[span::MAP, span::FILES]);
                touch(rng, s, k);
            }
            16 => s.fields[MASK] = rng.below(4) as u8,
            17 => shape(s, span::FROZEN, rng.pick(&[Shape::Right, Shape::Missing])),
            18 => shape(s, span::PRESET, rng.pick(&SHAPES)),
            _ => shape(s, rng.pick(&BORDER), rng.pick(&SHAPES)),
        }
    }
}

fn touch(rng: &mut Rng, s: &mut State, k: usize) {
    if let Some(data) = s.spans[k].as_mut().filter(|data| !data.is_empty()) {
        let at = rng.below(data.len());
        data[at] = 1 << rng.below(8);
    }
}

/// What we take the Rust takes, as the same unit. What the Rust takes and we refuse is of a listed kind, refused as the list has it. What the Rust
/// refuses we refuse.
fn agrees(s: &State) -> Result<(), String> {
    let told = comes_as_due(s, LEN, 0, &[])?;
    // as it was given, with a countdown of 0 too: a kind over 4 is refused there
    let Some(unit) = s.rust(Zero::Kept) else {
        return match told {
            0 => Err("we take it, and the Rust does not".into()),
            _ => Ok(()),
        };
    };
    match (told, kind(s)) {
        (0, None) => {
            // that a countdown of 0 is a transfer to the Rust is listed too: without the two fields it is none
            let zero = s.fields[COUNTDOWN] == 0;
            let unit = if zero {
                s.rust(Zero::LeftOut).unwrap()
            } else {
                unit
            };
            difference(&taken(s).unwrap(), &unit.save())
        }
        (0, Some(kind)) => Err(format!("taken, and {kind:?} is listed")),
        (told, None) => Err(format!(
            "the Rust takes it, {told:X} is told, and nothing is listed"
        )),
        (told, Some(kind)) => {
            let Shown {
                name, number, at, ..
            } = *kind.shown();
            let right = match kind {
                IdlePacket | PacketBits | AwaitingPacket => (16..32).contains(&(told >> 8)),
                _ => told >> 8 == at,
            };
            if told & 0xFF != number || !right {
                return Err(format!("{name} is told {told:X}"));
            }
            count(|c| *c.listed.entry(name).or_default() += 1);
            Ok(())
        }
    }
}

fn damaged(ctx: &mut Ctx) {
    for _ in ctx.rounds(8000) {
        let mut s = given(&generate::start(&mut ctx.rng));
        damage(&mut ctx.rng, &mut s);
        ctx.try_on(s, agrees);
    }
    let met = counts::listed();
    for Shown { name, .. } in &LIST {
        ctx.check(met.contains(name), || {
            format!("no state of the kind: {name}")
        });
    }
    ctx.note(format!(
        "{} of {} listed kinds of states that the Rust takes and we refuse",
        met.len(),
        LIST.len()
    ));
}
