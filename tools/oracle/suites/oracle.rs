//! The oracle held to RULES, with no port: that it loads and saves every valid block, that what it leaves is valid,
//! and that the worked examples of RULES 10 are what the Rust does. What the other suites find rests on this.

use crate::block::{self, *};
use crate::ctx::Ctx;
use crate::event::Event;
use crate::generate::{self, Class};
use crate::oracle::{self, BorderMapEntry, Oracle};
use crate::shrink::{Block, Bytes, List};
use crate::valid;
use std::collections::BTreeSet;

pub fn run(ctx: &mut Ctx) {
    every_difference(ctx);
    fresh_blocks(ctx);
    every_class(ctx);
    every_mark(ctx);
    every_clause(ctx);
    every_command(ctx);
    steps_stay_valid(ctx);
    pages(ctx);
    worked_examples(ctx);
}

/// The comparison itself: a change of any one byte of a block is seen, and told at its place.
fn every_difference(ctx: &mut Ctx) {
    let b = generate::block(&mut ctx.rng);
    ctx.check(block::difference(&b, &b).is_ok(), || "a block differs from itself".into());
    let mut other = b.clone();
    for at in 0..LEN {
        other[at] ^= 1 << ctx.rng.below(8);
        let told = block::difference(&b, &other).err().unwrap_or_default();
        ctx.check(told.starts_with(&block::place(at)), || format!("byte {at} is another: {told}"));
        other[at] = b[at];
    }
}

fn fresh_blocks(ctx: &mut Ctx) {
    for (name, paper, rust) in [
        ("new", block::new(), Oracle::new()),
        ("post_boot", block::post_boot(), Oracle::post_boot()),
    ] {
        let differs = block::difference(&paper, &rust.save());
        ctx.check(differs.is_ok(), || format!("{name}: {differs:?}"));
        let valid = valid::check(&paper);
        ctx.check(valid.is_ok(), || format!("{name}: {valid:?}"));
    }
}

/// The classes that V1 to V6 allow.
fn allowed(ctx: &mut Ctx) -> BTreeSet<Class> {
    let mut classes = Class::all();
    classes.retain(|class| valid::check(&generate::block_of(&mut ctx.rng, *class)).is_ok());
    classes.into_iter().collect()
}

/// Load, then save, is the identity, and each class that V1 to V6 allow is reached.
fn every_class(ctx: &mut Ctx) {
    let mut reached = BTreeSet::new();
    let allowed = allowed(ctx);
    let mut identity = |ctx: &mut Ctx, b: Vec<u8>| {
        reached.insert(Class::of(&b));
        ctx.try_on(Block(b), |b| {
            valid::check(&b.0)?;
            block::difference(&Oracle::load(&b.0).save(), &b.0)
        });
    };
    for &class in &allowed {
        for _ in ctx.rounds(2) {
            let b = generate::block_of(&mut ctx.rng, class);
            identity(ctx, b);
        }
    }
    for _ in ctx.rounds(1500) {
        let b = generate::block(&mut ctx.rng);
        identity(ctx, b);
    }
    ctx.check(reached == allowed, || {
        let missed: Vec<_> = allowed.symmetric_difference(&reached).collect();
        format!("classes: {missed:?}")
    });
    ctx.note(format!(
        "{} of {} classes of valid blocks",
        reached.len(),
        allowed.len()
    ));
}

/// Random blocks by themselves have each mask with and without a frozen capture, each stage, and each transfer at each countdown.
fn every_mark(ctx: &mut Ctx) {
    let marks = |class: Class| {
        [
            format!("mask {}, frozen: {}", class.mask, class.frozen),
            format!("{:?}", class.stage),
            format!("preset: {}", class.preset),
            format!("pending {:?}", class.pending),
        ]
    };
    let due: BTreeSet<String> = allowed(ctx).into_iter().flat_map(marks).collect();
    let blocks = (0..1000).map(|_| generate::block(&mut ctx.rng));
    let drawn: BTreeSet<String> = blocks.flat_map(|b| marks(Class::of(&b))).collect();
    ctx.check(drawn == due, || {
        let missed: Vec<_> = due.symmetric_difference(&drawn).collect();
        format!("random blocks lack {missed:?}")
    });
}

/// Each clause of V1 to V6 is what refuses some block that is nearly valid.
fn every_clause(ctx: &mut Ctx) {
    let mut broken = BTreeSet::new();
    for _ in ctx.rounds(6000) {
        if let Err(clause) = valid::check(&generate::nearly_valid(&mut ctx.rng)) {
            broken.insert(clause);
        }
    }
    for (clause, _) in valid::clauses(&block::new()) {
        ctx.check(broken.contains(clause), || {
            format!("no block breaks {clause}")
        });
    }
}

/// Every code with every packet count, from `post_boot` and from random blocks once what was under way there has come to
/// its end: the command is answered, unless its count is 0, and the block stays valid.
fn every_command(ctx: &mut Ctx) {
    for round in ctx.rounds(4) {
        for first in 0..=255u8 {
            let mut b = block::post_boot();
            if round % 2 == 1 {
                b = generate::block(&mut ctx.rng);
                let mut rust = Oracle::load(&b);
                for w in generate::rest_of_command(&mut ctx.rng, &b) {
                    rust.write(w);
                }
                b = rust.save();
                ctx.check(b[RECEIVER] == 0, || "a command does not end".into());
            }
            let command = generate::command(&mut ctx.rng, first >> 3, first & 7);
            ctx.try_on((Block(b), Bytes(command)), |(b, command)| {
                let mut rust = Oracle::load(&b.0);
                let writes = generate::encode(&command.0);
                let answers: Vec<_> = writes.iter().filter_map(|w| rust.write(*w)).collect();
                let due = match usize::from(valid::count(command.0[0])) {
                    0 => vec![],
                    n => command.0.chunks_exact(16 * n).map(<[u8]>::to_vec).collect(),
                };
                if answers != due {
                    return Err(format!("answers {answers:X?}"));
                }
                Ok(valid::check(&rust.save())?)
            });
        }
    }
}

/// After random writes and screens the saved block is valid, and holds all that matters of the Rust's state: a unit loaded
/// from it before each event answers as the one that went on. Each kind of transfer lands.
fn steps_stay_valid(ctx: &mut Ctx) {
    let landings = std::cell::Cell::new([0; 5]);
    for _ in ctx.rounds(300) {
        let b = generate::block(&mut ctx.rng);
        let rest = generate::rest_of_command(&mut ctx.rng, &b);
        let mut events = vec![Event::Writes(rest)];
        events.extend(generate::events(&mut ctx.rng, 4));
        ctx.try_on((Block(b), List(events)), |(b, events)| {
            let mut rust = Oracle::load(&b.0);
            for event in &events.0 {
                let mut again = Oracle::load(&rust.save());
                match event {
                    Event::Writes(writes) => {
                        for w in writes {
                            if rust.write(*w) != again.write(*w) {
                                return Err(format!("the block lacks something: write {w:02X}"));
                            }
                        }
                    }
                    Event::Screen(screen) => {
                        let due = rust.pending().filter(|p| p.0 == 1).map(|p| p.1);
                        let landed = (rust.screen(screen), again.screen(screen));
                        if landed != (due, due) {
                            return Err(format!("due {due:?}, landed {landed:?}"));
                        }
                        if let Some(kind) = due {
                            let mut counts = landings.get();
                            counts[usize::from(kind)] += 1;
                            landings.set(counts);
                        }
                    }
                }
                valid::check(&rust.save())?;
                block::difference(&again.save(), &rust.save())?;
            }
            Ok(())
        });
    }
    let landings = landings.get();
    ctx.check(landings.iter().all(|n| *n > 0), || "a kind never landed".into());
    ctx.note(format!("landings of each kind: {landings:?}"));
}

/// The generator's screen of a page shows that page to the Rust.
fn pages(ctx: &mut Ctx) {
    for _ in ctx.rounds(100) {
        let page = generate::page(&mut ctx.rng);
        let screen = generate::screen_of_page(&mut ctx.rng, &page);
        let shown = oracle::transfer_data(&screen);
        ctx.check(shown == page, || "a page comes back otherwise".into());
    }
}

/// RULES 10.1 and 10.2 and the example of 8.5, through the Rust.
fn worked_examples(ctx: &mut Ctx) {
    let mut holds = |what: &str, holds: bool| ctx.check(holds, || what.into());

    for (first, count) in [(0x00, 0), (0xEF, 7), (0xF0, 1), (0xF7, 1)] {
        holds("the twelve: counts", oracle::packet_count(first) == count);
    }
    // about the leaf: a command's own pulses move the index, so it is set just before the stop pulse
    for (index, after) in [(1, 2), (3, 0)] {
        holds("the twelve: MLT_REQ 2", mlt_req_2(index) == after);
    }
    let entry = BorderMapEntry(0x5003);
    holds(
        "the twelve: 5003",
        (
            entry.tile(),
            entry.palette(),
            entry.flip_x(),
            entry.flip_y(),
        ) == (3, 4, true, false),
    );
    holds("the twelve: 67BF", oracle::rgb8(0x67BF) == 0xFF_EE_CA);
    holds(
        "the twelve: 1B",
        oracle::attribute_cells(&[0x1B])[0][..4] == [0, 1, 2, 3],
    );
    let mut screen = vec![0; SCREEN_LEN];
    screen[..2].copy_from_slice(&[0x1B, 0x1B]);
    holds(
        "the twelve: planes",
        oracle::transfer_data(&screen)[..2] == [0x55, 0x33],
    );

    let cells = cells_after(&[0x21, 1, 1, 2, 3, 3, 3, 3]);
    let only = cells[3][3] == 2 && cells.iter().flatten().sum::<u8>() == 2;
    holds("the twelve: ATTR_BLK on one cell", only);
    let cells = cells_after(&[0x21, 1, 4, 0x10, 5, 0, 4, 9]);
    let all = cells.iter().flatten().all(|c| *c == 1);
    holds("the twelve: ATTR_BLK with x1 > x2", all);

    let mut command = [0; 16];
    command[..2].copy_from_slice(&[0xB9, 0x02]);
    let (answers, b) = after(&generate::encode(&command));
    holds("B9 02: the command", answers == [command.to_vec()]);
    holds("B9 02: the block", head(&b) == "02000001010000000001000000");
    let (_, b) = after(&[0x00, 0x30, 0x20]);
    holds(
        "003020: the block",
        head(&b) == "00000001000100000101000000",
    );
    let (_, b) = after(&[0x00, 0x20]);
    holds("00 then 20: no bit", b[RECEIVER] == 1 && b[BIT_INDEX] == 0);
    let cells = cells_after(&[0x39, 19, 17, 2, 0, 0, 0xFF]);
    let one = cells.iter().flatten().filter(|c| **c != 0).count() == 1 && cells[17][19] == 3;
    holds("ATTR_CHR from the last cell on", one);

    let mut rust = Oracle::post_boot();
    let mut command = [0; 16];
    command[0] = 0x59;
    generate::encode(&command)
        .iter()
        .for_each(|w| drop(rust.write(*w)));
    let screen = vec![0; SCREEN_LEN];
    let landed = [(); 4].map(|_| rust.screen(&screen));
    holds(
        "the third screen lands",
        landed == [None, None, Some(0), None],
    );
}

/// The index after MLT_REQ 2 arrives with this index at its stop pulse, which doesn't raise P15.
fn mlt_req_2(index: u8) -> u8 {
    let mut b = block::post_boot();
    (b[JOYPAD_INDEX], b[JOYPAD_MASK]) = (index, 3);
    (b[RECEIVER], b[BIT_INDEX]) = (1, 128);
    b[PACKET][..2].copy_from_slice(&[0x89, 2]);
    let mut rust = Oracle::load(&b);
    assert!(rust.write(0x20).is_some());
    rust.save()[JOYPAD_INDEX]
}

/// The answers to these writes from `post_boot`, and the block.
fn after(writes: &[u8]) -> (Vec<Vec<u8>>, Vec<u8>) {
    let mut rust = Oracle::post_boot();
    let answers = writes.iter().filter_map(|w| rust.write(*w)).collect();
    (answers, rust.save())
}

/// The attribute map after one command of one packet.
fn cells_after(command: &[u8]) -> [[u8; 20]; 18] {
    let mut packet = [0; 16];
    packet[..command.len()].copy_from_slice(command);
    oracle::attribute_cells(&after(&generate::encode(&packet)).1[MAP])
}

/// The first thirteen bytes, as `replay` prints them.
fn head(b: &[u8]) -> String {
    b[..13].iter().map(|x| format!("{x:02X}")).collect()
}
