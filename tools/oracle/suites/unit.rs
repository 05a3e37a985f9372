//! The public calls that change a block, and the check of a saved one, against the Rust: each answer, every byte of the block and of
//! the command buffer, the refusals with every combination of their causes, and damaged blocks against `broken`'s reading of V1 to V6.

use crate::block::{self, *};
use crate::both::{By, follow, marked};
use crate::broken;
use crate::counts;
use crate::ctx::Ctx;
use crate::event::Event;
use crate::generate;
use crate::oracle::Oracle;
use crate::port::*;
use crate::rng::Rng;
use crate::shrink::{Block, List};
use crate::valid;
use std::collections::BTreeSet;

pub fn run(ctx: &mut Ctx) {
    fresh(ctx);
    every_command(ctx);
    streams(ctx, 400, generate::events, By::Write);
    refusals(ctx);
    damaged_blocks(ctx);
}

/// `new` and `post_boot` over any bytes are the Rust's, and refuse a block of another length.
fn fresh(ctx: &mut Ctx) {
    let calls: [(&str, unsafe extern "C" fn(*mut u8, usize) -> u32, Oracle); 2] = [
        ("new", probe_new, Oracle::new()),
        ("post_boot", probe_post_boot, Oracle::post_boot()),
    ];
    for (name, call, rust) in calls {
        let rust = rust.save();
        for len in [0, 1, LEN - 1, LEN, LEN + 1, 2 * LEN] {
            for _ in ctx.rounds(20) {
                let mut b = vec![0; len];
                generate::fill(&mut ctx.rng, &mut b);
                let before = b.clone();
                let told = unsafe { call(b.as_mut_ptr(), b.len()) };
                let (answer, after) = match len {
                    LEN => (0, &rust),
                    _ => (1, &before),
                };
                ctx.same(|| format!("{name} into {len} bytes"), told, answer);
                let same = block::difference(&b, after);
                ctx.check(same.is_ok(), || format!("{name} into {len} bytes: {same:?}"));
            }
        }
    }
}

/// Every code with every packet count and then the screens at which a transfer lands, from `post_boot` and from random blocks.
fn every_command(ctx: &mut Ctx) {
    for round in ctx.rounds(4) {
        for first in 0..=255u8 {
            let mut b = block::post_boot();
            let mut events = Vec::new();
            if round % 2 == 1 {
                b = generate::block(&mut ctx.rng);
                let rest = generate::rest_of_command(&mut ctx.rng, &b);
                events.push(Event::Writes(rest));
            }
            let command = generate::command(&mut ctx.rng, first >> 3, first & 7);
            events.push(Event::Writes(generate::encode(&command)));
            for _ in 0..ctx.rng.within(0, 4) {
                events.push(Event::Screen(generate::screen(&mut ctx.rng)));
            }
            let spare = ctx.rng.pick(&[0, 0, 1, 16, 40]);
            ctx.try_on((Block(b), spare, List(events)), |(b, spare, events)| {
                follow(&b.0, *spare, &events.0, By::Write)
            });
        }
    }
}

/// Commands, faults, noise and screens, from any valid block and from fresh ones. Each kind of transfer lands.
pub fn streams(ctx: &mut Ctx, rounds: usize, events: fn(&mut Rng, usize) -> Vec<Event>, by: By) {
    for _ in ctx.rounds(rounds) {
        let b = generate::start(&mut ctx.rng);
        let rest = generate::rest_of_command(&mut ctx.rng, &b);
        let mut all = vec![Event::Writes(rest)];
        all.extend(events(&mut ctx.rng, 12));
        let spare = ctx.rng.pick(&[0, 0, 1, 16, 40]);
        ctx.try_on((Block(b), spare, List(all)), |(b, spare, all)| {
            follow(&b.0, *spare, &all.0, by)
        });
    }
    let landings = counts::landings();
    ctx.check(landings.iter().all(|n| *n > 0), || "a kind never landed".into());
}

/// The causes of refusals 1 and 21 to 26 in every combination, on a random block: the block, and the number that is due, or 0.
fn causes(rng: &mut Rng) -> Vec<(Vec<u8>, u32)> {
    let sound = generate::block(rng);
    let mut hurt = sound.clone();
    while broken::broken(&hurt).is_none() {
        damage(rng, &sound).iter().for_each(|c| change(&mut hurt, *c));
    }
    let mut all = vec![(sound.clone(), 0), (hurt.clone(), broken::refusal(&hurt))];
    for len in [0, LEN - 1, LEN + 1] {
        for b in [&sound, &hurt] {
            let mut b = b.clone();
            b.resize(len, 0);
            all.push((b, 1));
        }
    }
    all
}

/// Every call with every combination of what it refuses: the first cause is answered, and no lent byte changes.
fn refusals(ctx: &mut Ctx) {
    for _ in ctx.rounds(60) {
        for (b, number) in causes(&mut ctx.rng) {
            ctx.same(|| format!("check of {} bytes", b.len()), check(&b), number);
            for out_len in [0, COMMAND_LEN - 1, COMMAND_LEN, COMMAND_LEN + 1] {
                let short = if out_len < COMMAND_LEN { 6 } else { 0 };
                for value in [0x00, 0x10, 0x20, 0x30, ctx.rng.byte()] {
                    let (mut after, mut out) = (b.clone(), marked(out_len));
                    let told = write_joypad(&mut after, value, &mut out);
                    let what = format!("write {value:02X}, buffer {out_len}");
                    let kept = after == b && out == marked(out_len);
                    refused(ctx, &what, &b, told, [number, short], kept);
                }
            }
            for screen_len in [0, SCREEN_LEN - 1, SCREEN_LEN, SCREEN_LEN + 1] {
                let mut screen = vec![0; screen_len];
                generate::fill(&mut ctx.rng, &mut screen);
                let other = if screen_len != SCREEN_LEN { 3 } else { 0 };
                let mut after = b.clone();
                let told = update_screen(&mut after, &screen);
                let what = format!("screen of {screen_len}");
                refused(ctx, &what, &b, told, [number, other], after == b);
            }
        }
    }
}

/// One answer, to a call that has these causes to refuse, the block's first (0 is none). `kept`: no lent byte changed.
fn refused(ctx: &mut Ctx, what: &str, b: &[u8], told: u32, causes: [u32; 2], kept: bool) {
    let number = causes.into_iter().find(|n| *n > 0);
    let holds = match number {
        Some(n) => told == REFUSED | n && kept,
        None => told < REFUSED,
    };
    ctx.check(holds, || {
        let (len, head) = (b.len(), &b[..b.len().min(16)]);
        format!("{what}, block of {len}, {head:02X?}: {told:X}, due {number:?}, kept: {kept}")
    });
}

/// One to three changed bytes for a valid block, where V1 to V6 look: each is the place * 256 + the byte.
pub fn damage(rng: &mut Rng, b: &[u8]) -> Vec<u32> {
    let mut changes = Vec::new();
    for _ in 0..rng.within(1, 3) {
        let edge = STORE.start + 16 * usize::from(b[RECEIVED]);
        let at = match rng.below(16) {
            0..6 => rng.below(PACKET.start),
            6 => rng.pick(&[RECEIVER, EXPECTED, RECEIVED, BIT_INDEX]),
            7 => PACKET.start + usize::from(b[BIT_INDEX]) / 8,
            8 => rng.within(PACKET.start, PACKET.end - 1),
            9 => rng.pick(&[STORE.start, STORE.end - 1]),
            10 => rng.pick(&[edge - 1, edge]),
            11 => rng.within(STORE.start, STORE.end - 1),
            12 => rng.within(PRESET.start - 1, PRESET.end),
            13 => rng.pick(&[FROZEN.start - 1, FROZEN.start, FROZEN.end - 1, FROZEN.end]),
            14 => rng.within(FROZEN.start, FROZEN.end - 1),
            _ => rng.below(LEN),
        };
        let byte = match rng.below(4) {
            0 => rng.byte(),
            1 => b[at] ^ 1 << rng.below(8),
            2 => b[at].wrapping_add(rng.pick(&[1, 255])),
            _ => rng.below(9) as u8,
        };
        changes.push((at as u32) << 8 | u32::from(byte));
    }
    changes
}

pub fn change(b: &mut [u8], change: u32) {
    b[change as usize >> 8] = change as u8;
}

/// A valid block with some bytes changed is refused as `broken` says, and is then left as it is. More than 10,000 are invalid.
fn damaged_blocks(ctx: &mut Ctx) {
    let (mut broken, mut alone) = (BTreeSet::new(), BTreeSet::new());
    for _ in ctx.rounds(12_000) {
        let b = generate::block(&mut ctx.rng);
        let changes = damage(&mut ctx.rng, &b);
        let mut hurt = b.clone();
        changes.iter().for_each(|c| change(&mut hurt, *c));
        let clauses = valid::clauses(&hurt).into_iter().filter(|c| !c.1);
        let names: Vec<&str> = clauses.map(|c| c.0).collect();
        counts::damaged(broken::broken(&hurt));
        if let [only] = names[..] {
            alone.insert(only);
        }
        broken.extend(names);
        ctx.try_on((Block(b), List(changes)), |(b, changes)| {
            let mut hurt = b.0.clone();
            changes.0.iter().for_each(|c| change(&mut hurt, *c));
            check_damaged(&hurt)
        });
    }
    let all = valid::clauses(&block::new());
    for (clause, _) in &all {
        ctx.check(broken.contains(clause), || format!("no block breaks {clause}"));
    }
    ctx.note(format!(
        "of {} clauses {} broken, {} each alone",
        all.len(),
        broken.len(),
        alone.len()
    ));
}

fn check_damaged(hurt: &[u8]) -> Result<(), String> {
    let (told, due) = (check(hurt), broken::refusal(hurt));
    if due == 0 {
        return match told {
            0 => Ok(()),
            n => Err(format!("a valid block is refused: {n:X}")),
        };
    }
    let (mut after, mut out) = (hurt.to_vec(), marked(COMMAND_LEN));
    let written = write_joypad(&mut after, 0x20, &mut out);
    let shown = update_screen(&mut after, &[0; SCREEN_LEN]);
    if (told, written, shown) != (due, REFUSED | due, REFUSED | due) {
        return Err(format!("{due:X} is due: check {told:X}, write {written:X}, screen {shown:X}"));
    }
    if out != marked(COMMAND_LEN) {
        return Err("a refused write changed the buffer".into());
    }
    block::difference(&after, hurt)
}
