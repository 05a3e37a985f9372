//! States exchanged with the emulator. The Rust's own states must give the block that the harness has, and ours must give the Rust a unit that
//! answers alike from then on; every lent byte is looked at. `states/refusals.rs` holds every refusal to the second reading in `state.rs`, and
//! `states/listed.rs` each state that the Rust takes and we refuse to the list of differences.

mod listed;
mod refusals;

use super::views::Call;
use crate::block::{self, *};
use crate::both::{Both, By};
use crate::counts::{self, TOLD, count};
use crate::ctx::Ctx;
use crate::event::Event;
use crate::generate::{self, Class};
use crate::oracle::Oracle;
use crate::port::NOTHING;
use crate::rng::Rng;
use crate::shrink::{Block, List};
use crate::state::*;
use crate::valid;

pub fn run(ctx: &mut Ctx) {
    every_class(ctx);
    after_events(ctx);
    runs(ctx);
    trap(ctx);
    shades(ctx);
    forgotten(ctx);
    room(ctx);
    refusals::run(ctx);
    listed::run(ctx);
    // the preset is zeros unless its flag is 1, so no state breaks V5
    for (number, due) in [(25, false)]
        .into_iter()
        .chain(TOLD.map(|number| (number, true)))
    {
        let told = counts::states(number) > 0;
        ctx.check(told == due, || {
            format!("{number} is told of a state: {told}")
        });
    }
}

/// Fresh blocks, and a random one of each class that V1 to V6 allow.
fn blocks(rng: &mut Rng) -> Vec<Vec<u8>> {
    let mut all = vec![block::new(), block::post_boot()];
    for class in Class::all() {
        let b = generate::block_of(rng, class);
        all.extend(valid::check(&b).is_ok().then_some(b));
    }
    all
}

/// So many bytes for a state to come into: a byte that is kept is seen.
fn anything(seed: usize, len: usize) -> Vec<u8> {
    (0..len).map(|i| (i ^ i >> 8 ^ seed) as u8).collect()
}

/// What the Rust writes of a unit comes in as the block that the harness has of it.
fn comes_in(unit: &Oracle, seed: usize) -> Result<Vec<u8>, String> {
    let mut b = anything(seed, LEN);
    match from_state(&mut b, &State::of(unit)) {
        0 => block::difference(&b, &unit.save())?,
        no => return Err(format!("a state of the Rust's is refused: {no:X}")),
    }
    count(|c| c.states_in += 1);
    Ok(b)
}

/// A block goes out as what the Rust writes of its unit, and comes in again.
fn goes_out(b: &[u8], seed: usize) -> Result<(), String> {
    let state = out(b)?;
    state.is(&given(b))?;
    state.is(&State::of(&Oracle::load(b)))?;
    let mut again = anything(seed, LEN);
    match from_state(&mut again, &state) {
        0 => block::difference(&again, b)?,
        no => return Err(format!("what went out is refused: {no:X}")),
    }
    count(|c| c.states_back += 1);
    Ok(())
}

/// In from the Rust, and out and in again, for fresh blocks and those of every class.
fn every_class(ctx: &mut Ctx) {
    for _ in ctx.rounds(1) {
        for b in blocks(&mut ctx.rng) {
            let seed = ctx.rng.below(1 << 16);
            ctx.try_on((Block(b), seed), |(b, seed)| {
                comes_in(&Oracle::load(&b.0), *seed)?;
                goes_out(&b.0, *seed)
            });
        }
    }
}

/// A unit of the Rust's goes from event to event, and comes in after each. Then the block that came in goes on beside that same unit.
fn after_events(ctx: &mut Ctx) {
    for _ in ctx.rounds(40) {
        let b = generate::start(&mut ctx.rng);
        let rest = generate::rest_of_command(&mut ctx.rng, &b);
        let mut events = vec![Event::Writes(rest)];
        events.extend(generate::events(&mut ctx.rng, 8));
        let more = generate::events(&mut ctx.rng, 4);
        ctx.try_on((Block(b), List(more), List(events)), |(b, more, events)| {
            let mut unit = Oracle::load(&b.0);
            for (i, event) in events.0.iter().enumerate() {
                match event {
                    Event::Writes(writes) => writes.iter().for_each(|w| drop(unit.write(*w))),
                    Event::Screen(screen) => drop(unit.screen(screen)),
                }
                comes_in(&unit, i)?;
            }
            let b = comes_in(&unit, 0)?;
            goes_out(&b, 0)?;
            let mut both = Both::beside(&b, unit, 0);
            let mut more = more.0.iter();
            more.try_for_each(|event| both.event(event, By::Play))?;
            pictures(&both)
        });
    }
}

fn pictures(both: &Both) -> Result<(), String> {
    let (b, unit) = both.sides();
    let (told, words) = Call::Picture(57_344).port(b);
    count(|c| c.pictures += 1);
    match told == 57_344 && words == unit.picture() {
        true => Ok(()),
        false => Err(format!("the pictures differ ({told:X})")),
    }
}

/// A block goes out, and the Rust's unit that is made of it goes on beside the block: screens at once, at which what is pending lands, then
/// writes and screens, with pictures before and after.
fn runs(ctx: &mut Ctx) {
    for round in ctx.rounds(500) {
        let b = generate::start(&mut ctx.rng);
        let screens = ctx.rng.below(5);
        let screens = (0..screens).map(|_| Event::Screen(generate::screen(&mut ctx.rng)));
        let mut events: Vec<Event> = screens.collect();
        let rest = generate::rest_of_command(&mut ctx.rng, &b);
        events.push(Event::Writes(rest));
        if round % 8 == 0 {
            events.extend(generate::events(&mut ctx.rng, 6));
        }
        ctx.try_on((Block(b), List(events)), |(b, events)| {
            let rust = out(&b.0)?.rust(Zero::LeftOut);
            let rust = rust.ok_or("the Rust refuses what went out")?;
            let mut both = Both::beside(&b.0, rust, 0);
            both.same()?;
            pictures(&both)?;
            let mut events = events.0.iter();
            events.try_for_each(|event| both.event(event, By::Play))?;
            pictures(&both)?;
            both.same()?;
            count(|c| c.states_out += 1);
            Ok(())
        });
    }
}

/// The trap: a record that has the countdown of 0 in it is a transfer to the Rust, which lands at the next screen. The blocks are the same,
/// so a run must see it. With any other kind the Rust holds that kind; with the two fields left out nothing lands.
fn trap(ctx: &mut Ctx) {
    for _ in ctx.rounds(10) {
        let class = Class {
            pending: None,
            ..Class::of(&generate::block(&mut ctx.rng))
        };
        let b = generate::block_of(&mut ctx.rng, class);
        let screen = generate::screen(&mut ctx.rng);
        let Ok(mut state) = out(&b) else {
            ctx.check(false, || "a valid block does not go out".into());
            continue;
        };
        for (kind, zero) in (0..5).flat_map(|kind| [Zero::LeftOut, Zero::Kept].map(|z| (kind, z))) {
            state.fields[KIND] = kind;
            let mut came = anything(0, LEN);
            let told = from_state(&mut came, &state);
            ctx.check(told == 0 && came == b, || {
                format!("countdown 0, kind {kind}: {told:X}")
            });
            let unit = state.rust(zero).unwrap();
            let mut both = Both::beside(&b, unit, 0);
            let unseen = both.same().is_ok();
            let shown = both.screen(&screen);
            match zero {
                Zero::LeftOut => ctx.check(unseen && shown == Ok(NOTHING), || {
                    format!("kind {kind} is left out: {shown:?}")
                }),
                Zero::Kept => {
                    ctx.check(unseen == (kind == 0), || {
                        format!("kind {kind}, kept: {unseen}")
                    });
                    let due = format!("a screen: {NOTHING:X}, the Rust {kind:X}");
                    ctx.check(shown == Err(due), || {
                        format!("kind {kind}, kept: {shown:?}")
                    });
                }
            }
        }
    }
}

/// Every byte as a shade, at the first pixel, the last and anywhere, live and frozen: the low two bits come in, as by the Rust.
fn shades(ctx: &mut Ctx) {
    let class = Class {
        mask: 1,
        frozen: true,
        ..Class::of(&block::new())
    };
    let b = generate::block_of(&mut ctx.rng, class);
    for (shade, k) in (0..=255).flat_map(|shade| [(shade, span::CAPTURE), (shade, span::FROZEN)]) {
        for at in [0, 23_039, ctx.rng.below(23_040)] {
            let mut state = given(&b);
            state.spans[k].as_mut().unwrap()[at] = shade;
            let mut came = anything(at, LEN);
            let told = from_state(&mut came, &state);
            let part = if k == span::CAPTURE { LIVE } else { FROZEN };
            let low = came[part][at / 4] >> (6 - 2 * (at % 4)) & 3;
            let rust = state.rust(Zero::LeftOut).unwrap().save();
            let holds = told == 0 && low == shade & 3 && came == rust;
            ctx.check(holds, || {
                format!("{}: pixel {at} is {shade:02X}: {told:X}", SPANS[k].0)
            });
        }
    }
}

/// A state that is taken comes back but for what the block has no place for: the high bits of shades, the kind beside a countdown of 0, a
/// preset without its flag, and a border of which a span is missing.
fn forgotten(ctx: &mut Ctx) {
    for _ in ctx.rounds(400) {
        let b = generate::block(&mut ctx.rng);
        let mut state = given(&b);
        for k in [span::CAPTURE, span::FROZEN] {
            let high = ctx.rng.byte() & ctx.rng.byte() & 0xFC;
            state.spans[k]
                .iter_mut()
                .flatten()
                .for_each(|shade| *shade |= high);
        }
        if b[COUNTDOWN] == 0 {
            state.fields[KIND] = ctx.rng.below(5) as u8;
        }
        if b[PRESET_IN_FORCE] == 0 {
            let n = ctx.rng.pick(&[0, 7, 8, 9, 40]);
            state.spans[span::PRESET] = ctx.rng.one_in(2).then(|| vec![0x5A; n]);
        }
        let missing = ctx.rng.below(16);
        for (i, k) in BORDER.into_iter().enumerate() {
            if missing >> i & 1 == 1 {
                state.spans[k] = None;
            } else if missing & 7 != 0 {
                let n = ctx.rng.below(10_000);
                let other = ctx.rng.one_in(2).then(|| vec![0xC3; n]);
                state.spans[k] = other.or(state.spans[k].take());
            }
        }
        let (above, n) = (ctx.rng.below(16) as u16, ctx.rng.below(30_000));
        ctx.try_on((state, above, n), |(state, above, n)| {
            // the shrinker may leave what is taken
            let Ok(due) = taken(state) else {
                return Ok(());
            };
            let mut b = anything(*n, LEN);
            let told = from_state_with(&mut b, state, *above, &vec![0xFF; *n]);
            if told != 0 {
                return Err(format!("refused: {told:X}"));
            }
            block::difference(&b, &due)?;
            out(&b)?.is(&kept(state))?;
            count(|c| c.states_back += 1);
            let rust = state.rust(Zero::LeftOut);
            block::difference(&b, &rust.ok_or("the Rust refuses it")?.save())
        });
    }
}

/// Lent buffers that are longer than they must be keep their tails, and a span that isn't there keeps every byte.
fn room(ctx: &mut Ctx) {
    for _ in ctx.rounds(300) {
        let b = generate::start(&mut ctx.rng);
        let spare: [usize; 13] = std::array::from_fn(|_| ctx.rng.pick(&[0, 0, 1, 2, 16, 300]));
        ctx.try_on((Block(b), List(spare.to_vec())), |(b, spare)| {
            let state = given(&b.0);
            let mut lengths = ROOM;
            lengths
                .iter_mut()
                .zip(&spare.0)
                .for_each(|(n, more)| *n += more);
            let mut due = lent(lengths);
            let mut present = 0;
            due[0][..12].copy_from_slice(&state.fields);
            for (k, data) in state.spans.iter().enumerate() {
                if let Some(data) = data {
                    due[k + 1][..data.len()].copy_from_slice(data);
                    present |= 1 << k;
                }
            }
            let mut held = lent(lengths);
            let told = to_state(&b.0, &mut held);
            if told != present {
                return Err(format!("to_state: {told:X}, not {present:X}"));
            }
            match (0..13).find(|i| held[*i] != due[*i]) {
                None => Ok(()),
                Some(i) => Err(format!("buffer {i} of {} bytes", lengths[i])),
            }
        });
    }
}
