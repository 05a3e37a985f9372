//! States of the emulator, in and out, beside the Rust; and a state in beside a yardstick, as many bytes copied with a table look-up a byte.
//! The Rust is handed its record and its list of spans ready made, as ours is handed fields and spans.

use crate::block::*;
use crate::oracle::Oracle;
use crate::rng::Rng;
use crate::state::{self, BORDER, State};
use crate::{Job, Turn, each};
use gb::sgb::post_boot as door;
use std::hint::black_box;

/// What of a state may be missing.
#[derive(Clone, Copy)]
struct Has {
    frozen: bool,
    border: bool,
}

const ALL: Has = Has {
    frozen: true,
    border: true,
};
const LIVE_ALONE: Has = Has {
    frozen: false,
    border: true,
};
const NO_BORDER: Has = Has {
    frozen: true,
    border: false,
};
const NEITHER: Has = Has {
    frozen: false,
    border: false,
};

pub fn jobs() -> Vec<Job> {
    vec![
        state_in("state in", 1.0, ALL),
        state_in("state in, no frozen capture", 1.0, LIVE_ALONE),
        state_in("state in, no border", 1.0, NO_BORDER),
        state_in("state in, neither", 1.0, NEITHER),
        state_out("state out", 1.0, ALL),
        state_out("state out, no frozen capture", 1.0, LIVE_ALONE),
    ]
}

/// The time that was asked for: at most twice that of the yardstick.
pub fn beside_a_look_up() -> Vec<Job> {
    vec![
        look_up("state in, 76,884 bytes", 2.0, ALL),
        look_up("state in, no frozen capture, 53,844", 2.0, LIVE_ALONE),
        look_up("state in, no border, 66,804", 2.0, NO_BORDER),
        look_up("state in, neither, 43,764", 2.0, NEITHER),
    ]
}

/// A unit that is idle, with noise in all that a state has in length.
fn unit(has: Has) -> Vec<u8> {
    let mut rng = Rng::new(20261116, "state");
    let mut block = post_boot();
    block[PALETTES.start..FROZEN.start].fill_with(|| rng.byte());
    if has.frozen {
        (block[MASK], block[FROZEN_PRESENT]) = (1, 1);
        block[FROZEN].fill_with(|| rng.byte());
    }
    if has.border {
        block[TILES.start..].fill_with(|| rng.byte());
    }
    block
}

/// The unit as the state that the Rust writes of it, of which the border is left out where there is none.
fn state(has: Has) -> State {
    let mut state = State::of(&Oracle::load(&unit(has)));
    if !has.border {
        BORDER.iter().for_each(|k| state.spans[*k] = None);
    }
    state
}

/// Our turn, after its answer and its block were compared.
fn ours(has: Has) -> Turn {
    let (state, mut block) = (state(has), vec![0xA5; LEN]);
    assert_eq!(state::from_state(&mut block, &state), 0);
    difference(&block, &unit(has)).unwrap();
    Box::new(move || {
        each(100, |_| {
            state::from_state(black_box(&mut block), black_box(&state))
        })
    })
}

fn state_in(name: &'static str, limit: f64, has: Has) -> Job {
    let rust = Oracle::load(&unit(has)).0;
    let record = door::write_state(&rust);
    let memory = door::capture_memory(&rust).into_iter();
    let memory: Vec<(String, Vec<u8>)> = memory
        .filter(|(name, _)| has.border || !name.starts_with("sgb_border"))
        .map(|(name, data)| (name.to_string(), data))
        .collect();
    let take = move || door::from_state(black_box(&record), black_box(&memory));
    difference(&Oracle(take().unwrap().unwrap()).save(), &unit(has)).unwrap();
    Job {
        name,
        limit,
        port: ours(has),
        other: Box::new(move || each(20, |_| take())),
    }
}

fn state_out(name: &'static str, limit: f64, has: Has) -> Job {
    let block = unit(has);
    let rust = Oracle::load(&block);
    State::of(&rust).is(&state::out(&block).unwrap()).unwrap();
    let mut lent = state::lent(state::ROOM);
    Job {
        name,
        limit,
        port: Box::new(move || each(100, |_| state::to_state(black_box(&block), &mut lent))),
        other: Box::new(move || {
            each(20, |_| {
                let unit = black_box(&rust.0);
                (door::write_state(unit), door::capture_memory(unit))
            })
        }),
    }
}

fn look_up(name: &'static str, limit: f64, has: Has) -> Job {
    let state = state(has);
    let bytes: Vec<u8> = state.spans.iter().flatten().flatten().copied().collect();
    let bytes = [&state.fields[..], &bytes].concat();
    let told: String = name.chars().filter(char::is_ascii_digit).collect();
    assert_eq!(told, bytes.len().to_string());
    let mut copy = vec![0; bytes.len()];
    let table: [u8; 256] = std::array::from_fn(|i| i as u8 ^ 0x5A);
    copied(&mut copy, &bytes, &table);
    assert!(copy.iter().zip(&bytes).all(|(to, from)| *to == from ^ 0x5A));
    Job {
        name,
        limit,
        port: ours(has),
        other: Box::new(move || {
            each(100, |_| {
                copied(black_box(&mut copy), black_box(&bytes), black_box(&table))
            })
        }),
    }
}

/// The yardstick. What the table has is not known here.
#[inline(never)]
fn copied(to: &mut [u8], from: &[u8], table: &[u8; 256]) {
    for (to, from) in to.iter_mut().zip(from) {
        *to = table[usize::from(*from)];
    }
}
