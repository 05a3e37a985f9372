//! Blocks: valid ones by class, and ones that may just not be.

use super::{border_map, fill, screen};
use crate::block::*;
use crate::rng::Rng;

/// Where the receiver stands. Receiving a first packet and a later one are ruled by other clauses of V3.
#[derive(Clone, Copy, Debug, PartialEq, Eq, PartialOrd, Ord)]
pub enum Stage {
    Idle,
    First,
    Later,
    Awaiting,
}

/// What V1 to V6 tell blocks apart by. `pending` is countdown and kind.
#[derive(Clone, Copy, Debug, PartialEq, Eq, PartialOrd, Ord)]
pub struct Class {
    pub mask: u8,
    pub frozen: bool,
    pub stage: Stage,
    pub preset: bool,
    pub pending: Option<(u8, u8)>,
}

impl Class {
    /// Every combination, also those that no valid block has.
    pub fn all() -> Vec<Class> {
        let mut classes = Vec::new();
        let pending =
            (1..=3).flat_map(|countdown| (0..=4).map(move |kind| Some((countdown, kind))));
        let pending: Vec<_> = pending.chain([None]).collect();
        for mask in 0..=3 {
            for stage in [Stage::Idle, Stage::First, Stage::Later, Stage::Awaiting] {
                for (frozen, preset) in [(false, false), (false, true), (true, false), (true, true)]
                {
                    classes.extend(pending.iter().map(|&pending| Class {
                        mask,
                        frozen,
                        stage,
                        preset,
                        pending,
                    }));
                }
            }
        }
        classes
    }

    pub fn of(block: &[u8]) -> Class {
        Class {
            mask: block[MASK],
            frozen: block[FROZEN_PRESENT] != 0,
            stage: match (block[RECEIVER], block[RECEIVED]) {
                (0, _) => Stage::Idle,
                (1, 0) => Stage::First,
                (1, _) => Stage::Later,
                _ => Stage::Awaiting,
            },
            preset: block[PRESET_IN_FORCE] != 0,
            pending: (block[COUNTDOWN] != 0).then_some((block[COUNTDOWN], block[KIND])),
        }
    }
}

/// A random valid block of a random class.
pub fn block(rng: &mut Rng) -> Vec<u8> {
    // V6: freezing has a capture, black and backdrop have none
    let (mask, frozen) = rng.pick(&[(0, false), (0, true), (1, true), (2, false), (3, false)]);
    let pending = (!rng.one_in(4)).then(|| (rng.within(1, 3) as u8, rng.below(5) as u8));
    let class = Class {
        mask,
        frozen,
        stage: rng.pick(&[Stage::Idle, Stage::First, Stage::Later, Stage::Awaiting]),
        preset: rng.one_in(2),
        pending,
    };
    block_of(rng, class)
}

/// A block to set out from: a fresh one now and then.
pub fn start(rng: &mut Rng) -> Vec<u8> {
    match rng.below(8) {
        0 => new(),
        1 => post_boot(),
        _ => block(rng),
    }
}

/// A random block of this class, valid if the class is one that V1 to V6 allow.
pub fn block_of(rng: &mut Rng, class: Class) -> Vec<u8> {
    let mut b = vec![0; LEN];
    b[MASK] = class.mask;
    b[JOYPAD_MASK] = rng.below(4) as u8;
    b[JOYPAD_INDEX] = rng.byte() & b[JOYPAD_MASK];
    (b[P15_HIGH], b[LINES_HIGH]) = rng.pick(&[(0, 0), (1, 0), (1, 1)]);
    receiver(rng, class.stage, &mut b);
    if class.preset {
        b[PRESET_IN_FORCE] = 1;
        fill(rng, &mut b[PRESET]);
    }
    if let Some((countdown, kind)) = class.pending {
        (b[COUNTDOWN], b[KIND]) = (countdown, kind);
    }
    if class.frozen {
        b[FROZEN_PRESENT] = 1;
        b[FROZEN].copy_from_slice(&screen(rng));
    }
    for part in [
        PALETTES,
        MAP,
        SYSTEM_PALETTES,
        FILES,
        TILES,
        BORDER_PALETTES,
    ] {
        fill(rng, &mut b[part]);
    }
    b[LIVE].copy_from_slice(&screen(rng));
    border_map(rng, &mut b[BORDER_MAP]);
    b
}

/// V3's bytes and parts for a stage.
fn receiver(rng: &mut Rng, stage: Stage, b: &mut [u8]) {
    if matches!(stage, Stage::First | Stage::Later) {
        b[RECEIVER] = 1;
        b[BIT_INDEX] = match rng.below(3) {
            0 => rng.pick(&[0, 1, 7, 8, 9, 63, 64, 65, 119, 120, 127]),
            1 => 128,
            _ => rng.within(0, 128) as u8,
        };
        fill(rng, &mut b[PACKET]);
        for i in usize::from(b[BIT_INDEX])..128 {
            b[PACKET.start + i / 8] &= !(1 << (i % 8));
        }
    }
    if stage == Stage::Awaiting {
        b[RECEIVER] = 2;
    }
    if matches!(stage, Stage::Later | Stage::Awaiting) {
        let expected = rng.within(2, 7);
        let received = rng.within(1, expected - 1);
        fill(rng, &mut b[STORE][..16 * received]);
        // codes 1E and 1F are of one packet, so no later one of theirs is ever awaited
        b[STORE.start] = (rng.below(0x1E) << 3 | expected) as u8;
        b[EXPECTED] = expected as u8;
        b[RECEIVED] = received as u8;
    }
}

/// A valid block with a few bytes changed where V1 to V6 look: valid or just not. `valid::check` tells which.
pub fn nearly_valid(rng: &mut Rng) -> Vec<u8> {
    let mut b = block(rng);
    for _ in 0..rng.within(1, 2) {
        let at = match rng.below(8) {
            0..4 => rng.below(PACKET.start),
            4 => rng.pick(&[RECEIVER, EXPECTED, RECEIVED, BIT_INDEX]),
            5 => rng.within(PACKET.start, STORE.end - 1),
            6 => rng.within(PRESET.start, PRESET.end - 1),
            _ => rng.within(FROZEN.start, FROZEN.end - 1),
        };
        b[at] = match rng.below(4) {
            0 => rng.byte(),
            1 => b[at] ^ 1 << rng.below(8),
            2 => b[at].wrapping_add(1),
            _ => rng.below(9) as u8,
        };
    }
    b
}
