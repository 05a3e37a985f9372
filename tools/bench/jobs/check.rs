//! The check of a block that it refuses, beside the check of the same block before it was damaged. With a frozen capture a check has
//! next to nothing to look at, and with none the 5,760 zeros in its place.

use crate::block::*;
use crate::broken;
use crate::rng::Rng;
use crate::{Job, Turn, each};
use std::hint::black_box;

unsafe extern "C" {
    fn probe_check(block: *const u8, len: usize) -> u32;
}

/// A refused block may take so many times what a valid one takes.
const LIMIT: f64 = 3.0;

pub fn jobs() -> Vec<Job> {
    let fresh = post_boot();
    let mut frozen = post_boot();
    (frozen[MASK], frozen[FROZEN_PRESENT]) = (1, 1);
    let mut rng = Rng::new(20261116, "check");
    frozen[FROZEN].fill_with(|| rng.byte());
    let store = STORE.end - 1;
    let [first, middle, last] = [0, SCREEN_LEN / 2, SCREEN_LEN - 1].map(|n| FROZEN.start + n);
    vec![
        job("check, V1, the mask mode", &fresh, (MASK, 4)),
        job("check, V2, byte 15", &fresh, (SPARE.end - 1, 1)),
        job("check, V3, the store's last byte", &fresh, (store, 1)),
        job("check, V4, the kind", &fresh, (KIND, 5)),
        job("check, V6, the capture's first byte", &fresh, (first, 1)),
        job("check, V6, its middle", &fresh, (middle, 1)),
        job("check, V6, its last byte", &fresh, (last, 1)),
        job("check, frozen, V1, the mask mode", &frozen, (MASK, 4)),
        job("check, frozen, V3, the store's end", &frozen, (store, 1)),
        job("check, frozen, V4, the kind", &frozen, (KIND, 5)),
    ]
}

fn job(name: &'static str, valid: &[u8], (at, byte): (usize, u8)) -> Job {
    let mut refused = valid.to_vec();
    refused[at] = byte;
    assert_eq!(check(valid), 0);
    assert_eq!(check(&refused), broken::refusal(&refused));
    assert_ne!(check(&refused), 0);
    Job {
        name,
        limit: LIMIT,
        port: turn(refused),
        other: turn(valid.to_vec()),
    }
}

fn turn(block: Vec<u8>) -> Turn {
    Box::new(move || each(4000, |_| check(black_box(&block))))
}

fn check(block: &[u8]) -> u32 {
    unsafe { probe_check(block.as_ptr(), block.len()) }
}
