//! Random valid blocks of every class, screens, commands and writes. Contents are random, extreme or shaped like what a
//! game sends: uniform noise alone would hardly ever draw a border or complete a command.

mod blocks;
mod pulses;
mod screens;

use crate::rng::Rng;
pub use blocks::*;
pub use pulses::*;
pub use screens::*;

/// Fills bytes in one of five manners.
pub fn fill(rng: &mut Rng, out: &mut [u8]) {
    let (one, two) = (rng.byte(), rng.byte());
    match rng.below(8) {
        0 => out.fill(0),
        1 => out.fill(0xFF),
        2 => out.fill(one),
        3 => {
            let step = rng.within(1, 40);
            out.iter_mut().step_by(step).for_each(|b| *b = two);
        }
        _ => out.iter_mut().for_each(|b| *b = rng.byte()),
    }
}
