//! Writes in a row by the public call, as a log plays its lines too, with screens between, against the Rust write by write: where each
//! command completes, the command, and every byte of the block there and at each screen. A long run is mostly this.

use super::unit::streams;
use crate::block::LEN;
use crate::both::{By, marked};
use crate::broken;
use crate::ctx::Ctx;
use crate::generate;
use crate::port::{COMMAND_LEN, REFUSED, play};

pub fn run(ctx: &mut Ctx) {
    streams(ctx, 80, generate::transfers, By::Play);
    refusals(ctx);
    most(ctx);
}

/// A call takes at most 1,048,576 writes: one fewer, just as many, and more.
fn most(ctx: &mut Ctx) {
    const MOST: usize = 1_048_576;
    for n in [MOST - 1, MOST, MOST + 1, 2 * MOST] {
        let (mut b, mut out) = (crate::block::post_boot(), marked(COMMAND_LEN));
        let told = play(&mut b, &vec![0x30; n], &mut out);
        let due = n.min(MOST) << 8;
        ctx.check(told == due && b == crate::block::post_boot(), || {
            format!("play of {n} writes: {told:X}, due {due:X}")
        });
    }
}

/// The call's refusals, and no write at all: no lent byte changes.
fn refusals(ctx: &mut Ctx) {
    for _ in ctx.rounds(40) {
        for room in [0, COMMAND_LEN - 1, COMMAND_LEN] {
            for len in [LEN - 1, LEN, LEN + 1] {
                let mut b = generate::nearly_valid(&mut ctx.rng);
                b.resize(len, 0);
                let due = match (broken::refusal(&b), room < COMMAND_LEN) {
                    (0, false) => 0,
                    (0, true) => REFUSED | 6,
                    (no, _) => REFUSED | no,
                } as usize;
                let writes: &[u8] = if due == 0 { &[] } else { &[0, 0x30, 0x20] };
                let (mut after, mut out) = (b.clone(), marked(room));
                let told = play(&mut after, writes, &mut out);
                let kept = after == b && out == marked(room);
                ctx.check(told == due && kept, || {
                    format!("play, {len} bytes, room {room}: {told:X}, due {due:X}, kept: {kept}")
                });
            }
        }
    }
}
