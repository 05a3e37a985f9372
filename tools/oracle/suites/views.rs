//! The calls that only look at a block: answers against the Rust on random valid blocks; and every refusal with every
//! combination of causes, where the first of them wins and no lent byte changes.

use crate::block::LEN;
use crate::broken;
use crate::counts::{self, count};
use crate::ctx::Ctx;
use crate::generate;
use crate::oracle::Oracle;
use crate::port;
use crate::rng::Rng;
use crate::shrink::Block;

unsafe extern "C" {
    // a slice is a pointer and a length
    fn probe_view_refusal(block: *const u8, len: usize) -> u32;
    fn probe_view_mask_mode(block: *const u8, len: usize) -> u64;
    fn probe_view_backdrop(block: *const u8, len: usize) -> u64;
    fn probe_view_color_at(block: *const u8, len: usize, x: usize, y: usize, shade: u8) -> u64;
    fn probe_view_map_entry(block: *const u8, len: usize, column: usize, row: usize) -> u64;
    fn probe_view_border_color_at(block: *const u8, len: usize, x: usize, y: usize) -> u64;
    fn probe_view_row(block: *const u8, len: usize, y: usize, out: *mut u16, out_len: usize) -> u64;
    fn probe_view_picture(block: *const u8, len: usize, out: *mut u16, out_len: usize) -> u64;
}

/// How an answer is told as a number; any other number is the value.
const REFUSED: u64 = port::REFUSED as u64;
const TRANSPARENT: u64 = 0x4000_0000;
/// What an output holds before a call; what the call doesn't answer must still hold it.
pub const UNTOUCHED: u16 = 0xA5C3;
const ROW: usize = 256;
const PICTURE: usize = 57_344;

/// The refusal that a block by itself calls for, or 0.
pub fn refusal(b: &[u8]) -> u32 {
    unsafe { probe_view_refusal(b.as_ptr(), b.len()) }
}

/// One call with all that is asked of it.
#[derive(Clone, Copy, Debug)]
pub enum Call {
    MaskMode,
    Backdrop,
    ColorAt(usize, usize, u8),
    MapEntry(usize, usize),
    BorderColorAt(usize, usize),
    /// the row, and the words lent
    Row(usize, usize),
    /// the words lent
    Picture(usize),
}

/// What a call answers, and what it leaves in the output that was lent.
pub type Outcome = (u64, Vec<u16>);

impl Call {
    fn lent(self) -> Vec<u16> {
        let words = match self {
            Call::Row(_, n) | Call::Picture(n) => n,
            _ => 0,
        };
        vec![UNTOUCHED; words]
    }

    /// The port. The block is lent to be read alone: that it stays as it was is a case of its own.
    pub fn port(self, b: &[u8]) -> Outcome {
        let (block, len) = (b.as_ptr(), b.len());
        let mut out = self.lent();
        let answer = unsafe {
            match self {
                Call::MaskMode => probe_view_mask_mode(block, len),
                Call::Backdrop => probe_view_backdrop(block, len),
                Call::ColorAt(x, y, shade) => probe_view_color_at(block, len, x, y, shade),
                Call::MapEntry(column, row) => probe_view_map_entry(block, len, column, row),
                Call::BorderColorAt(x, y) => probe_view_border_color_at(block, len, x, y),
                Call::Row(y, _) => probe_view_row(block, len, y, out.as_mut_ptr(), out.len()),
                Call::Picture(_) => probe_view_picture(block, len, out.as_mut_ptr(), out.len()),
            }
        };
        (answer, out)
    }

    /// The refusal of RULES 2.4 to 2.6, from the block, the place and the room alone.
    fn refusal(self, b: &[u8]) -> Option<u64> {
        let (outside, short) = match self {
            Call::MaskMode | Call::Backdrop => (false, false),
            Call::ColorAt(x, y, shade) => (x >= 160 || y >= 144 || shade > 3, false),
            Call::MapEntry(column, row) => (column >= 32 || row >= 28, false),
            Call::BorderColorAt(x, y) => (x >= 256 || y >= 224, false),
            Call::Row(y, n) => (y >= 224, n < ROW),
            Call::Picture(n) => (false, n < PICTURE),
        };
        match broken::refusal(b) {
            0 if outside => Some(4),
            0 if short => Some(6),
            0 => None,
            no => Some(no.into()),
        }
    }

    /// What the Rust answers of a valid block.
    fn rust(self, unit: &Oracle) -> Outcome {
        let mut out = self.lent();
        let answer = match self {
            Call::MaskMode => u64::from(unit.mask_mode()),
            Call::Backdrop => u64::from(unit.backdrop()),
            Call::ColorAt(x, y, shade) => u64::from(unit.color_at(x, y, shade)),
            Call::MapEntry(column, row) => u64::from(unit.map_entry(column, row)),
            Call::BorderColorAt(x, y) => unit.border_color_at(x, y).map_or(TRANSPARENT, u64::from),
            Call::Row(y, _) => {
                out[..ROW].copy_from_slice(&unit.row(y));
                ROW as u64
            }
            Call::Picture(_) => {
                out[..PICTURE].copy_from_slice(&unit.picture());
                PICTURE as u64
            }
        };
        (answer, out)
    }

    fn same(self, b: &[u8], expected: Outcome) -> Result<(), String> {
        let before = b.to_vec();
        let (answer, out) = self.port(b);
        if answer != expected.0 {
            return Err(format!("{self:?}: {answer:X}, not {:X}", expected.0));
        }
        if let Some(k) = (0..out.len()).find(|&k| out[k] != expected.1[k]) {
            return Err(format!("{self:?}: word {k} is {:04X}, not {:04X}", out[k], expected.1[k]));
        }
        match b == before {
            true => Ok(()),
            false => Err(format!("{self:?} changed the block")),
        }
    }

    /// Refused as RULES 2 says, with every word as it was; or answered as the Rust does.
    pub fn right(self, b: &[u8]) -> Result<(), String> {
        match self.refusal(b) {
            Some(no) => self.same(b, (REFUSED | no, self.lent())),
            None => {
                self.same(b, self.rust(&Oracle::load(b)))?;
                count(|c| match self {
                    Call::Row(..) => c.rows += 1,
                    Call::Picture(_) => c.pictures += 1,
                    _ => {}
                });
                Ok(())
            }
        }
    }
}

pub fn run(ctx: &mut Ctx) {
    answers(ctx);
    refusals(ctx);
    damaged(ctx);
}

/// A place inside, at the edge inside, at the edge outside, or far out.
fn place(rng: &mut Rng, size: usize) -> usize {
    match rng.below(8) {
        0 => size - 1,
        1 => 0,
        2 => size,
        3 => rng.pick(&[size + 1, usize::MAX, 1 << 32, size + 256]),
        _ => rng.below(size),
    }
}

/// Any call, and for most of them one that a valid block answers.
fn any_call(rng: &mut Rng) -> Call {
    match rng.below(12) {
        0 => Call::MaskMode,
        1 => Call::Backdrop,
        2..5 => {
            let shade = place(rng, 4).min(255) as u8;
            Call::ColorAt(place(rng, 160), place(rng, 144), shade)
        }
        5..7 => Call::MapEntry(place(rng, 32), place(rng, 28)),
        7..10 => Call::BorderColorAt(place(rng, 256), place(rng, 224)),
        10 => {
            let words = rng.pick(&[0, ROW - 1, ROW, ROW, ROW + 1, 2 * ROW]);
            Call::Row(place(rng, 224), words)
        }
        _ => Call::Picture(rng.pick(&[0, ROW, PICTURE - 1, PICTURE, PICTURE + 9])),
    }
}

/// Random calls on random valid blocks.
fn answers(ctx: &mut Ctx) {
    for _ in ctx.rounds(400) {
        let b = generate::block(&mut ctx.rng);
        let calls: Vec<Call> = (0..40).map(|_| any_call(&mut ctx.rng)).collect();
        ctx.try_on(Block(b), |Block(b)| calls.iter().try_for_each(|call| call.right(b)));
    }
}

/// Every combination of causes: the block's length, its validity, the place, the room.
fn refusals(ctx: &mut Ctx) {
    for _ in ctx.rounds(6) {
        let sound = generate::block(&mut ctx.rng);
        let unsound = unsound(&mut ctx.rng);
        for len in [0, 1, LEN - 1, LEN, LEN + 1] {
            for valid in [true, false] {
                let mut b = if valid { sound.clone() } else { unsound.clone() };
                b.resize(len, 0);
                for call in asked() {
                    let outcome = call.right(&b);
                    ctx.check(outcome.is_ok(), || {
                        format!("{len} bytes, {valid}: {}", outcome.unwrap_err())
                    });
                }
            }
        }
    }
}

/// A block of 30,020 bytes that is not valid.
fn unsound(rng: &mut Rng) -> Vec<u8> {
    loop {
        let b = generate::nearly_valid(rng);
        if broken::broken(&b).is_some() {
            return b;
        }
    }
}

/// Each call inside and outside of each bound, with room and without.
pub fn asked() -> Vec<Call> {
    let mut calls = vec![Call::MaskMode, Call::Backdrop];
    for x in [159, 160] {
        for y in [143, 144] {
            calls.extend([3, 4, 255].map(|shade| Call::ColorAt(x, y, shade)));
        }
    }
    for (x, y) in [(31, 27), (31, 28), (32, 27), (32, 28)] {
        calls.push(Call::MapEntry(x, y));
    }
    for (x, y) in [(255, 223), (255, 224), (256, 223), (256, 224)] {
        calls.push(Call::BorderColorAt(x, y));
    }
    for y in [223, 224, usize::MAX] {
        calls.extend([0, ROW - 1, ROW, ROW + 1].map(|words| Call::Row(y, words)));
    }
    calls.extend([0, PICTURE - 1, PICTURE, PICTURE + 1].map(Call::Picture));
    calls
}

/// The refusal of a block by itself, on blocks that are valid or just not.
fn damaged(ctx: &mut Ctx) {
    for _ in ctx.rounds(2000) {
        let b = generate::nearly_valid(&mut ctx.rng);
        counts::damaged(broken::broken(&b));
        let (told, due) = (refusal(&b), broken::refusal(&b));
        ctx.check(told == due, || format!("refusal {told:X}, not {due:X}: {:02X?}", &b[..32]));
    }
}
