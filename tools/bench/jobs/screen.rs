//! A page; a page as a screen; a screen that lands, of each kind; and a screen with no landing. The Rust's screen comes unpacked, a byte a
//! pixel, as its own ppu has it; ours is the packed one that a caller lends.

use crate::block::*;
use crate::oracle::{self, Oracle};
use crate::rng::Rng;
use crate::{Job, Turn, each};
use gb::ppu::screen::Screen;
use gb::sgb::post_boot as door;
use std::hint::black_box;

unsafe extern "C" {
    fn jobs_show(block: *mut u8, len: usize, screen: *const u8, screen_len: usize);
    fn probe_page(out: *mut u8, out_len: usize, screen: *const u8, len: usize);
    fn probe_page_screen(page: *const u8, len: usize, out: *mut u8, out_len: usize) -> u32;
    fn probe_update_screen(block: *mut u8, len: usize, screen: *const u8, screen_len: usize)
    -> u32;
}

/// A screen on a block that is known to be valid, as in a log, or by the public call, which checks the block first.
#[derive(Clone, Copy)]
enum By {
    Log,
    Call,
}

/// What is pending when the screen comes, and whether the picture is frozen.
#[derive(Clone, Copy)]
struct Due {
    countdown: u8,
    kind: u8,
    frozen: bool,
}

pub fn jobs() -> Vec<Job> {
    let due = |countdown, kind| Due {
        countdown,
        kind,
        frozen: false,
    };
    let frozen = Due {
        frozen: true,
        ..due(0, 0)
    };
    use By::{Call, Log};
    vec![
        page(),
        page_screen(),
        job("screen, PAL_TRN lands", Log, due(1, 0)),
        job("screen, ATTR_TRN lands", Log, due(1, 1)),
        job("screen, CHR_TRN lands, lower", Log, due(1, 2)),
        job("screen, CHR_TRN lands, upper", Log, due(1, 3)),
        job("screen, PCT_TRN lands", Log, due(1, 4)),
        job("screen, PCT_TRN lands, public call", Call, due(1, 4)),
        job("screen, none pending", Log, due(0, 0)),
        job("screen, countdown 3 to 2", Log, due(3, 0)),
        job("screen, none pending, public call", Call, due(0, 0)),
        job("screen, none pending, frozen, public call", Call, frozen),
        job("screen, countdown 3 to 2, public call", Call, due(3, 0)),
    ]
}

/// Noise, so that no branch can be guessed.
fn noise() -> Vec<u8> {
    let mut rng = Rng::new(20261101, "bench");
    (0..SCREEN_LEN).map(|_| rng.byte()).collect()
}

fn unpacked(packed: &[u8]) -> Screen {
    let mut screen = Screen::default();
    oracle::draw(&mut screen, packed);
    screen
}

fn page() -> Job {
    let packed = noise();
    let screen = unpacked(&packed);
    let mut out = vec![0; 4096];
    let make = |packed: &[u8], out: &mut [u8]| unsafe {
        probe_page(out.as_mut_ptr(), out.len(), packed.as_ptr(), packed.len());
    };
    make(&packed, &mut out);
    assert!(out == door::screen_to_transfer_data(&screen));
    Job {
        name: "page",
        limit: 0.3,
        port: Box::new(move || each(400, |_| make(black_box(&packed), &mut out))),
        other: Box::new(move || each(100, |_| door::screen_to_transfer_data(black_box(&screen)))),
    }
}

/// The Rust has no such call, and goes the other way: from the screen that ours has made to the same page.
fn page_screen() -> Job {
    let page = noise()[..4096].to_vec();
    let mut out = vec![0; SCREEN_LEN];
    let make = |page: &[u8], out: &mut [u8]| unsafe {
        probe_page_screen(page.as_ptr(), page.len(), out.as_mut_ptr(), out.len())
    };
    assert!(make(&page, &mut out) == 5760);
    let screen = unpacked(&out);
    assert!(page == door::screen_to_transfer_data(&screen));
    Job {
        name: "page as a screen",
        limit: 0.3,
        port: Box::new(move || each(400, |_| make(black_box(&page), &mut out))),
        other: Box::new(move || each(100, |_| door::screen_to_transfer_data(black_box(&screen)))),
    }
}

/// What the public call answers.
fn show(by: By, block: &mut [u8], packed: &[u8]) -> Option<u32> {
    let (b, s) = (block.as_mut_ptr(), packed.as_ptr());
    unsafe {
        match by {
            By::Log => {
                jobs_show(b, block.len(), s, packed.len());
                None
            }
            By::Call => Some(probe_update_screen(b, block.len(), s, packed.len())),
        }
    }
}

fn unit(due: Due) -> Vec<u8> {
    let mut block = post_boot();
    (block[COUNTDOWN], block[KIND]) = (due.countdown, due.kind);
    if due.frozen {
        (block[MASK], block[FROZEN_PRESENT]) = (1, 1);
        block[FROZEN].copy_from_slice(&noise());
    }
    block
}

fn job(name: &'static str, by: By, due: Due) -> Job {
    let packed = noise();
    let mut block = unit(due);
    let mut rust = Oracle::load(&block);
    let landed = rust.screen(&packed).unwrap_or(255);
    let told = show(by, &mut block, &packed);
    assert!(told.is_none_or(|kind| kind == landed.into()));
    difference(&block, &rust.save()).unwrap();
    Job {
        name,
        // at most what is asked of a landing, or of a screen that only becomes the live one
        limit: if due.countdown == 1 { 0.3 } else { 0.4 },
        port: Box::new(move || {
            each(400, |_| {
                (block[COUNTDOWN], block[KIND]) = (due.countdown, due.kind);
                show(by, &mut block, black_box(&packed))
            })
        }),
        other: rust_turn(due),
    }
}

/// A transfer goes on once, so where one is pending each run has a unit of its own; else one unit takes them all.
fn rust_turn(due: Due) -> Turn {
    let screen = unpacked(&noise());
    let mut one = Oracle::load(&unit(due)).0;
    Box::new(move || {
        if due.countdown == 0 {
            return each(100, |_| one.update_screen(black_box(&screen)));
        }
        let block = unit(due);
        let mut units: Vec<_> = (0..8).map(|_| Oracle::load(&block).0).collect();
        each(units.len(), |i| units[i].update_screen(black_box(&screen)))
    })
}
