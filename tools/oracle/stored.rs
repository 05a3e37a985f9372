//! The stored list, `crates/test_stored/stdout`: 608 rounds of writes, screens and looks, made from seeds, with a digest of each kind
//! of answer and of the block. The program `test_stored` runs the same rounds over the port, so `rt ci` holds it to these lines
//! with no Rust at hand; the suite `stored` holds the lines to the Rust. What is sent and shown comes from `crates/test_seeds` on both
//! sides, and nothing of the harness's own chance comes in. What is answered is here the Rust's alone.

use crate::block::SCREEN_LEN;
use crate::oracle::Oracle;
use std::fmt::Write;

unsafe extern "C" {
    // a slice is a pointer and a length
    safe fn probe_round_first(round: usize) -> u8;
    fn probe_round_writes(
        round: usize,
        first: u8,
        sent: *mut u8,
        sent_len: usize,
        writes: *mut u8,
        writes_len: usize,
    ) -> usize;
    fn probe_round_screen(screen: *mut u8, len: usize, from: u64);
    safe fn probe_stream(round: usize, purpose: u64) -> u64;
    safe fn probe_step(x: u64) -> u64;
    safe fn probe_byte(x: u64) -> u8;
    fn probe_below(x: u64, n: usize) -> usize;
}

/// What every digest starts from.
const SEED: u64 = 0x53_706F_7265;

/// What the rounds came to, so that the suite can see that none of it is missing.
#[derive(Default)]
pub struct Tally {
    pub writes: usize,
    /// Those carried out, by code.
    pub commands: [usize; 32],
    pub screens: usize,
    /// By kind.
    pub landings: [usize; 5],
    pub looks: usize,
}

/// The list, with its heading.
pub fn list() -> (String, Tally) {
    let mut text = String::from("round first writes screens looks block\n");
    let mut run = Run {
        unit: Oracle::new(),
        tally: Tally::default(),
    };
    for round in 0..608 {
        if round % 152 == 0 {
            run.unit = match round % 304 {
                0 => Oracle::post_boot(),
                _ => Oracle::new(),
            };
        }
        let first = probe_round_first(round);
        let writes = run.write(round, first, SEED);
        let screens = run.show(round, SEED);
        let looks = run.look(round, SEED);
        let block = bytes(SEED, &run.unit.save());
        let digests = format!("{writes:016x} {screens:016x} {looks:016x} {block:016x}");
        writeln!(text, "{round:03x} {first:02x} {digests}").unwrap();
    }
    (text, run.tally)
}

// Chance and digests

/// `n` is never 0.
fn below(x: u64, n: usize) -> usize {
    unsafe { probe_below(x, n) }
}

fn number(h: u64, v: impl Into<u64>) -> u64 {
    probe_step(h ^ v.into())
}

fn bytes(h: u64, s: &[u8]) -> u64 {
    s.iter().fold(h, |h, b| number(h, *b))
}

fn words(h: u64, s: &[u16]) -> u64 {
    s.iter().fold(h, |h, w| number(h, *w))
}

// A round over the Rust

struct Run {
    unit: Oracle,
    tally: Tally,
}

impl Run {
    fn write(&mut self, round: usize, first: u8, h: u64) -> u64 {
        let (mut sent, mut writes) = ([0; 112], [0; 1916]);
        let (d, w) = (sent.as_mut_ptr(), writes.as_mut_ptr());
        let n = unsafe { probe_round_writes(round, first, d, sent.len(), w, writes.len()) };
        self.send(&writes[..n], h)
    }

    fn send(&mut self, writes: &[u8], h: u64) -> u64 {
        self.tally.writes += writes.len();
        let mut buffer = [0; 112];
        writes.iter().fold(h, |h, w| {
            let Some(command) = self.unit.write(*w) else {
                return number(h, 0u8);
            };
            self.tally.commands[usize::from(command[0] >> 3)] += 1;
            buffer[..command.len()].copy_from_slice(&command);
            bytes(number(h, command.len() as u64 / 16), &buffer)
        })
    }

    fn show(&mut self, round: usize, mut h: u64) -> u64 {
        let mut x = probe_stream(round, 4);
        let mut screen = [0; SCREEN_LEN];
        let count = below(x, 4);
        self.tally.screens += count;
        for _ in 0..count {
            x = probe_step(x);
            unsafe { probe_round_screen(screen.as_mut_ptr(), screen.len(), x) };
            let landed = self.unit.screen(&screen);
            if let Some(kind) = landed {
                self.tally.landings[usize::from(kind)] += 1;
            }
            h = number(h, landed.unwrap_or(255));
        }
        h
    }

    fn look(&mut self, round: usize, h: u64) -> u64 {
        let from = probe_stream(round, 5);
        let unit = &self.unit;
        let mut h = number(number(h, unit.mask_mode()), unit.backdrop());
        let mut x = from;
        for _ in 0..8 {
            x = probe_step(x);
            let y = probe_step(x);
            let z = probe_step(y);
            let shade = probe_byte(z) & 3;
            h = number(h, unit.color_at(below(x, 160), below(y, 144), shade));
            h = number(h, unit.map_entry(below(x, 32), below(y, 28)));
            let border = unit.border_color_at(below(y, 256), below(z, 224));
            h = number(h, border.map_or(0x4000_0000, u64::from));
        }
        h = words(number(h, 256u16), &unit.row(below(from, 224)));
        self.tally.looks += 27;
        if round % 4 == 3 {
            h = words(number(h, 57_344u16), &unit.picture());
            self.tally.looks += 1;
        }
        h
    }
}
