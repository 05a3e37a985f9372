//! What a run compared, in figures. They are counted where the comparison is made, whichever suite asks for it, and printed at the
//! run's end; a long run fails if one stays below its floor.

use crate::block;
use crate::generate::Class;
use std::cell::RefCell;
use std::collections::BTreeMap;

/// The kinds of landings by number, and of fixed writes (RULES 4.12 and 9.3; README.md, "The merged logs").
const LANDINGS: [&str; 5] = [
    "PAL_TRN",
    "ATTR_TRN",
    "CHR_TRN low",
    "CHR_TRN high",
    "PCT_TRN",
];
pub const FIXED: [&str; 7] = [
    "PAL_TRN",
    "ATTR_TRN",
    "CHR_TRN",
    "PCT_TRN",
    "PAL_SET",
    "ATTR_SET",
    "MASK_EN 1",
];
/// Codes 00 to 1D with 1 to 7 packets; 1E and 1F are of one packet.
const PAIRS: u64 = 212;
/// The combinations that V1 to V6 allow; the suite `oracle` counts them anew.
const CLASSES: u64 = 640;
/// What a refused block may be told by: 3 bytes of V1, 7 of V2, 4 and the two packet parts' 128 of V3, 2 of V4, 8 of V5, and of V6 byte 0 and
/// the capture's 5,760.
pub const OFFSETS: u64 = 5913;
/// The kinds of states that the Rust takes and we refuse (`suites/states/listed.rs`).
pub const LISTED: u64 = 24;
/// What a state that comes in can be answered, by the number alone.
pub const TOLD: [u8; 9] = [0, 1, 8, 9, 21, 22, 23, 24, 26];

#[derive(Default)]
pub struct Counts {
    /// Writes whose answer was compared: by `write_joypad`, by `play`, by the receiver alone.
    pub writes: u64,
    pub played: u64,
    pub received: u64,
    /// Completed commands by code and packets.
    pub commands: BTreeMap<(u8, usize), u64>,
    pub screens: u64,
    pub landings: [u64; 5],
    pub pictures: u64,
    pub rows: u64,
    /// Whole blocks compared, byte by byte.
    pub compared: u64,
    /// Blocks from which runs of writes and screens set out.
    pub new: u64,
    pub post_boot: u64,
    pub random: BTreeMap<Class, u64>,
    /// Damaged blocks: invalid, by the refusal's number and offset, and still valid.
    pub refused: BTreeMap<(u8, usize), u64>,
    pub unhurt: u64,
    /// States of the emulator: the Rust's that came in, ours that went out and were read by the Rust, those that came back; all that came in
    /// by the number that was answered; those that the Rust takes and we refuse, by the kind on the list of differences.
    pub states_in: u64,
    pub states_out: u64,
    pub states_back: u64,
    pub states: BTreeMap<u8, u64>,
    pub listed: BTreeMap<&'static str, u64>,
    /// Screens of pages: those compared pixel by pixel, and those that landed, by kind.
    pub carried: u64,
    pub landed: [u64; 5],
    /// Pairs of merged logs, and screens moved over a fixed write, by its kind, after which the outcome was another.
    pub merged: u64,
    pub moved: [u64; 7],
}

thread_local! { static COUNTS: RefCell<Counts> = RefCell::default(); }

/// A suite runs on one thread, and counts there.
pub fn count(f: impl FnOnce(&mut Counts)) {
    COUNTS.with_borrow_mut(f);
}

pub fn take() -> Counts {
    COUNTS.take()
}

/// The landings so far, by kind.
pub fn landings() -> [u64; 5] {
    COUNTS.with_borrow(|c| c.landings)
}

/// The landings so far of pages from our own screens, by kind.
pub fn landed() -> [u64; 5] {
    COUNTS.with_borrow(|c| c.landed)
}

/// The outcomes so far that a moved screen changed, by the kind of fixed write.
pub fn moved() -> [u64; 7] {
    COUNTS.with_borrow(|c| c.moved)
}

pub fn command(command: &[u8]) {
    let pair = (command[0] >> 3, command.len() / 16);
    count(|c| *c.commands.entry(pair).or_default() += 1);
}

/// A damaged block, by what `broken` says of it.
pub fn damaged(told: Option<(u8, usize)>) {
    count(|c| match told {
        Some(pair) => *c.refused.entry(pair).or_default() += 1,
        None => c.unhurt += 1,
    });
}

/// The numbers and offsets by which blocks were refused so far.
pub fn offsets() -> u64 {
    COUNTS.with_borrow(|c| c.refused.len() as u64)
}

/// A state that came in, by what was answered.
pub fn state(told: u32) {
    count(|c| *c.states.entry(told as u8).or_default() += 1);
}

/// How often a refusal was the answer to a state, 0 for none.
pub fn states(number: u8) -> u64 {
    COUNTS.with_borrow(|c| c.states.get(&number).copied().unwrap_or(0))
}

/// The listed kinds of states that were met so far.
pub fn listed() -> Vec<&'static str> {
    COUNTS.with_borrow(|c| c.listed.keys().copied().collect())
}

pub fn start(b: &[u8]) {
    count(|c| {
        if b == block::new() {
            c.new += 1;
        } else if b == block::post_boot() {
            c.post_boot += 1;
        } else {
            *c.random.entry(Class::of(b)).or_default() += 1;
        }
    });
}

impl Counts {
    pub fn add(&mut self, other: &Counts) {
        self.writes += other.writes;
        self.played += other.played;
        self.received += other.received;
        for (pair, n) in &other.commands {
            *self.commands.entry(*pair).or_default() += n;
        }
        self.screens += other.screens;
        sum(&mut self.landings, &other.landings);
        self.pictures += other.pictures;
        self.rows += other.rows;
        self.compared += other.compared;
        self.new += other.new;
        self.post_boot += other.post_boot;
        for (class, n) in &other.random {
            *self.random.entry(*class).or_default() += n;
        }
        for (pair, n) in &other.refused {
            *self.refused.entry(*pair).or_default() += n;
        }
        self.unhurt += other.unhurt;
        self.states_in += other.states_in;
        self.states_out += other.states_out;
        self.states_back += other.states_back;
        for (number, n) in &other.states {
            *self.states.entry(*number).or_default() += n;
        }
        for (kind, n) in &other.listed {
            *self.listed.entry(kind).or_default() += n;
        }
        self.carried += other.carried;
        sum(&mut self.landed, &other.landed);
        self.merged += other.merged;
        sum(&mut self.moved, &other.moved);
    }

    /// All figures, as they are printed.
    pub fn figures(&self) -> Vec<Figure> {
        let mut all = self.written();
        all.extend(self.shown());
        all.extend(self.blocks());
        all.extend(self.exchanged());
        all
    }

    fn written(&self) -> Vec<Figure> {
        let pairs = self.commands.len() as u64;
        let fewest = match pairs {
            PAIRS => self.commands.values().min().copied().unwrap_or(0),
            _ => 0,
        };
        vec![
            figure("writes by write_joypad", self.writes, 10_000_000),
            figure("writes by play", self.played, 0),
            figure("writes by either", self.writes + self.played, 100_000_000),
            figure("writes by the receiver alone", self.received, 0),
            figure("commands", self.commands.values().sum(), 100_000),
            figure("(code, packets) pairs of commands", pairs, PAIRS),
            figure("commands of the rarest pair", fewest, 100),
        ]
    }

    fn shown(&self) -> Vec<Figure> {
        let mut all = vec![figure("screens", self.screens, 300_000)];
        for (kind, n) in LANDINGS.iter().zip(self.landings) {
            all.push(figure(format!("landings of {kind}"), n, 20_000));
        }
        all.push(figure("screens of pages", self.carried, 10_000));
        for (kind, n) in LANDINGS.iter().zip(self.landed) {
            let name = format!("landings of {kind} by the screen of a page");
            all.push(figure(name, n, 10_000));
        }
        all.push(figure("pictures", self.pictures, 10_000));
        all.push(figure("rows asked for alone", self.rows, 100_000));
        all
    }

    fn blocks(&self) -> Vec<Figure> {
        let random = self.random.values().sum();
        let mut all = vec![
            figure("whole blocks compared", self.compared, 400_000),
            figure("runs from new", self.new, 1000),
            figure("runs from post_boot", self.post_boot, 1000),
            figure("runs from random valid blocks", random, 10_000),
            figure("classes of these", self.random.len() as u64, CLASSES),
            figure("damaged blocks, still valid", self.unhurt, 10_000),
        ];
        for number in 21..=26 {
            let pairs = self.refused.iter().filter(|(pair, _)| pair.0 == number);
            let name = format!("damaged blocks, refused with {number}");
            all.push(figure(name, pairs.map(|(_, n)| n).sum(), 10_000));
        }
        let offsets = self.refused.len() as u64;
        all.push(figure("numbers with their offsets", offsets, OFFSETS));
        all.push(figure("pairs of merged logs", self.merged, 1000));
        for (kind, n) in FIXED.iter().zip(self.moved) {
            let name = format!("other outcomes by a screen moved over {kind}");
            all.push(figure(name, n, 10));
        }
        all
    }

    fn exchanged(&self) -> Vec<Figure> {
        let mut all = vec![
            figure("states of the Rust's that came in", self.states_in, 10_000),
            figure(
                "states that went out to the Rust, with a run",
                self.states_out,
                10_000,
            ),
            figure("states that came back", self.states_back, 10_000),
        ];
        for number in TOLD {
            let name = match number {
                0 => "states taken".to_string(),
                _ => format!("states refused with {number}"),
            };
            let n = self.states.get(&number).copied().unwrap_or(0);
            all.push(figure(name, n, 1000));
        }
        let kinds = self.listed.len() as u64;
        let fewest = match kinds {
            LISTED => self.listed.values().min().copied().unwrap_or(0),
            _ => 0,
        };
        let listed = self.listed.values().sum();
        all.push(figure(
            "states that the Rust takes and we refuse",
            listed,
            10_000,
        ));
        all.push(figure("listed kinds of these", kinds, LISTED));
        all.push(figure("states of the rarest kind", fewest, 100));
        all
    }
}

/// What is printed of a number, and what a long run owes of it.
pub struct Figure {
    pub name: String,
    pub n: u64,
    pub floor: u64,
}

fn figure(name: impl Into<String>, n: u64, floor: u64) -> Figure {
    Figure {
        name: name.into(),
        n,
        floor,
    }
}

fn sum(into: &mut [u64], from: &[u64]) {
    into.iter_mut().zip(from).for_each(|(a, b)| *a += b);
}

/// A number with its thousands apart.
pub fn spelled(n: u64) -> String {
    let digits = n.to_string();
    let mut text = String::new();
    for (i, digit) in digits.chars().enumerate() {
        if i > 0 && (digits.len() - i) % 3 == 0 {
            text.push(',');
        }
        text.push(digit);
    }
    text
}
