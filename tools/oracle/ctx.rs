//! What a suite is given: its source of chance, its count of cases, and the ways to try one. A case that fails, or in
//! which the Rust, the port or the suite panics, is made small and reported; the suite goes on.

use crate::counts::{self, Counts};
use crate::rng::Rng;
use crate::shrink::Shrink;
use std::cell::RefCell;
use std::fmt::Debug;
use std::panic::{AssertUnwindSafe, catch_unwind};
use std::time::{Duration, Instant};

/// Failures that are reported in full; the others of a suite are only counted.
const SHOWN: usize = 3;
/// How long one failing case may be shrunk.
const PATIENCE: Duration = Duration::from_secs(10);

pub struct Ctx {
    pub rng: Rng,
    /// 1 in the gate; a long run multiplies its rounds by it.
    pub scale: usize,
    pub cases: u64,
    pub failed: u64,
    /// What is printed below the suite's line.
    pub report: Vec<String>,
    /// What was compared, once the suite is done.
    pub counts: Counts,
    name: &'static str,
    /// Whether the first failure ends the whole run.
    first: bool,
}

impl Ctx {
    pub fn new(name: &'static str, seed: u64, scale: usize, first: bool) -> Self {
        Ctx {
            rng: Rng::new(seed, name),
            scale,
            cases: 0,
            failed: 0,
            report: Vec::new(),
            counts: Counts::default(),
            name,
            first,
        }
    }

    /// The rounds of a loop that takes `n` in the gate.
    pub fn rounds(&self, n: usize) -> std::ops::Range<usize> {
        0..n * self.scale
    }

    /// A line that the run prints below the suite's own.
    pub fn note(&mut self, text: String) {
        self.report.push(text);
    }

    /// One case that is small as it is. `say` tells what was given and what came.
    pub fn check(&mut self, holds: bool, say: impl FnOnce() -> String) {
        self.cases += 1;
        if !holds {
            self.fail(say);
        }
    }

    /// One case: the port's answer and the Rust's to `what`.
    pub fn same<T: PartialEq + Debug>(&mut self, what: impl FnOnce() -> String, port: T, rust: T) {
        self.check(port == rust, || {
            format!("{}: {port:X?}, the Rust {rust:X?}", what())
        });
    }

    /// One case that is shrunk if `test` fails on it. `test` must depend on nothing but its input.
    pub fn try_on<I: Shrink>(&mut self, mut input: I, test: impl Fn(&I) -> Result<(), String>) {
        self.cases += 1;
        let Err(first) = run(&test, &input) else {
            return;
        };
        if self.failed < SHOWN as u64 && !self.first {
            let started = Instant::now();
            input.shrink(&mut |i| started.elapsed() < PATIENCE && run(&test, i).is_err());
        }
        self.fail(|| {
            let why = run(&test, &input).err().unwrap_or(first);
            format!("{why}\n    {}", input.show())
        });
    }

    fn fail(&mut self, say: impl FnOnce() -> String) {
        self.failed += 1;
        if self.first {
            println!("noticed by {} in case {}: {}", self.name, self.cases, say());
            std::process::exit(1);
        }
        if self.failed <= SHOWN as u64 {
            let text = format!("FAILED in case {}: {}", self.cases, say());
            self.report.push(text);
        }
    }

    /// Runs a whole suite; a panic outside of its cases is one failure more.
    pub fn run(&mut self, suite: fn(&mut Ctx)) {
        let ended = caught(|| suite(self));
        if let Err(why) = ended {
            self.cases += 1;
            self.fail(|| why);
        }
        self.counts = counts::take();
    }
}

fn run<I>(test: impl Fn(&I) -> Result<(), String>, input: &I) -> Result<(), String> {
    caught(|| test(input)).and_then(|result| result)
}

thread_local! { static SAID: RefCell<String> = const { RefCell::new(String::new()) }; }

/// Keeps what a panic says for its report, in place of the terminal.
pub fn hush_panics() {
    std::panic::set_hook(Box::new(|info| SAID.set(info.to_string())));
}

fn caught<T>(f: impl FnOnce() -> T) -> Result<T, String> {
    catch_unwind(AssertUnwindSafe(f)).map_err(|_| SAID.take())
}
