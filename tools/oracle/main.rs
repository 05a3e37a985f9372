//! Runs the suites: the port, linked natively, held to the Rust, built unchanged, in one program.
//! `diff [--seed N] [--scale K | --long] [--suite NAME].. [--first] [--list] [--stored]`; README.md says more.

// the parts that only some suites use stand ready for the others
#![allow(dead_code)]

mod block;
mod both;
mod broken;
mod counts;
mod ctx;
mod event;
mod generate;
mod oracle;
mod port;
mod rng;
mod shrink;
mod state;
mod stored;
mod suites;
mod valid;

use counts::{Counts, Figure, spelled};
use ctx::Ctx;
use std::sync::Mutex;
use std::sync::atomic::{AtomicUsize, Ordering};
use std::time::Instant;
use suites::Suite;

struct Options {
    seed: u64,
    scale: usize,
    /// Each suite in shares as long as its line in suites/mod.rs says, and no figure below its floor.
    long: bool,
    /// Ends at the first case that fails, which is not made small.
    first: bool,
    suites: Vec<Suite>,
}

/// A suite with one seed: all of it, or a share of a long run.
struct Job {
    suite: Suite,
    seed: u64,
    scale: usize,
}

fn main() {
    let options = options();
    ctx::hush_panics();
    let results = run_all(&options);
    let mut counts = Counts::default();
    results.iter().for_each(|c| counts.add(&c.counts));
    let cases: u64 = results.iter().map(|c| c.cases).sum();
    let failed: u64 = results.iter().map(|c| c.failed).sum();
    let low = figures(&counts, options.long);
    println!("{} passed, {} failed", cases - failed, failed + low);
    std::process::exit(if failed + low == 0 { 0 } else { 1 });
}

/// Prints what was compared. In a long run a figure below its floor is a failure; how many there are.
fn figures(counts: &Counts, long: bool) -> u64 {
    let mut low = 0;
    for Figure { name, n, floor } in counts.figures() {
        let short = long && n < floor;
        low += u64::from(short);
        if n > 0 || long {
            let owed = if short {
                format!("  FAILED: {} are owed", spelled(floor))
            } else {
                String::new()
            };
            println!("{:>14} {name}{owed}", spelled(n));
        }
    }
    low
}

fn options() -> Options {
    let mut options = Options {
        seed: 1,
        scale: 1,
        long: false,
        first: false,
        suites: Vec::new(),
    };
    let mut words = std::env::args().skip(1);
    while let Some(word) = words.next() {
        let mut value = || words.next().unwrap_or_else(|| usage(&word));
        match word.as_str() {
            "--seed" => options.seed = value().parse().unwrap_or_else(|_| usage(&word)),
            "--scale" => options.scale = value().parse().unwrap_or_else(|_| usage(&word)),
            "--long" => options.long = true,
            "--first" => options.first = true,
            "--suite" => {
                let name = value();
                let suite = suites::ALL.iter().find(|s| s.name == name);
                options.suites.push(*suite.unwrap_or_else(|| usage(&name)));
            }
            "--list" => {
                suites::ALL.iter().for_each(|s| println!("{}", s.name));
                std::process::exit(0);
            }
            "--stored" => {
                print!("{}", stored::list().0);
                std::process::exit(0);
            }
            _ => usage(&word),
        }
    }
    if options.suites.is_empty() {
        options.suites = suites::ALL.to_vec();
    }
    options
}

fn usage(word: &str) -> ! {
    eprintln!("diff: {word}?");
    eprintln!(
        "usage: diff [--seed N] [--scale K | --long] [--suite NAME].. [--first] [--list] [--stored]"
    );
    std::process::exit(2);
}

fn jobs(options: &Options) -> Vec<Job> {
    let mut jobs = Vec::new();
    for &suite in &options.suites {
        let (shares, scale) = match options.long {
            true => (suite.shares, suite.scale),
            false => (1, options.scale),
        };
        jobs.extend((0..shares).map(|share| Job {
            suite,
            seed: options.seed + share,
            scale,
        }));
    }
    jobs
}

/// Runs the suites, as many at a time as the machine has processors, and prints each as it ends.
fn run_all(options: &Options) -> Vec<Ctx> {
    let mut jobs = jobs(options);
    if options.first {
        // the short suites first
        jobs.reverse();
    }
    let next = AtomicUsize::new(0);
    let results = Mutex::new(Vec::new());
    let workers = match options.first {
        true => 1,
        false => std::thread::available_parallelism().map_or(1, |n| n.get()),
    };
    std::thread::scope(|scope| {
        for _ in 0..workers {
            scope.spawn(|| {
                while let Some(job) = jobs.get(next.fetch_add(1, Ordering::Relaxed)) {
                    let c = run_one(job, options.first);
                    results.lock().unwrap().push(c);
                }
            });
        }
    });
    results.into_inner().unwrap()
}

fn run_one(job: &Job, first: bool) -> Ctx {
    let started = Instant::now();
    let Job { suite, seed, scale } = job;
    let mut c = Ctx::new(suite.name, *seed, *scale, first);
    c.run(suite.run);
    let mut text = format!(
        "{}: {} cases, {} failed, {:.1} s",
        suite.name,
        c.cases,
        c.failed,
        started.elapsed().as_secs_f64()
    );
    for line in &c.report {
        text += &format!("\n  {line}");
    }
    if c.failed > 0 {
        text += &format!(
            "\n  again: --seed {seed} --scale {scale} --suite {}",
            suite.name
        );
    }
    println!("{text}");
    c
}
