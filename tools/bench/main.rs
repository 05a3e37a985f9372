//! Times jobs of Sporedrift beside the same jobs of the Rust, the check of refused blocks beside that of valid ones, a state in beside a plain
//! copy, and verdicts of many packets beside those of one. In a turn each side runs once, one after the other, so that a busy or slow moment
//! meets both. A round has several turns and tells one ratio, of the best time of each side; the middle one of the rounds' ratios counts, and
//! the least and the greatest show how far to trust it. Answers are compared before anything is timed.

// of tools/oracle, beside which `run` puts this: its parts stand ready for every job
#![allow(dead_code, unused_imports)]

mod block;
mod both;
mod broken;
mod counts;
mod driver;
mod event;
mod generate;
mod jobs;
mod oracle;
mod port;
mod rng;
mod shrink;
mod state;
mod valid;

use std::hint::black_box;
use std::process::exit;
use std::time::Instant;

const ROUNDS: usize = 15;
const TURNS: usize = 15;

/// A side's turn, which tells the time of one run in microseconds.
pub type Turn = Box<dyn FnMut() -> f64>;

/// What a job gives: its name, what the ratio may be at most, and the turns of both sides.
pub struct Job {
    pub name: &'static str,
    pub limit: f64,
    pub port: Turn,
    /// What it is held to: the Rust, another run of ours, or a plain copy.
    pub other: Turn,
}

/// Jobs whose times are printed below one heading, in units of which a microsecond has so many.
pub struct Table {
    pub heading: &'static str,
    pub units: f64,
    pub jobs: Vec<Job>,
}

/// The time of one of `n` runs.
pub fn each<T>(n: usize, mut run: impl FnMut(usize) -> T) -> f64 {
    let start = Instant::now();
    (0..n).for_each(|i| drop(black_box(run(i))));
    start.elapsed().as_nanos() as f64 / 1000.0 / n as f64
}

fn main() {
    let asked: Vec<String> = std::env::args().skip(1).collect();
    let is_asked =
        |job: &Job| asked.is_empty() || asked.iter().any(|a| job.name.starts_with(a.as_str()));
    let (mut missed, mut gap) = (0, "");
    for mut table in jobs::all() {
        table.jobs.retain(is_asked);
        if table.jobs.is_empty() {
            continue;
        }
        println!(
            "{gap}| {} | ratio | least to greatest | at most |",
            table.heading
        );
        println!("|---|---|---|---|---|---|");
        for job in &mut table.jobs {
            missed += usize::from(!measure(job, table.units));
        }
        gap = "\n";
    }
    if missed > 0 {
        println!("\n{missed} MISSED");
        exit(1);
    }
}

/// Prints the job's line, and tells whether its limit is held.
fn measure(job: &mut Job, units: f64) -> bool {
    let rounds: Vec<[f64; 3]> = (0..ROUNDS).map(|_| round(job)).collect();
    let [port, other, ratio] = [0, 1, 2].map(|i| {
        let mut column: Vec<f64> = rounds.iter().map(|r| r[i]).collect();
        column.sort_by(f64::total_cmp);
        column
    });
    let middle = ROUNDS / 2;
    let held = ratio[middle] <= job.limit;
    println!(
        "| {} | {:.2} | {:.2} | {:.2} | {:.2} to {:.2} | {:.2}{} |",
        job.name,
        units * port[middle],
        units * other[middle],
        ratio[middle],
        ratio[0],
        ratio[ROUNDS - 1],
        job.limit,
        if held { "" } else { " MISSED" }
    );
    held
}

/// The best time of each side, and their ratio.
fn round(job: &mut Job) -> [f64; 3] {
    let (mut port, mut other) = (f64::MAX, f64::MAX);
    for _ in 0..TURNS {
        port = port.min((job.port)());
        other = other.min((job.other)());
    }
    [port, other, port / other]
}
