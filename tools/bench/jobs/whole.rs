//! The whole job: the sample log to the text that a program prints of it, all in memory. Ours does what the program does but for the
//! calls of the system (crates/bench_jobs); the Rust is driven by tools/oracle/driver.rs.

use crate::{Job, driver, each};
use std::hint::black_box;
use std::io::{self, BufRead, Write};

unsafe extern "C" {
    // a slice is a pointer and a length
    fn jobs_print(
        plate: u8,
        input: *const u8,
        input_len: usize,
        block: *mut u8,
        block_len: usize,
        line: *mut u8,
        line_len: usize,
        bytes: *mut u8,
        bytes_len: usize,
        command: *mut u8,
        command_len: usize,
        words: *mut u16,
        words_len: usize,
        text: *mut u8,
        text_len: usize,
    ) -> usize;
}

pub const SAMPLE: &[u8] = include_bytes!(env!("SAMPLE"));

type Driver = fn(&mut dyn BufRead, &mut dyn Write) -> io::Result<()>;

pub fn jobs() -> Vec<Job> {
    vec![
        job("whole job, sample log to plate", 0.4, true, driver::plate),
        job(
            "whole job, sample log to replay",
            1.0,
            false,
            driver::replay,
        ),
    ]
}

/// A call on the log and on parts of the desk, each lent as a pointer and a length.
macro_rules! lent {
    ($call:ident, $plate:ident, $log:ident, $desk:ident, $($part:ident)*) => {
        $call($plate.into(), $log.as_ptr(), $log.len(), $($desk.$part.as_mut_ptr(), $desk.$part.len()),*)
    };
}

/// What a program holds.
struct Desk {
    block: Vec<u8>,
    line: Vec<u8>,
    bytes: Vec<u8>,
    command: Vec<u8>,
    words: Vec<u16>,
    text: Vec<u8>,
}

impl Desk {
    fn new() -> Self {
        Desk {
            block: vec![0; 30_020],
            line: vec![0; 11_522],
            bytes: vec![0; 5_760],
            command: vec![0; 112],
            words: vec![0; 256],
            text: vec![0; 224 * 1025],
        }
    }

    /// The text of the plate or of the replay.
    fn run(&mut self, log: &[u8], plate: bool) -> &[u8] {
        let size =
            unsafe { lent!(jobs_print, plate, log, self, block line bytes command words text) };
        &self.text[..size]
    }
}

fn job(name: &'static str, limit: f64, plate: bool, driver: Driver) -> Job {
    let mut desk = Desk::new();
    let mut text = Vec::with_capacity(224 * 1025);
    driver(&mut &SAMPLE[..], &mut text).unwrap();
    assert!(desk.run(SAMPLE, plate) == text, "the texts differ");
    Job {
        name,
        limit,
        port: Box::new(move || each(1, |_| desk.run(black_box(SAMPLE), plate).len())),
        other: Box::new(move || {
            each(1, |_| {
                text.clear();
                driver(&mut black_box(SAMPLE), &mut text).unwrap();
                text.len()
            })
        }),
    }
}
