//! The verdict of a command in as many packets as it may have, beside that of the same kind in one. It looks at the length and at three bytes at
//! the most, so that more packets must not take more time.

use crate::generate;
use crate::{Job, Turn, each};
use std::hint::black_box;

unsafe extern "C" {
    fn probe_verdict(command: *const u8, len: usize) -> u8;
}

/// The two are all but alike; the rest is room for what so short a time varies by.
const LIMIT: f64 = 1.5;

pub fn jobs() -> Vec<Job> {
    vec![
        job("verdict, sets in 7 packets", (0x27, 18), (0x21, 2)),
        job("verdict, lines in 7 packets", (0x2F, 110), (0x29, 14)),
        job("verdict, cells in 6 packets", (0x3E, 360), (0x39, 40)),
    ]
}

/// Of each command the first byte, and how many items it announces.
fn job(name: &'static str, many: (u8, usize), one: (u8, usize)) -> Job {
    let [many, one] = [many, one].map(|(first, items)| {
        let mut command = vec![0; 16 * usize::from(first % 8)];
        generate::announce(&mut command, first, items);
        assert_eq!(verdict(&command), 1);
        command
    });
    Job {
        name,
        limit: LIMIT,
        port: turn(many),
        other: turn(one),
    }
}

fn turn(command: Vec<u8>) -> Turn {
    Box::new(move || each(20000, |_| verdict(black_box(&command))))
}

fn verdict(command: &[u8]) -> u8 {
    unsafe { probe_verdict(command.as_ptr(), command.len()) }
}
