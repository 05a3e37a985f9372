//! What a log is made of (RULES 8.2): the writes of a `01` line or the screen of a `02` line.

use crate::shrink::{Bytes, Fails, List, Shrink};

#[derive(Clone)]
pub enum Event {
    Writes(Vec<u8>),
    Screen(Vec<u8>),
}

impl Event {
    /// The line of a log, without its LF.
    pub fn line(&self) -> String {
        let (first, rest) = match self {
            Event::Writes(writes) => ("01", writes),
            Event::Screen(screen) => ("02", screen),
        };
        let hex = rest.iter().map(|b| format!("{b:02X}"));
        [first.to_string()].into_iter().chain(hex).collect()
    }
}

impl Shrink for Event {
    fn shrink(&mut self, fails: Fails<Self>) {
        match self {
            Event::Writes(writes) => {
                let mut list = List(std::mem::take(writes));
                list.shrink(&mut |l| fails(&Event::Writes(l.0.clone())));
                *writes = list.0;
            }
            Event::Screen(screen) => {
                let mut bytes = Bytes(std::mem::take(screen));
                bytes.shrink(&mut |b| fails(&Event::Screen(b.0.clone())));
                *screen = bytes.0;
            }
        }
    }

    fn show(&self) -> String {
        match self {
            Event::Writes(writes) => format!("\n    01: {}", List(writes.clone()).show()),
            Event::Screen(screen) => format!("\n    02: {}", Bytes(screen.clone()).show()),
        }
    }
}
