//! The Rust driven by a log: `log replay` and `log plate` read one on standard input and print what the port's program of
//! that name must print (RULES 8.5 and 8.6); `log ppm` prints the picture as a Portable Pixmap.

// the oracle stands ready for more than a log asks of it
#![allow(dead_code, unused_imports)]

mod block;
mod driver;
mod oracle;

use std::io::{self, BufWriter, Write};
use std::process::exit;

fn main() {
    let words: Vec<String> = std::env::args().skip(1).collect();
    let print = match words.iter().map(String::as_str).collect::<Vec<_>>()[..] {
        ["replay"] => driver::replay,
        ["plate"] => driver::plate,
        ["ppm"] => driver::ppm,
        _ => {
            eprintln!("usage: log replay|plate|ppm <LOG");
            exit(2);
        }
    };
    let mut out = BufWriter::with_capacity(1 << 16, io::stdout());
    if let Err(why) = print(&mut io::stdin().lock(), &mut out).and_then(|()| out.flush()) {
        eprintln!("log: {why}");
        exit(1);
    }
}
