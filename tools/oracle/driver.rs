//! The Rust driven by a log: what the port's programs must print of it, and the picture at its end. The unit is the Rust's; the
//! reading of the log's lines is written here from RULES 8 alone and shares nothing with the port.
//! It is timed too (tools/bench): digits go by tables, buffers are kept from line to line and nothing is formatted word by word,
//! so that a whole job's time is the unit's and a reasonable driver's.

use crate::block::SCREEN_LEN;
use crate::oracle::{self, Oracle};
use gb::ppu::screen::Screen;
use gb::sgb::{Rgb555, Sgb};
use std::io::{self, BufRead, Read, Write};

/// The digits of the longest line that is one: the first byte and 5,760 more.
const LONGEST: usize = 2 * (1 + SCREEN_LEN);

pub enum Event<'a> {
    Writes(&'a [u8]),
    Screen(&'a [u8]),
}

/// RULES 8.5: each completed command and each refused line, and then the head of the block.
pub fn replay(input: &mut dyn BufRead, out: &mut dyn Write) -> io::Result<()> {
    let mut driven = Driven::new();
    let (mut line, mut bytes, mut text) = (Vec::new(), Vec::new(), Vec::new());
    let mut number = 0u64;
    while next_line(input, &mut line)? {
        number += 1;
        match event(&line, &mut bytes) {
            None => writeln!(out, "line {number}: 7")?,
            Some(Event::Screen(screen)) => driven.show(screen),
            Some(Event::Writes(writes)) => {
                for command in writes.iter().filter_map(|w| driven.unit.write_joypad(*w)) {
                    spell_line(&command, &mut text);
                    out.write_all(&text)?;
                }
            }
        }
    }
    spell_line(&oracle::head(&driven.unit), &mut text);
    out.write_all(&text)
}

/// The picture after the whole log, or the first refused line alone.
pub fn plate(input: &mut dyn BufRead, out: &mut dyn Write) -> io::Result<()> {
    let words = match picture(input)? {
        Ok(words) => words,
        Err(number) => return writeln!(out, "line {number}: 7"),
    };
    let mut text = [b'\n'; 4 * 256 + 1];
    for row in words.chunks(256) {
        for (four, word) in text.chunks_exact_mut(4).zip(row) {
            let [high, low] = word.0.to_be_bytes().map(|b| PAIRS[b as usize]);
            four.copy_from_slice(&[high[0], high[1], low[0], low[1]]);
        }
        out.write_all(&text)?;
    }
    Ok(())
}

/// The picture in eight bits a part, by the Rust's `to_rgb8`.
pub fn ppm(input: &mut dyn BufRead, out: &mut dyn Write) -> io::Result<()> {
    let refused = |number| io::Error::other(format!("line {number}: 7"));
    let words = picture(input)?.map_err(refused)?;
    write!(out, "P6\n256 224\n255\n")?;
    for word in words {
        out.write_all(&oracle::rgb8(word.0).to_be_bytes()[1..])?;
    }
    Ok(())
}

/// The words of the picture after the whole log, or the number of the first refused line.
fn picture(input: &mut dyn BufRead) -> io::Result<Result<Vec<Rgb555>, u64>> {
    let mut driven = Driven::new();
    let (mut line, mut bytes) = (Vec::new(), Vec::new());
    let mut number = 0;
    while next_line(input, &mut line)? {
        number += 1;
        match event(&line, &mut bytes) {
            None => return Ok(Err(number)),
            Some(Event::Screen(screen)) => driven.show(screen),
            Some(Event::Writes(writes)) => writes
                .iter()
                .for_each(|w| drop(driven.unit.write_joypad(*w))),
        }
    }
    Ok(Ok(driven.unit.snes_picture()))
}

/// The unit, and the one screen on which it is shown what a log has.
struct Driven {
    unit: Sgb,
    screen: Screen,
}

impl Driven {
    fn new() -> Self {
        Driven {
            unit: Sgb::post_boot(),
            screen: Screen::default(),
        }
    }

    fn show(&mut self, packed: &[u8]) {
        oracle::draw(&mut self.screen, packed);
        self.unit.update_screen(&self.screen);
    }
}

/// The next line without its LF, or false at the input's end. A last line may lack its LF if it is not empty. Of a line that is
/// too long to be one, a digit more than the longest is kept, however long it is.
fn next_line(input: &mut dyn BufRead, line: &mut Vec<u8>) -> io::Result<bool> {
    line.clear();
    let most = LONGEST + 1;
    let got = (&mut *input).take(most as u64).read_until(b'\n', line)?;
    if line.last() == Some(&b'\n') {
        line.pop();
    } else if got == most {
        input.skip_until(b'\n')?;
    }
    Ok(got > 0)
}

/// What a line says, or nothing: refusal 7.
pub fn event<'a>(line: &[u8], bytes: &'a mut Vec<u8>) -> Option<Event<'a>> {
    if !decode(line, bytes) {
        return None;
    }
    match bytes.split_first()? {
        (1, writes) if writes.len() <= 5_760 => Some(Event::Writes(writes)),
        (2, screen) if screen.len() == SCREEN_LEN => Some(Event::Screen(screen)),
        _ => None,
    }
}

/// The value of each digit of either case, and a number over 15 for every other byte.
const DIGITS: [u8; 256] = {
    let mut digits = [0x80; 256];
    let mut value = 0;
    while value < 16 {
        let digit = b"0123456789abcdef"[value];
        digits[digit as usize] = value as u8;
        digits[digit.to_ascii_uppercase() as usize] = value as u8;
        value += 1;
    }
    digits
};

/// The two upper-case digits of each byte.
const PAIRS: [[u8; 2]; 256] = {
    let mut pairs = [[0; 2]; 256];
    let mut byte = 0;
    while byte < 256 {
        let digits = b"0123456789ABCDEF";
        pairs[byte] = [digits[byte / 16], digits[byte % 16]];
        byte += 1;
    }
    pairs
};

/// The bytes that a line spells in hexadecimal of either case; false if it doesn't.
fn decode(line: &[u8], bytes: &mut Vec<u8>) -> bool {
    let mut all = 0;
    bytes.clear();
    bytes.extend(line.chunks_exact(2).map(|pair| {
        let (high, low) = (DIGITS[pair[0] as usize], DIGITS[pair[1] as usize]);
        all |= high | low;
        high << 4 | low
    }));
    line.len() % 2 == 0 && all < 16
}

fn spell_line(bytes: &[u8], text: &mut Vec<u8>) {
    text.clear();
    text.extend(bytes.iter().flat_map(|b| PAIRS[*b as usize]));
    text.push(b'\n');
}
