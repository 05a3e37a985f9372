//! The picture with a border that is empty, of random map words, and fully drawn; and its rows asked for one by one.

use crate::block::*;
use crate::generate;
use crate::oracle::Oracle;
use crate::rng::Rng;
use crate::{Job, each};
use gb::ppu::screen::Screen;
use gb::sgb::Sgb;
use std::hint::black_box;

unsafe extern "C" {
    fn probe_picture(block: *const u8, len: usize, out: *mut u16, out_len: usize);
    fn probe_row(block: *const u8, len: usize, y: usize, out: *mut u16, out_len: usize);
}

pub fn jobs() -> Vec<Job> {
    vec![
        job("picture, empty border", 0.4, Border::Empty, false),
        job("picture, random border", 0.4, Border::Random, false),
        job("picture, full border", 0.25, Border::Full, false),
        job("picture by rows, empty border", 1.0, Border::Empty, true),
        job("picture by rows, full border", 1.0, Border::Full, true),
    ]
}

#[derive(Clone, Copy)]
enum Border {
    Empty,
    Random,
    Full,
}

/// The same unit twice: the Rust's own, and the Rust behind the block.
struct Both(Sgb, Oracle);

impl Both {
    fn send(&mut self, command: &[u8]) {
        for w in generate::encode(command) {
            self.0.write_joypad(w);
            self.1.write(w);
        }
    }

    fn show(&mut self, packed: &[u8]) {
        let mut screen = Screen::default();
        screen.restore_front(&unpack(packed));
        self.0.update_screen(&screen);
        self.1.screen(packed);
    }

    /// A transfer command and the three screens that bring its page.
    fn transfer(&mut self, code: u8, d1: u8, page: &[u8], rng: &mut Rng) {
        let mut command = [0; 16];
        (command[0], command[1]) = (code << 3 | 1, d1);
        self.send(&command);
        let screen = generate::screen_of_page(rng, page);
        (0..3).for_each(|_| self.show(&screen));
    }
}

/// A unit with noise in its palettes, its attribute map, its screen and, as asked, its border.
fn unit(border: Border) -> Both {
    let mut rng = Rng::new(20261101, "bench");
    let mut both = Both(Sgb::post_boot(), Oracle::post_boot());
    let mut noise = |n: usize| -> Vec<u8> { (0..n).map(|_| rng.byte()).collect() };
    let pages: Vec<Vec<u8>> = (0..5).map(|_| noise(4096)).collect();
    let shades = noise(SCREEN_LEN);
    let [palettes, files, lower, upper, map] = &pages[..] else {
        unreachable!()
    };
    let mut map = map.clone();
    if let Border::Full = border {
        for entry in map[..0x700].chunks_mut(2) {
            let palette = 4 + entry[1] % 3;
            entry[1] = entry[1] & 0xC0 | palette << 2;
        }
    }
    both.transfer(0x0B, 0, palettes, &mut rng);
    both.transfer(0x15, 0, files, &mut rng);
    if !matches!(border, Border::Empty) {
        both.transfer(0x13, 0, lower, &mut rng);
        both.transfer(0x13, 1, upper, &mut rng);
        both.transfer(0x14, 0, &map, &mut rng);
    }
    // PAL_SET: system palettes 1 to 4 and attribute file 5
    let mut command = [0; 16];
    command[..10].copy_from_slice(&[0x0A << 3 | 1, 1, 0, 2, 0, 3, 0, 4, 0, 0x80 | 5]);
    both.send(&command);
    both.show(&shades);
    both
}

fn job(name: &'static str, limit: f64, border: Border, by_rows: bool) -> Job {
    let Both(sgb, oracle) = unit(border);
    let block = oracle.save();
    let mut out = vec![0u16; 57344];
    draw(&block, &mut out, by_rows);
    let rust = sgb.snes_picture();
    assert!(out.iter().zip(&rust).all(|(port, rust)| *port == rust.0));
    Job {
        name,
        limit,
        port: Box::new(move || each(20, |_| draw(black_box(&block), &mut out, by_rows))),
        other: Box::new(move || each(4, |_| black_box(&sgb).snes_picture())),
    }
}

fn draw(block: &[u8], out: &mut [u16], by_rows: bool) {
    if !by_rows {
        unsafe { probe_picture(block.as_ptr(), block.len(), out.as_mut_ptr(), out.len()) };
        return;
    }
    for (y, row) in out.chunks_mut(256).enumerate() {
        unsafe { probe_row(block.as_ptr(), block.len(), y, row.as_mut_ptr(), 256) };
    }
}
