//! The screen that carries a page, which the Rust lacks. It is held to a second reading of RULES 5.6, pixel by pixel, to the page that the Rust
//! reads from it, and to what lands where it is the third screen after a transfer command (RULES 5.7).

use crate::block::{self, *};
use crate::both::{Both, By, marked};
use crate::counts::{self, count};
use crate::ctx::Ctx;
use crate::event::Event;
use crate::generate::{self, Class};
use crate::oracle::{self, Oracle};
use crate::port::{NOTHING, REFUSED};
use crate::rng::Rng;
use crate::shrink::{Block, Bytes, List};
use crate::valid;
use std::ops::Range;

unsafe extern "C" {
    // a slice is a pointer and a length
    fn probe_page_screen(page: *const u8, len: usize, out: *mut u8, out_len: usize) -> u32;
}

const PAGE_LEN: usize = 4096;

/// RULES 5.4 by kind: which bytes of the page go where in the block.
const PLACES: [&[(Range<usize>, usize)]; 5] = [
    &[(0..4096, 274)],
    &[(0..4050, 4370)],
    &[(0..4096, 19940)],
    &[(0..4096, 24036)],
    &[(0..0x700, 28132), (0x800..0x860, 29924)],
];

/// A log in which pages were drawn for a border, its palettes and its attribute files (`tools/sample/packets.py`).
const SAMPLE: &str = include_str!("../../../samples/dusk.log");

pub fn run(ctx: &mut Ctx) {
    every_bit(ctx);
    every_pair(ctx);
    pages(ctx);
    sample(ctx);
    screens(ctx);
    refusals(ctx);
    landings(ctx);
    later_command(ctx);
}

fn page_screen(page: &[u8], out: &mut [u8]) -> u32 {
    unsafe { probe_page_screen(page.as_ptr(), page.len(), out.as_mut_ptr(), out.len()) }
}

/// Our screen of a page.
fn screen_of(page: &[u8]) -> Result<Vec<u8>, String> {
    let mut screen = marked(SCREEN_LEN);
    match page_screen(page, &mut screen) {
        5760 => Ok(screen),
        told => Err(format!("a page is answered {told:X}")),
    }
}

/// RULES 5.6 read a second time: the shade at column x of row y.
fn shade(page: &[u8], x: usize, y: usize) -> u8 {
    let t = y / 8 * 20 + x / 8;
    if t >= 256 {
        return 0;
    }
    let (at, bit) = (t * 16 + y % 8 * 2, 7 - x % 8);
    page[at] >> bit & 1 | (page[at + 1] >> bit & 1) << 1
}

fn shades(page: &[u8]) -> Vec<u8> {
    let pixels = (0..144).flat_map(|y| (0..160).map(move |x| (x, y)));
    pixels.map(|(x, y)| shade(page, x, y)).collect()
}

/// Of a page: the answer, the screen pixel by pixel, that the rest of a longer output is kept, and that the Rust reads the page again.
fn carries(page: &[u8], tail: usize) -> Result<(), String> {
    let mut out = marked(SCREEN_LEN + tail);
    let told = page_screen(page, &mut out);
    if told != 5760 {
        return Err(format!("a page is answered {told:X}"));
    }
    let (screen, rest) = out.split_at(SCREEN_LEN);
    same("pixel", &unpack(screen), &shades(page))?;
    same("past it byte", rest, &marked(out.len())[SCREEN_LEN..])?;
    same("for the Rust byte", &oracle::transfer_data(screen), page)?;
    count(|c| c.carried += 1);
    Ok(())
}

fn same(what: &str, told: &[u8], due: &[u8]) -> Result<(), String> {
    match (0..due.len()).find(|&i| told[i] != due[i]) {
        None => Ok(()),
        Some(i) => Err(format!("{what} {i} is {:X}, not {:X}", told[i], due[i])),
    }
}

/// Each single bit of a page is one bit of one shade, told here from the byte's place; every 32nd of them is looked at as any page is.
fn every_bit(ctx: &mut Ctx) {
    let mut page = vec![0; PAGE_LEN];
    for k in 0..PAGE_LEN {
        for bit in 0..8 {
            page[k] = 1 << bit;
            let (tile, row, plane) = (k / 16, k % 16 / 2, k % 2);
            let (x, y) = (tile % 20 * 8 + 7 - bit, tile / 20 * 8 + row);
            let mut due = vec![0; SCREEN_LEN];
            due[(160 * y + x) / 4] = 1 << plane << (6 - 2 * (x % 4));
            let told = screen_of(&page);
            ctx.check(told == Ok(due), || {
                format!("bit {bit} of byte {k} alone: {:?}", carries(&page, 0))
            });
        }
        page[k] = 0;
    }
    for at in (ctx.rng.below(32)..8 * PAGE_LEN).step_by(32) {
        let mut page = vec![0; PAGE_LEN];
        page[at / 8] = 1 << (at % 8);
        ctx.try_on(Bytes(page), |page| carries(&page.0, 0));
    }
}

/// Every pair of plane bytes as a row of a tile: a page has 2,048 such rows.
fn every_pair(ctx: &mut Ctx) {
    for first in (0..0x10000).step_by(2048) {
        let rows = first..first + 2048;
        let page = rows.flat_map(|row| u16::to_be_bytes(row as u16)).collect();
        ctx.try_on(Bytes(page), |page| carries(&page.0, 0));
    }
}

/// Flat pages, pages that count up, and random ones, into outputs that are just long enough and longer.
fn pages(ctx: &mut Ctx) {
    let mut all = vec![vec![0; PAGE_LEN], vec![0xFF; PAGE_LEN]];
    all.push((0..PAGE_LEN).map(|k| k as u8).collect());
    all.push((0..PAGE_LEN).map(|k| (k / 16) as u8).collect());
    all.extend(ctx.rounds(2000).map(|_| generate::page(&mut ctx.rng)));
    for page in all {
        let tail = ctx.rng.pick(&[0, 0, 1, 2, 40, 5760]);
        ctx.try_on((Bytes(page), tail), |(page, tail)| carries(&page.0, *tail));
    }
}

/// The sample's screens of pages: system palettes, attribute files, a border's two halves and its map.
fn sample(ctx: &mut Ctx) {
    for number in [6, 10, 14, 18, 22] {
        let line = SAMPLE.lines().nth(number - 1).unwrap();
        let byte = |i| u8::from_str_radix(&line[2 * i..2 * i + 2], 16).unwrap();
        assert!(byte(0) == 2);
        let screen: Vec<u8> = (1..=SCREEN_LEN).map(byte).collect();
        let page = oracle::transfer_data(&screen);
        let ours = screen_of(&page);
        ctx.check(ours == Ok(screen), || format!("the sample's line {number}"));
        ctx.try_on(Bytes(page), |page| carries(&page.0, 0));
    }
}

/// A screen whose other 104 tiles are shade 0 comes back from its own page.
fn screens(ctx: &mut Ctx) {
    for _ in ctx.rounds(1000) {
        let mut shades = unpack(&generate::screen(&mut ctx.rng));
        for (i, shade) in shades.iter_mut().enumerate() {
            if i / 160 / 8 * 20 + i % 160 / 8 >= 256 {
                *shade = 0;
            }
        }
        ctx.try_on(Bytes(pack(&shades)), |Bytes(screen)| {
            let again = screen_of(&oracle::transfer_data(screen))?;
            same("byte", &again, screen)
        });
    }
}

/// 10 for a page of another length, then 6 for an output that is too short; and no byte is changed.
fn refusals(ctx: &mut Ctx) {
    for page_len in [0, 1, 16, 4095, 4096, 4097, 5760, 8192] {
        for out_len in [0, 1, 4096, 5759, 5760, 5761, 11_520] {
            let mut page = vec![0; page_len];
            generate::fill(&mut ctx.rng, &mut page);
            let mut out = marked(out_len);
            let told = page_screen(&page, &mut out);
            let due = match (page_len, out_len) {
                (4096, 5760..) => 5760,
                (4096, _) => REFUSED | 6,
                _ => REFUSED | 10,
            };
            let kept = due == 5760 || out == marked(out_len);
            ctx.check(told == due && kept, || {
                format!("page of {page_len}, room {out_len}: {told:X}, not {due:X}, kept: {kept}")
            });
        }
    }
}

/// The kind that a command brings, if it is a transfer (RULES 4.12).
fn kind_of(command: &[u8]) -> Option<usize> {
    match command[0] / 8 {
        0x0B => Some(0),
        0x15 => Some(1),
        0x13 => Some(2 + usize::from(command[1] & 1)),
        0x14 => Some(4),
        _ => None,
    }
}

/// A command that brings this kind, in one packet or more.
fn transfer(rng: &mut Rng, kind: usize) -> Vec<u8> {
    let packets = if rng.one_in(3) { rng.within(2, 7) } else { 1 };
    let code = [0x0B, 0x15, 0x13, 0x13, 0x14][kind];
    let mut d = generate::command(rng, code, packets as u8);
    if code == 0x13 {
        d[1] = d[1] & 0xFE | (kind == 3) as u8;
    }
    d
}

/// Brings the block to a receiver that is one write short of this command: that write, with other bits at random.
fn one_short(rng: &mut Rng, b: &mut [u8], command: &[u8]) -> u8 {
    let (before, last) = command.split_at(command.len() - 16);
    b[PACKET.start..STORE.end].fill(0);
    b[PACKET].copy_from_slice(last);
    b[STORE][..before.len()].copy_from_slice(before);
    (b[P15_HIGH], b[LINES_HIGH]) = (1, 1);
    (b[RECEIVER], b[BIT_INDEX]) = (1, 128);
    b[RECEIVED] = (before.len() / 16) as u8;
    b[EXPECTED] = if before.is_empty() { 0 } else { command[0] % 8 };
    rng.pick(&[0x10, 0x20]) | rng.byte() & 0xCF
}

/// Writes that come between screens: none, a command, the beginning of one, or anything.
fn between(rng: &mut Rng) -> Vec<u8> {
    let mut writes = match rng.below(4) {
        0 => Vec::new(),
        1 => return generate::writes(rng, 300),
        _ => generate::encode(&generate::any_command(rng)),
    };
    if rng.one_in(4) {
        writes.truncate(rng.below(writes.len() + 1));
    }
    writes
}

/// A transfer command, and two screens, with writes before each and behind them that complete no other.
fn log(rng: &mut Rng, b: &mut [u8], kind: usize) -> Vec<Event> {
    let command = transfer(rng, kind);
    let mut first = generate::rest_of_command(rng, b);
    match rng.one_in(2) {
        true => first = vec![one_short(rng, b, &command)],
        false => first.extend(generate::encode(&command)),
    }
    loop {
        let gaps = [(); 3].map(|_| between(rng));
        let mut unit = Oracle::load(b);
        first.iter().for_each(|w| drop(unit.write(*w)));
        let commands = gaps.iter().flatten().filter_map(|w| unit.write(*w));
        if commands.filter_map(|d| kind_of(&d)).count() > 0 {
            continue;
        }
        let mut log = vec![Event::Writes(first)];
        for (i, gap) in gaps.into_iter().enumerate() {
            log.push(Event::Writes(gap));
            log.extend((i < 2).then(|| Event::Screen(generate::screen(rng))));
        }
        return log;
    }
}

/// From a block of each class, and from fresh ones, to a landing of each kind.
fn landings(ctx: &mut Ctx) {
    let mut runs = 0;
    for round in ctx.rounds(5) {
        let mut blocks = vec![block::new(), block::post_boot()];
        let classes = Class::all().into_iter();
        blocks.extend(classes.map(|class| generate::block_of(&mut ctx.rng, class)));
        blocks.retain(|b| valid::check(b).is_ok());
        for (i, mut b) in blocks.into_iter().enumerate() {
            let kind = (i + round) % 5;
            let events = log(&mut ctx.rng, &mut b, kind);
            let page = generate::page(&mut ctx.rng);
            let by = ctx.rng.pick(&[By::Write, By::Play, By::Play, By::Play]);
            let input = (Block(b), Bytes(page), List(events));
            ctx.try_on(input, |(b, page, log)| lands(&b.0, &page.0, &log.0, by));
            runs += 1;
        }
    }
    let landed = counts::landed();
    ctx.check(landed.iter().sum::<u64>() == runs, || {
        format!("of {runs} pages landed, by kind, {landed:?}")
    });
}

/// The log, and then the screen of the page. It lands as the kind of the last transfer command: where RULES 5.4 says, its own bytes stand, and
/// all else is as if nothing had been pending.
fn lands(b: &[u8], page: &[u8], log: &[Event], by: By) -> Result<(), String> {
    let mut both = Both::load(b, 0);
    let mut asked = None;
    for event in log {
        match event {
            Event::Writes(writes) => {
                let commands = both.line(writes, by)?;
                let kinds = commands.iter().filter_map(|(_, d)| kind_of(d));
                asked = kinds.last().map(|kind| (kind, 0)).or(asked);
            }
            Event::Screen(screen) => {
                both.screen(screen)?;
                asked = asked.map(|(kind, screens)| (kind, screens + 1));
            }
        }
    }
    // what is made small may have lost a screen or the command
    let Some((kind, 2)) = asked else {
        return Ok(());
    };
    let screen = screen_of(page)?;
    let mut due = both.sides().0.to_vec();
    let told = both.screen(&screen)?;
    if told != kind as u32 {
        return Err(format!(
            "the page's screen is answered {told:X}, not {kind}"
        ));
    }
    (due[COUNTDOWN], due[KIND]) = (0, 0);
    let mut unit = Oracle::load(&due);
    unit.screen(&screen);
    due = unit.save();
    for (from, to) in PLACES[kind] {
        due[*to..][..from.len()].copy_from_slice(&page[from.clone()]);
    }
    block::difference(both.sides().0, &due)?;
    count(|c| c.landed[kind] += 1);
    Ok(())
}

/// With another transfer command between, the third screen after the first command doesn't land by it: the third one after the later does.
fn later_command(ctx: &mut Ctx) {
    for first in 0..5 {
        for later in 0..5 {
            for before in 0..3 {
                let told = answers(&mut ctx.rng, first, before, later);
                let mut due = vec![NOTHING; before + 2];
                due.push(later as u32);
                ctx.check(told == Ok(due), || {
                    format!("kind {first}, {before} screens, kind {later}, 3 screens: {told:X?}")
                });
            }
        }
    }
}

/// What the screens of pages are answered: so many after the first command, and three after the later.
fn answers(rng: &mut Rng, first: usize, before: usize, later: usize) -> Result<Vec<u32>, String> {
    let b = generate::block(rng);
    let mut both = Both::load(&b, 0);
    both.play(&generate::rest_of_command(rng, &b))?;
    let mut told = Vec::new();
    for (kind, screens) in [(first, before), (later, 3)] {
        both.play(&generate::encode(&transfer(rng, kind)))?;
        for _ in 0..screens {
            told.push(both.screen(&screen_of(&generate::page(rng))?)?);
        }
    }
    Ok(told)
}
