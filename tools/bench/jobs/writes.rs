//! A log of writes on a unit: packets of random data, idle polling, what the sample sends, and lines at random. Ours goes as a log
//! does, by lines of up to 5,760 writes on a block that is known to be valid. The packets are SOUND, which neither side carries out.
//! Beside it the plain run, which has the fast one's contract, over a receiver in locals; and the public calls, which check the whole block
//! each time: a write by itself, and writes in a row by `play`, a frame's polling and a packet at a time.

use crate::block;
use crate::driver::{self, Event};
use crate::generate;
use crate::jobs::whole::SAMPLE;
use crate::oracle::Oracle;
use crate::rng::Rng;
use crate::{Job, each};
use std::rc::Rc;

unsafe extern "C" {
    fn jobs_play(
        block: *mut u8,
        len: usize,
        writes: *const u8,
        writes_len: usize,
        command: *mut u8,
        command_len: usize,
    ) -> u64;
    fn probe_play(
        block: *mut u8,
        len: usize,
        writes: *const u8,
        writes_len: usize,
        command: *mut u8,
        command_len: usize,
    ) -> usize;
    fn probe_write_joypad(
        block: *mut u8,
        len: usize,
        value: u8,
        command: *mut u8,
        command_len: usize,
    ) -> u32;
    fn probe_log(fast: u8, log: *const u8, len: usize, store: *mut u8, store_len: usize) -> usize;
}

const WRITES: usize = 260 * 400;
/// A game that polls four pads writes so many times a frame.
const FRAME: usize = 12;
const PACKET: usize = 260;

pub fn jobs() -> Vec<Job> {
    let mut rng = Rng::new(20261115, "writes");
    let mut packets = Vec::new();
    while packets.len() < WRITES {
        let mut sound: Vec<u8> = (0..16).map(|_| rng.byte()).collect();
        sound[0] = 0x08 << 3 | 1;
        packets.extend(generate::encode(&sound));
    }
    let polling = [0x20, 0x10, 0x30].repeat(WRITES / 3);
    let sample = sample_writes();
    let sample = sample.repeat(WRITES / sample.len());
    let noise = (0..WRITES).map(|_| rng.byte()).collect();
    vec![
        on_a_block("writes, packets", 0.4, packets.clone()),
        on_a_block("writes, idle polling", 0.4, polling.clone()),
        on_a_block("writes, the sample's", 0.4, sample),
        on_a_block("writes, random lines", 1.0, noise),
        by_play(
            "writes, a packet a public call",
            0.2,
            PACKET,
            packets.clone(),
        ),
        by_play("writes, a frame a public call", 3.0, FRAME, polling.clone()),
        one_by_one("writes, one a public call", 30.0, packets.clone()),
        plain_run("writes, packets, plain run", packets),
        plain_run("writes, idle polling, plain run", polling),
    ]
}

fn sample_writes() -> Vec<u8> {
    let (mut all, mut bytes) = (Vec::new(), Vec::new());
    for line in SAMPLE.split(|b| *b == b'\n') {
        if let Some(Event::Writes(writes)) = driver::event(line, &mut bytes) {
            all.extend(writes);
        }
    }
    all
}

/// So many writes at a time, each call up to the next command: it tells how many it took, and whether one is complete. Gives how many
/// commands they completed.
fn by_calls(writes: &[u8], size: usize, mut call: impl FnMut(&[u8]) -> (usize, bool)) -> usize {
    let mut commands = 0;
    for piece in writes.chunks(size) {
        let mut at = 0;
        while at < piece.len() {
            let (taken, complete) = call(&piece[at..]);
            at += taken;
            commands += usize::from(complete);
        }
    }
    commands
}

/// As a log's lines go.
fn play(block: &mut [u8], writes: &[u8]) -> usize {
    let mut command = [0; 112];
    let (b, n, c, room) = (
        block.as_mut_ptr(),
        block.len(),
        command.as_mut_ptr(),
        command.len(),
    );
    by_calls(writes, 5_760, |rest| {
        let told = unsafe { jobs_play(b, n, rest.as_ptr(), rest.len(), c, room) };
        ((told & 0xFFFF_FFFF) as usize, told >> 56 != 0)
    })
}

/// By the public call.
fn play_public(block: &mut [u8], writes: &[u8], size: usize) -> usize {
    let mut command = [0; 112];
    let (b, n, c, room) = (
        block.as_mut_ptr(),
        block.len(),
        command.as_mut_ptr(),
        command.len(),
    );
    by_calls(writes, size, |rest| {
        let told = unsafe { probe_play(b, n, rest.as_ptr(), rest.len(), c, room) };
        (told >> 8, told & 0xFF != 0)
    })
}

fn write_public(block: &mut [u8], writes: &[u8]) -> usize {
    let mut command = [0; 112];
    let mut write = |value: u8| unsafe {
        probe_write_joypad(
            block.as_mut_ptr(),
            block.len(),
            value,
            command.as_mut_ptr(),
            command.len(),
        )
    };
    writes.iter().filter(|w| write(**w) != 0).count()
}

fn on_a_block(name: &'static str, limit: f64, writes: Vec<u8>) -> Job {
    beside(name, limit, writes, play)
}

fn by_play(name: &'static str, limit: f64, size: usize, writes: Vec<u8>) -> Job {
    beside(name, limit, writes, move |block, writes| {
        play_public(block, writes, size)
    })
}

fn one_by_one(name: &'static str, limit: f64, writes: Vec<u8>) -> Job {
    beside(name, limit, writes, write_public)
}

/// Our run of the writes on a block, which tells how many commands they completed, beside the Rust's.
fn beside(
    name: &'static str,
    limit: f64,
    writes: Vec<u8>,
    run: impl Fn(&mut [u8], &[u8]) -> usize + 'static,
) -> Job {
    let mut block = block::post_boot();
    let mut unit = Oracle::post_boot();
    let count = writes.iter().filter_map(|w| unit.write(*w)).count();
    assert_eq!(run(&mut block, &writes), count);
    block::difference(&block, &unit.save()).unwrap();
    let writes = Rc::new(writes);
    Job {
        name,
        limit,
        port: {
            let writes = writes.clone();
            Box::new(move || each(1, |_| run(&mut block, &writes)))
        },
        other: Box::new(move || {
            each(1, |_| {
                let commands = writes.iter().filter_map(|w| unit.0.write_joypad(*w));
                commands.count()
            })
        }),
    }
}

/// Packets and polling leave the receiver as they find it, so each run begins with a fresh one.
fn plain_run(name: &'static str, writes: Vec<u8>) -> Job {
    let writes = Rc::new(writes);
    let run = |writes: &[u8]| unsafe {
        let mut store = [0; 112];
        probe_log(
            0,
            writes.as_ptr(),
            writes.len(),
            store.as_mut_ptr(),
            store.len(),
        )
    };
    let mut unit = Oracle::post_boot().0;
    let count = writes.iter().filter_map(|w| unit.write_joypad(*w)).count();
    assert_eq!(run(&writes) >> 8, count);
    Job {
        name,
        limit: 1.0,
        port: {
            let writes = writes.clone();
            Box::new(move || each(1, |_| run(&writes)))
        },
        other: Box::new(move || {
            each(1, |_| {
                let commands = writes.iter().filter_map(|w| unit.write_joypad(*w));
                commands.count()
            })
        }),
    }
}
