//! The receiver write by write against the Rust: its answers, and every byte of the lines, the receiver, the packet and the store.
//! Every six writes from edge states, random streams, and each code with each packet count, sent by the port's own encoder. The
//! encoder, which the Rust lacks, is held to RULES 7.1.

use crate::block::*;
use crate::counts::count;
use crate::ctx::Ctx;
use crate::generate;
use crate::oracle::Oracle;
use crate::shrink::{Block, List};
use crate::valid;

unsafe extern "C" {
    // index below 255
    fn probe_index(index: u8, mask: u8, was: u8, value: u8) -> u8;
    // a valid receiver; next of 24 bytes, store of 112; a slice is a pointer and a length
    fn probe_write(
        stage: u8,
        expected: u8,
        received: u8,
        bits: u8,
        lo: u64,
        hi: u64,
        value: u8,
        released: u8,
        next: *mut u8,
        next_len: usize,
        store: *mut u8,
        store_len: usize,
    ) -> u8;
    // store of 112 bytes; fast is 0 or 1
    fn probe_log(fast: u8, log: *const u8, len: usize, store: *mut u8, store_len: usize) -> usize;
    fn probe_encode(command: *const u8, len: usize, out: *mut u8, out_len: usize) -> usize;
}

pub fn run(ctx: &mut Ctx) {
    sixes(ctx);
    streams(ctx);
    logs(ctx);
    codes(ctx);
    refusals(ctx);
}

/// The block's bytes as far as a write reads or changes them.
struct Port(Vec<u8>);

impl Port {
    fn load(block: &[u8]) -> Self {
        Port(block[..STORE.end].to_vec())
    }

    fn write(&mut self, value: u8) -> Option<Vec<u8>> {
        let b = &mut self.0;
        let half = |at: usize| u64::from_le_bytes(b[at..at + 8].try_into().unwrap());
        let (lo, hi) = (half(PACKET.start), half(PACKET.start + 8));
        let mut next = [0; 24];
        let mut store = b[STORE].to_vec();
        let packets = unsafe {
            b[JOYPAD_INDEX] = probe_index(b[JOYPAD_INDEX], b[JOYPAD_MASK], b[P15_HIGH], value);
            probe_write(
                b[RECEIVER],
                b[EXPECTED],
                b[RECEIVED],
                b[BIT_INDEX],
                lo,
                hi,
                value,
                b[LINES_HIGH],
                next.as_mut_ptr(),
                next.len(),
                store.as_mut_ptr(),
                store.len(),
            )
        };
        b[P15_HIGH] = value >> 5 & 1;
        b[LINES_HIGH] = u8::from(value & 0x30 == 0x30);
        b[RECEIVER..=BIT_INDEX].copy_from_slice(&next[..4]);
        b[PACKET].copy_from_slice(&next[8..]);
        let answer = (packets > 0).then(|| store[..16 * usize::from(packets)].to_vec());
        if answer.is_some() {
            store.fill(0);
        }
        b[STORE].copy_from_slice(&store);
        answer
    }
}

/// Both take the writes: the same answers, and at the end the same bytes.
fn follow(block: &[u8], writes: &[u8]) -> Result<(), String> {
    let (mut port, mut rust) = (Port::load(block), Oracle::load(block));
    for (i, w) in writes.iter().enumerate() {
        let (a, b) = (port.write(*w), rust.write(*w));
        if a != b {
            return Err(format!("write {i}, {w:02X}: {a:02X?}, the Rust {b:02X?}"));
        }
        // what a command does to the joypads is another suite's
        if b.is_some_and(|c| c[0] >> 3 == 0x11) {
            port.0[JOYPAD_INDEX..=JOYPAD_MASK].copy_from_slice(&rust.save()[1..3]);
        }
    }
    count(|c| c.received += writes.len() as u64);
    let after = rust.save();
    for at in (JOYPAD_INDEX..=BIT_INDEX).chain(PACKET).chain(STORE) {
        if port.0[at] != after[at] {
            let (a, b) = (port.0[at], after[at]);
            return Err(format!("{}: {a:02X}, the Rust {b:02X}", place(at)));
        }
    }
    Ok(())
}

/// A block whose receiver stands so, with the lines as they are after the write `last`.
fn state(stage: u8, counts: [u8; 2], bit: u8, first: u8, last: u8) -> Vec<u8> {
    let mut b = post_boot();
    b[JOYPAD_MASK] = 3;
    b[P15_HIGH] = last >> 5 & 1;
    b[LINES_HIGH] = u8::from(last & 0x30 == 0x30);
    b[RECEIVER] = stage;
    [b[EXPECTED], b[RECEIVED]] = counts;
    b[BIT_INDEX] = bit;
    for i in 0..16 * usize::from(counts[1]) {
        b[STORE.start + i] = 0xA5 ^ i as u8;
    }
    if counts[1] > 0 {
        b[STORE.start] = counts[0];
    }
    for i in 0..usize::from(bit) {
        let byte = if i < 8 { first } else { 0x96 };
        b[PACKET.start + i / 8] |= byte & 1 << (i % 8);
    }
    valid::check(&b).unwrap();
    b
}

/// Every six writes of the four line states, from ten receivers at the edges of a packet and of a command.
fn sixes(ctx: &mut Ctx) {
    let states = [
        state(0, [0, 0], 0, 0, 0x30),
        state(1, [0, 0], 0, 0, 0x00),
        state(1, [0, 0], 1, 0x01, 0x10),
        state(1, [0, 0], 63, 0xB9, 0x30),
        state(1, [0, 0], 64, 0xB9, 0x20),
        state(1, [0, 0], 127, 0xB9, 0x30),
        // the stop is next: of no packet, of the only one, of the first of two, of the last of two
        state(1, [0, 0], 128, 0xB8, 0x30),
        state(1, [0, 0], 128, 0xF7, 0x30),
        state(1, [0, 0], 127, 0x22, 0x30),
        state(1, [2, 1], 128, 0x00, 0x30),
    ];
    for b in &states {
        for n in 0..4096u32 {
            let writes: Vec<u8> = (0..6).map(|i| (n >> (2 * i) & 3) as u8 * 0x10).collect();
            let same = follow(b, &writes);
            ctx.check(same.is_ok(), || {
                let at = &b[RECEIVER..=BIT_INDEX];
                format!("{writes:02X?} from {at:02X?}: {}", same.unwrap_err())
            });
        }
    }
}

/// Streams of commands, faults and noise, from any valid block.
fn streams(ctx: &mut Ctx) {
    for _ in ctx.rounds(400) {
        let b = generate::block(&mut ctx.rng);
        let mut writes = generate::rest_of_command(&mut ctx.rng, &b);
        writes.extend(generate::writes(&mut ctx.rng, 3000));
        ctx.try_on((Block(b), List(writes)), |(b, writes)| follow(&b.0, &writes.0));
    }
}

/// Whole logs by the plain run and by the fast one: as many commands as the Rust hears, and the same bit index after them.
fn logs(ctx: &mut Ctx) {
    for _ in ctx.rounds(100) {
        let writes = generate::writes(&mut ctx.rng, 20_000);
        ctx.try_on(List(writes), |writes| {
            let log = &writes.0;
            let mut rust = Oracle::post_boot();
            let heard = log.iter().filter_map(|w| rust.write(*w)).count();
            count(|c| c.received += 2 * log.len() as u64);
            let want = heard << 8 | usize::from(rust.save()[BIT_INDEX]);
            for fast in [0, 1] {
                let mut store = [0; 112];
                let told =
                    unsafe { probe_log(fast, log.as_ptr(), log.len(), store.as_mut_ptr(), 112) };
                if told != want {
                    return Err(format!("fast {fast}: {told:X}, the Rust {want:X}"));
                }
            }
            Ok(())
        });
    }
}

fn encode(command: &[u8], out: &mut [u8]) -> usize {
    unsafe { probe_encode(command.as_ptr(), command.len(), out.as_mut_ptr(), out.len()) }
}

/// Each code with each packet count, as the port encodes it, received by both: the command comes back.
fn codes(ctx: &mut Ctx) {
    for first in 0..=255u8 {
        let command = generate::command(&mut ctx.rng, first >> 3, first & 7);
        let mut out = vec![0xEE; 7 * 260 + 3];
        let n = encode(&command, &mut out);
        if valid::count(first) == 0 {
            ctx.same(|| format!("refusal of {first:02X}"), n, 5);
            continue;
        }
        let pulses = generate::encode(&command);
        ctx.same(|| format!("writes for {first:02X}"), n, pulses.len());
        let tail = out[n..].iter().all(|b| *b == 0xEE);
        ctx.check(out[..n] == pulses && tail, || format!("pulses of {command:02X?}"));
        let mut rust = Oracle::post_boot();
        let heard: Vec<Vec<u8>> = out[..n].iter().filter_map(|w| rust.write(*w)).collect();
        ctx.same(|| format!("the Rust hears {first:02X}"), heard, vec![command]);
        let same = follow(&post_boot(), &out[..n]);
        ctx.check(same.is_ok(), || format!("pulses of {first:02X}: {}", same.unwrap_err()));
    }
}

/// Refusals 5 and 6 of the encoder, the lower first, and that no lent byte changes.
fn refusals(ctx: &mut Ctx) {
    for first in 0..=255u8 {
        let packets = usize::from(valid::count(first));
        for len in (0..=128).step_by(8).chain([1, 15, 17, 111, 113]) {
            let mut command = vec![0; len];
            command.first_mut().map(|b| *b = first);
            let room = 260 * packets;
            for out_len in [0, room.saturating_sub(1), room, room + 1] {
                let mut out = vec![0xEE; out_len];
                let n = encode(&command, &mut out);
                let formed = len > 0 && packets > 0 && len == 16 * packets;
                let want = match (formed, out_len < room) {
                    (false, _) => 5,
                    (true, true) => 6,
                    (true, false) => room,
                };
                let what = || format!("encode of {len} from {first:02X} into {out_len}");
                ctx.same(what, n, want);
                let kept = if n < 260 { 0 } else { n };
                ctx.check(out[kept..].iter().all(|b| *b == 0xEE), what);
            }
        }
    }
}
