//! A state of the emulator as our two calls take and give it: twelve fields, and twelve spans that may be missing. Here are the way to the
//! Rust's own record and back, our calls, and a second reading, from what was asked for alone: which block a state gives or which refusal, and
//! which state a block is. It shares nothing with the port, and asks `broken` about V1 to V6.

use crate::block::*;
use crate::both::marked;
use crate::broken;
use crate::oracle::Oracle;
use crate::shrink::{Bytes, Fails, Shrink};
use gb::sgb::post_boot as door;
use gb::state::{StateRecord, StateValue};

/// The fields in the order of the Rust's `write_state`: their places are those of the block's first bytes.
pub const FIELDS: [&str; 12] = [
    "sgb_mask",
    "sgb_joypad_index",
    "sgb_joypad_mask",
    "sgb_p15_high",
    "sgb_lines_high",
    "sgb_receiver",
    "sgb_packets_expected",
    "sgb_packets_received",
    "sgb_bit_index",
    "sgb_preset_in_force",
    "sgb_transfer_countdown",
    "sgb_transfer_kind",
];
/// Those that the Rust has as true and false.
const FLAGS: [usize; 3] = [P15_HIGH, LINES_HIGH, PRESET_IN_FORCE];

/// The spans in the order of the Rust's `capture_memory`, each with the most bytes that it can have.
pub const SPANS: [(&str, usize); 12] = [
    ("sgb_palettes", 32),
    ("sgb_attribute_map", 360),
    ("sgb_system_palettes", 4096),
    ("sgb_attribute_files", 16_200),
    ("sgb_packet", 16),
    ("sgb_packets", 112),
    ("sgb_capture", 23_040),
    ("sgb_frozen_capture", 23_040),
    ("sgb_preset", 8),
    ("sgb_border_tiles", 8192),
    ("sgb_border_map", 1792),
    ("sgb_border_palettes", 96),
];

/// The spans by number.
pub mod span {
    pub const PALETTES: usize = 0;
    pub const MAP: usize = 1;
    pub const SYSTEM: usize = 2;
    pub const FILES: usize = 3;
    pub const PACKET: usize = 4;
    pub const PACKETS: usize = 5;
    pub const CAPTURE: usize = 6;
    pub const FROZEN: usize = 7;
    pub const PRESET: usize = 8;
    pub const TILES: usize = 9;
    pub const BORDER_MAP: usize = 10;
    pub const BORDER_PALETTES: usize = 11;
}
pub const BORDER: [usize; 3] = [span::TILES, span::BORDER_MAP, span::BORDER_PALETTES];

#[derive(Clone, Debug, PartialEq)]
pub struct State {
    /// Twelve bytes, unless their number is what is tried.
    pub fields: Vec<u8>,
    /// Missing is not empty.
    pub spans: [Option<Vec<u8>>; 12],
}

// ---- the Rust's own form

/// What becomes of countdown and kind where the countdown is 0: `write_state` leaves both out.
#[derive(Clone, Copy, PartialEq)]
pub enum Zero {
    LeftOut,
    Kept,
}

impl State {
    /// What the Rust writes of a unit. A field that it leaves out is 0.
    pub fn of(unit: &Oracle) -> State {
        let record = door::write_state(&unit.0);
        let fields = FIELDS.map(|name| match record.get(name) {
            Some(StateValue::Int(n)) => u8::try_from(*n).unwrap(),
            Some(StateValue::Bool(b)) => u8::from(*b),
            Some(StateValue::Null) | None => 0,
        });
        let mut spans = [const { None }; 12];
        for (name, data) in door::capture_memory(&unit.0) {
            let k = SPANS.iter().position(|span| span.0 == name);
            let k = k.unwrap_or_else(|| panic!("{name} is no span"));
            assert!(
                spans[k..].iter().all(Option::is_none),
                "{name} comes too late"
            );
            spans[k] = Some(data);
        }
        State {
            fields: fields.to_vec(),
            spans,
        }
    }

    /// As the Rust reads it. A flag over 1 goes in as the number that it is.
    fn record(&self, zero: Zero) -> (StateRecord, Vec<(String, Vec<u8>)>) {
        let mut record = StateRecord::default();
        for (at, name) in FIELDS.into_iter().enumerate() {
            let byte = self.fields[at];
            if at >= COUNTDOWN && self.fields[COUNTDOWN] == 0 && zero == Zero::LeftOut {
                continue;
            }
            match FLAGS.contains(&at) && byte < 2 {
                true => record.set(name, byte == 1),
                false => record.set(name, byte),
            };
        }
        let named = SPANS.iter().zip(&self.spans);
        let memory = named.filter_map(|(span, data)| Some((span.0.to_string(), data.clone()?)));
        (record, memory.collect())
    }

    /// The unit that the Rust makes of it, if it takes it.
    pub fn rust(&self, zero: Zero) -> Option<Oracle> {
        let (record, memory) = self.record(zero);
        door::from_state(&record, &memory).ok()?.map(Oracle)
    }
}

// ---- the second reading

/// Where a span stands in the block, and whether it is packed there.
fn place(k: usize) -> (std::ops::Range<usize>, bool) {
    match k {
        span::PALETTES => (PALETTES, false),
        span::MAP => (MAP, true),
        span::SYSTEM => (SYSTEM_PALETTES, false),
        span::FILES => (FILES, true),
        span::PACKET => (PACKET, false),
        span::PACKETS => (STORE, false),
        span::CAPTURE => (LIVE, true),
        span::FROZEN => (FROZEN, true),
        span::PRESET => (PRESET, false),
        span::TILES => (TILES, false),
        span::BORDER_MAP => (BORDER_MAP, false),
        _ => (BORDER_PALETTES, false),
    }
}

/// The block that a state gives, or the refusal: 8, 9, or 21 to 26 with the offset above the low byte.
pub fn taken(s: &State) -> Result<Vec<u8>, u32> {
    if s.fields.len() != 12 || s.fields[RECEIVED] > 7 {
        return Err(8);
    }
    let mut b = vec![0; LEN];
    b[..12].copy_from_slice(&s.fields);
    b[FROZEN_PRESENT] = u8::from(s.spans[span::FROZEN].is_some());
    if b[COUNTDOWN] == 0 && b[KIND] <= 4 {
        b[KIND] = 0;
    }

    let border = BORDER.iter().all(|k| s.spans[*k].is_some());
    let read = |k: usize| match k {
        span::FROZEN => s.spans[k].is_some(),
        span::PRESET => s.fields[PRESET_IN_FORCE] == 1,
        _ if BORDER.contains(&k) => border,
        _ => true,
    };
    for k in (0..12).filter(|k| read(*k)) {
        let due = match k {
            span::PACKETS => 16 * usize::from(s.fields[RECEIVED]),
            _ => SPANS[k].1,
        };
        let Some(data) = s.spans[k].as_ref().filter(|data| data.len() == due) else {
            return Err(8);
        };
        match place(k) {
            (part, false) => b[part][..due].copy_from_slice(data),
            (part, true) => {
                let low: Vec<u8> = data.iter().map(|cell| cell % 4).collect();
                b[part].copy_from_slice(&pack(&low));
            }
        }
    }
    let cells = [span::MAP, span::FILES].map(|k| s.spans[k].as_deref().unwrap());
    if cells.concat().iter().any(|cell| *cell > 3) {
        return Err(9);
    }
    match broken::refusal(&b) {
        0 => Ok(b),
        no => Err(no),
    }
}

/// The state that a valid block is.
pub fn given(b: &[u8]) -> State {
    let missing = [
        (span::FROZEN, FROZEN_PRESENT),
        (span::PRESET, PRESET_IN_FORCE),
    ];
    let mut spans = std::array::from_fn(|k| {
        Some(match place(k) {
            (part, false) => b[part].to_vec(),
            (part, true) => unpack(&b[part]),
        })
    });
    for (k, _) in missing.iter().filter(|(_, flag)| b[*flag] == 0) {
        spans[*k] = None;
    }
    spans[span::PACKETS]
        .as_mut()
        .unwrap()
        .truncate(16 * usize::from(b[RECEIVED]));
    State {
        fields: b[..12].to_vec(),
        spans,
    }
}

/// What a state that is taken comes back as: the block has no place for the rest.
pub fn kept(s: &State) -> State {
    let mut s = s.clone();
    for k in [span::CAPTURE, span::FROZEN] {
        s.spans[k]
            .iter_mut()
            .flatten()
            .for_each(|shade| *shade &= 3);
    }
    if s.fields[COUNTDOWN] == 0 {
        s.fields[KIND] = 0;
    }
    if s.fields[PRESET_IN_FORCE] == 0 {
        s.spans[span::PRESET] = None;
    }
    if BORDER.iter().any(|k| s.spans[*k].is_none()) {
        BORDER
            .iter()
            .for_each(|k| s.spans[*k] = Some(vec![0; SPANS[*k].1]));
    }
    s
}

// ---- our calls

type Lengths = [usize; 13];

unsafe extern "C" {
    // a slice is a pointer and a length
    #[rustfmt::skip]
    fn probe_from_state(
        b: *mut u8,
        len: usize,
        fields: *const u8,
        n: usize,
        present: u16,
        s0: *const u8,
        n0: usize,
        s1: *const u8,
        n1: usize,
        s2: *const u8,
        n2: usize,
        s3: *const u8,
        n3: usize,
        s4: *const u8,
        n4: usize,
        s5: *const u8,
        n5: usize,
        s6: *const u8,
        n6: usize,
        s7: *const u8,
        n7: usize,
        s8: *const u8,
        n8: usize,
        s9: *const u8,
        n9: usize,
        s10: *const u8,
        n10: usize,
        s11: *const u8,
        n11: usize,
    ) -> u32;
    #[rustfmt::skip]
    fn probe_to_state(
        b: *const u8,
        len: usize,
        fields: *mut u8,
        n: usize,
        s0: *mut u8,
        n0: usize,
        s1: *mut u8,
        n1: usize,
        s2: *mut u8,
        n2: usize,
        s3: *mut u8,
        n3: usize,
        s4: *mut u8,
        n4: usize,
        s5: *mut u8,
        n5: usize,
        s6: *mut u8,
        n6: usize,
        s7: *mut u8,
        n7: usize,
        s8: *mut u8,
        n8: usize,
        s9: *mut u8,
        n9: usize,
        s10: *mut u8,
        n10: usize,
        s11: *mut u8,
        n11: usize,
    ) -> u32;
}

/// A state into a block: 0, or the refusal as it is.
pub fn from_state(b: &mut [u8], s: &State) -> u32 {
    from_state_with(b, s, 0, &[])
}

/// The same with what must not matter: bits of the presence above the twelve, and what is lent in the place of a missing span.
#[rustfmt::skip]
pub fn from_state_with(b: &mut [u8], s: &State, above: u16, other: &[u8]) -> u32 {
    let there = |k: usize| u16::from(s.spans[k].is_some()) << k;
    let present = (0..12).map(there).sum::<u16>() | above << 12;
    let span = |k: usize| s.spans[k].as_deref().unwrap_or(other);
    let (at, n) = (|k: usize| span(k).as_ptr(), |k: usize| span(k).len());
    let (fields, len) = (s.fields.as_ptr(), s.fields.len());
    unsafe {
        probe_from_state(
            b.as_mut_ptr(), b.len(), fields, len, present,
            at(0), n(0), at(1), n(1), at(2), n(2), at(3), n(3), at(4), n(4), at(5), n(5),
            at(6), n(6), at(7), n(7), at(8), n(8), at(9), n(9), at(10), n(10), at(11), n(11),
        )
    }
}

/// What is lent to `to_state`: the fields, and then the spans.
pub type Lent = [Vec<u8>; 13];

/// The room that each must have.
pub const ROOM: Lengths = {
    let mut room = [12; 13];
    let mut k = 0;
    while k < 12 {
        room[k + 1] = SPANS[k].1;
        k += 1;
    }
    room
};

/// Buffers in which a byte that is written, or moved, is seen.
pub fn lent(lengths: Lengths) -> Lent {
    lengths.map(marked)
}

/// A block as a state: which spans are there, a bit each, or the refusal with `port::REFUSED`.
#[rustfmt::skip]
pub fn to_state(b: &[u8], lent: &mut Lent) -> u32 {
    let n = lent.each_ref().map(Vec::len);
    let at = lent.each_mut().map(|l| l.as_mut_ptr());
    unsafe {
        probe_to_state(
            b.as_ptr(), b.len(), at[0], n[0],
            at[1], n[1], at[2], n[2], at[3], n[3], at[4], n[4], at[5], n[5], at[6], n[6],
            at[7], n[7], at[8], n[8], at[9], n[9], at[10], n[10], at[11], n[11], at[12], n[12],
        )
    }
}

/// The state that a block is by our call, put together as a caller does: by the presence, and the packets by those received.
pub fn out(b: &[u8]) -> Result<State, String> {
    let mut lent = lent(ROOM);
    let told = to_state(b, &mut lent);
    if told >= 1 << 12 {
        return Err(format!("to_state: {told:X}"));
    }
    let [fields, spans @ ..] = lent;
    let received = usize::from(fields[RECEIVED]);
    let mut k = 0..12;
    let mut spans = spans.map(|data| (told >> k.next().unwrap() & 1 == 1).then_some(data));
    spans[span::PACKETS]
        .iter_mut()
        .for_each(|data| data.truncate(16 * received));
    Ok(State { fields, spans })
}

// ---- how two states are compared, and how one is made small and shown

fn show_span(data: &Option<Vec<u8>>) -> String {
    match data {
        None => "missing".to_string(),
        Some(data) => Bytes(data.clone()).show(),
    }
}

impl State {
    /// The first field or span that is not as it is due, or nothing.
    pub fn is(&self, due: &State) -> Result<(), String> {
        if self.fields != due.fields {
            let (is, due) = (&self.fields, &due.fields);
            return Err(format!("fields {is:02X?}, not {due:02X?}"));
        }
        let Some(k) = (0..12).find(|k| self.spans[*k] != due.spans[*k]) else {
            return Ok(());
        };
        let (is, due) = (show_span(&self.spans[k]), show_span(&due.spans[k]));
        Err(format!("{}: {is}\n    not {due}", SPANS[k].0))
    }
}

/// Towards the state of `new`: whole spans, runs of their bytes, then the fields.
impl Shrink for State {
    fn shrink(&mut self, fails: Fails<Self>) {
        let plain = given(&new());
        for k in 0..12 {
            let mut other = self.clone();
            other.spans[k] = plain.spans[k].clone();
            if fails(&other) {
                *self = other;
            } else if let Some(data) = self.spans[k].clone() {
                let mut bytes = Bytes(data);
                bytes.shrink(&mut |bytes| {
                    let mut other = self.clone();
                    other.spans[k] = Some(bytes.0.clone());
                    fails(&other)
                });
                self.spans[k] = Some(bytes.0);
            }
        }
        for at in 0..self.fields.len() {
            let mut byte = self.fields[at];
            byte.shrink(&mut |byte| {
                let mut other = self.clone();
                other.fields[at] = *byte;
                fails(&other)
            });
            self.fields[at] = byte;
        }
    }

    fn show(&self) -> String {
        let plain = given(&new());
        let mut text = format!("fields {:02X?}", self.fields);
        for k in (0..12).filter(|k| self.spans[*k] != plain.spans[*k]) {
            text += &format!("\n    {}: {}", SPANS[k].0, show_span(&self.spans[k]));
        }
        text + "\n    the other spans as of `new`"
    }
}
