//! The calls of include/sporedrift.h over slices of the caller's own: the same calls and the same refusals, safe. No call asks anything
//! of its caller but that a slice is one, which Rust sees to; none keeps what it is lent, and a refused call changes none of it. Each has
//! its refusals in the order in which they are tested, and the first that applies is given.
//!
//! ```
//! use sporedrift::{BLOCK, Refusal, Rule, calls};
//!
//! let mut block = [0; BLOCK];
//! assert_eq!(calls::check(&block), Ok(()));
//! block[13] = 1;
//! assert_eq!(calls::check(&block), Err(Refusal::Rule { rule: Rule::V2, offset: 13 }));
//! calls::post_boot(&mut block)?;
//! assert_eq!(calls::check(&block), Ok(()));
//! # Ok::<(), Refusal>(())
//! ```

use crate::{BorderMapEntry, MaskMode, Refusal, Rgb555, TILE, Transfer};

/// The functions themselves; a slice is a pointer and a length, an answer one number.
mod c {
    unsafe extern "C" {
        pub fn sporedrift_new(block: *mut u8, len: usize) -> u32;
        pub fn sporedrift_post_boot(block: *mut u8, len: usize) -> u32;
        pub fn sporedrift_check(block: *const u8, len: usize) -> u32;
        pub fn sporedrift_write_joypad(
            block: *mut u8,
            len: usize,
            value: u8,
            command: *mut u8,
            room: usize,
        ) -> u32;
        pub fn sporedrift_play(
            block: *mut u8,
            len: usize,
            writes: *const u8,
            writes_len: usize,
            command: *mut u8,
            room: usize,
        ) -> u32;
        pub fn sporedrift_update_screen(
            block: *mut u8,
            len: usize,
            screen: *const u8,
            screen_len: usize,
        ) -> u32;
        pub fn sporedrift_mask_mode(block: *const u8, len: usize) -> u32;
        pub fn sporedrift_backdrop(block: *const u8, len: usize) -> u32;
        pub fn sporedrift_color_at(
            block: *const u8,
            len: usize,
            x: usize,
            y: usize,
            shade: u8,
        ) -> u32;
        pub fn sporedrift_map_entry(block: *const u8, len: usize, column: usize, row: usize)
        -> u32;
        pub fn sporedrift_border_color_at(block: *const u8, len: usize, x: usize, y: usize) -> u32;
        pub fn sporedrift_row(
            block: *const u8,
            len: usize,
            y: usize,
            out: *mut u16,
            room: usize,
        ) -> u32;
        pub fn sporedrift_picture(block: *const u8, len: usize, out: *mut u16, room: usize) -> u32;
        pub fn sporedrift_to_rgb8(word: u16) -> u32;
        pub fn sporedrift_displayed_screen(
            live: *const u8,
            live_len: usize,
            frozen: *const u8,
            frozen_len: usize,
            mode: u8,
        ) -> u32;
        pub fn sporedrift_tile(tiles: *const u8, len: usize, n: usize) -> u32;
        pub fn sporedrift_encode(command: *const u8, len: usize, out: *mut u8, room: usize) -> u32;
        pub fn sporedrift_verdict(command: *const u8, len: usize) -> u32;
        pub fn sporedrift_page_screen(
            page: *const u8,
            len: usize,
            screen: *mut u8,
            room: usize,
        ) -> u32;
        pub fn sporedrift_parse_line(
            text: *const u8,
            len: usize,
            bytes: *mut u8,
            room: usize,
        ) -> u32;
        pub fn sporedrift_from_spans(
            block: *mut u8,
            len: usize,
            fields: *const u8,
            fields_len: usize,
            present: u16,
            palettes: *const u8,
            palettes_len: usize,
            attribute_map: *const u8,
            attribute_map_len: usize,
            system_palettes: *const u8,
            system_palettes_len: usize,
            attribute_files: *const u8,
            attribute_files_len: usize,
            packet: *const u8,
            packet_len: usize,
            packets: *const u8,
            packets_len: usize,
            capture: *const u8,
            capture_len: usize,
            frozen_capture: *const u8,
            frozen_capture_len: usize,
            preset: *const u8,
            preset_len: usize,
            border_tiles: *const u8,
            border_tiles_len: usize,
            border_map: *const u8,
            border_map_len: usize,
            border_palettes: *const u8,
            border_palettes_len: usize,
        ) -> u32;
        pub fn sporedrift_to_spans(
            block: *const u8,
            len: usize,
            fields: *mut u8,
            room: usize,
            palettes: *mut u8,
            palettes_len: usize,
            attribute_map: *mut u8,
            attribute_map_len: usize,
            system_palettes: *mut u8,
            system_palettes_len: usize,
            attribute_files: *mut u8,
            attribute_files_len: usize,
            packet: *mut u8,
            packet_len: usize,
            packets: *mut u8,
            packets_len: usize,
            capture: *mut u8,
            capture_len: usize,
            frozen_capture: *mut u8,
            frozen_capture_len: usize,
            preset: *mut u8,
            preset_len: usize,
            border_tiles: *mut u8,
            border_tiles_len: usize,
            border_map: *mut u8,
            border_map_len: usize,
            border_palettes: *mut u8,
            border_palettes_len: usize,
        ) -> u32;
        pub fn sporedrift_version() -> u32;
    }
}

// ---- an answer: 0 in the low byte for a value, which stands above it; a refusal's number, with its offset above it; or 80 hex for none

const NONE: u32 = 0x80;

fn optional(answer: u32) -> Result<Option<u32>, Refusal> {
    match answer & 0xFF {
        0 => Ok(Some(answer >> 8)),
        NONE => Ok(None),
        _ => Err(Refusal::of(answer)),
    }
}

fn value(answer: u32) -> Result<u32, Refusal> {
    Ok(optional(answer)?.expect("this call has no answer that is none"))
}

fn done(answer: u32) -> Result<(), Refusal> {
    value(answer).map(drop)
}

fn colour(word: u32) -> Rgb555 {
    Rgb555(word as u16)
}

// ---- blocks

/// Makes the block a fresh one. Refusal 1.
pub fn new(block: &mut [u8]) -> Result<(), Refusal> {
    done(unsafe { c::sporedrift_new(block.as_mut_ptr(), block.len()) })
}

/// Makes the block a fresh one as the boot ROM leaves it. Refusal 1.
pub fn post_boot(block: &mut [u8]) -> Result<(), Refusal> {
    done(unsafe { c::sporedrift_post_boot(block.as_mut_ptr(), block.len()) })
}

/// Whether a saved block can be taken up. Refusals 1, 21 to 26.
pub fn check(block: &[u8]) -> Result<(), Refusal> {
    done(unsafe { c::sporedrift_check(block.as_ptr(), block.len()) })
}

// ---- states of the emulator

/// A state into a block, over whatever the block held. The fields are [`STATE_FIELDS`](crate::STATE_FIELDS) bytes, the spans stand in the
/// order of [`STATE_SPANS`](crate::STATE_SPANS), and one that is none is missing. [`Unit::from_state`](crate::Unit::from_state) does it
/// with names. Refusals 1, 8, 9, 21 to 26.
///
/// ```
/// use sporedrift::{BLOCK, Refusal, STATE_FIELDS, STATE_SPANS, calls};
///
/// let zeros = STATE_SPANS.map(|(_, most)| vec![0; most]);
/// let mut spans = zeros.each_ref().map(|bytes| Some(&bytes[..]));
/// spans[5] = Some(&[]); // no packet is in
/// spans[7] = None; // no screen is frozen
/// let mut block = [0xFF; BLOCK];
/// assert_eq!(calls::from_spans(&mut block, &[0; STATE_FIELDS], spans), Ok(()));
/// assert_eq!(block, [0; BLOCK]);
/// spans[0] = None;
/// assert_eq!(calls::from_spans(&mut block, &[0; STATE_FIELDS], spans), Err(Refusal::Span));
/// ```
pub fn from_spans(
    block: &mut [u8],
    fields: &[u8],
    spans: [Option<&[u8]>; 12],
) -> Result<(), Refusal> {
    let present = (0..12).filter(|k| spans[*k].is_some());
    let present = present.fold(0, |bits: u16, k| bits | 1 << k);
    let s = spans.map(Option::unwrap_or_default);
    done(unsafe {
        c::sporedrift_from_spans(
            block.as_mut_ptr(),
            block.len(),
            fields.as_ptr(),
            fields.len(),
            present,
            s[0].as_ptr(),
            s[0].len(),
            s[1].as_ptr(),
            s[1].len(),
            s[2].as_ptr(),
            s[2].len(),
            s[3].as_ptr(),
            s[3].len(),
            s[4].as_ptr(),
            s[4].len(),
            s[5].as_ptr(),
            s[5].len(),
            s[6].as_ptr(),
            s[6].len(),
            s[7].as_ptr(),
            s[7].len(),
            s[8].as_ptr(),
            s[8].len(),
            s[9].as_ptr(),
            s[9].len(),
            s[10].as_ptr(),
            s[10].len(),
            s[11].as_ptr(),
            s[11].len(),
        )
    })
}

/// A block as a state, at the front of what is lent: which spans are there, a bit each, from the least significant on. Those that are not
/// keep all their bytes. Every span needs room for the most that it can have, and the fields need [`STATE_FIELDS`](crate::STATE_FIELDS)
/// bytes. [`Unit::to_state`](crate::Unit::to_state) does it with names. Refusals 1, 21 to 26, 6.
///
/// ```
/// use sporedrift::{STATE_FIELDS, STATE_SPANS, Unit, calls};
///
/// let (unit, mut fields) = (Unit::post_boot(), [0xFF; STATE_FIELDS]);
/// let mut room = STATE_SPANS.map(|(_, most)| vec![0; most]);
/// let lent = room.each_mut().map(|bytes| &mut bytes[..]);
/// let present = calls::to_spans(unit.as_bytes(), &mut fields, lent)?;
/// assert_eq!(present, 0xF7F); // all but the frozen capture
/// assert_eq!(fields, [0, 0, 0, 1, 1, 0, 0, 0, 0, 1, 0, 0]);
/// # Ok::<(), sporedrift::Refusal>(())
/// ```
pub fn to_spans(block: &[u8], fields: &mut [u8], spans: [&mut [u8]; 12]) -> Result<u16, Refusal> {
    let s = spans;
    let answer = unsafe {
        c::sporedrift_to_spans(
            block.as_ptr(),
            block.len(),
            fields.as_mut_ptr(),
            fields.len(),
            s[0].as_mut_ptr(),
            s[0].len(),
            s[1].as_mut_ptr(),
            s[1].len(),
            s[2].as_mut_ptr(),
            s[2].len(),
            s[3].as_mut_ptr(),
            s[3].len(),
            s[4].as_mut_ptr(),
            s[4].len(),
            s[5].as_mut_ptr(),
            s[5].len(),
            s[6].as_mut_ptr(),
            s[6].len(),
            s[7].as_mut_ptr(),
            s[7].len(),
            s[8].as_mut_ptr(),
            s[8].len(),
            s[9].as_mut_ptr(),
            s[9].len(),
            s[10].as_mut_ptr(),
            s[10].len(),
            s[11].as_mut_ptr(),
            s[11].len(),
        )
    };
    value(answer).map(|present| present as u16)
}

// ---- what the game does

/// A write to the joypad register: the packets of the command that it completes, whose bytes are then at the front of `command`.
/// Refusals 1, 21 to 26, 6.
pub fn write_joypad(
    block: &mut [u8],
    value: u8,
    command: &mut [u8],
) -> Result<Option<u32>, Refusal> {
    optional(unsafe {
        c::sporedrift_write_joypad(
            block.as_mut_ptr(),
            block.len(),
            value,
            command.as_mut_ptr(),
            command.len(),
        )
    })
}

/// Joypad writes in a row, up to and with the first that completes a command: how many were taken, and the packets of the command,
/// whose bytes are then at the front of `command`; 0 if none was completed. Refusals 1, 21 to 26, 6.
///
/// ```
/// use sporedrift::{BLOCK, COMMAND, calls};
///
/// let (mut block, mut command) = ([0; BLOCK], [0; COMMAND]);
/// calls::post_boot(&mut block)?;
/// let mut writes = [0; 260];
/// calls::encode(&[0xF1; 16], &mut writes)?;
/// assert_eq!(calls::play(&mut block, &writes, &mut command), Ok((259, 1)));
/// assert_eq!(command[..16], [0xF1; 16]);
/// # Ok::<(), sporedrift::Refusal>(())
/// ```
pub fn play(block: &mut [u8], writes: &[u8], command: &mut [u8]) -> Result<(usize, u32), Refusal> {
    let answer = unsafe {
        c::sporedrift_play(
            block.as_mut_ptr(),
            block.len(),
            writes.as_ptr(),
            writes.len(),
            command.as_mut_ptr(),
            command.len(),
        )
    };
    let told = value(answer)?;
    Ok((told as usize / 8, told % 8))
}

/// A screen: the transfer that it makes land. Refusals 1, 21 to 26, 3.
pub fn update_screen(block: &mut [u8], screen: &[u8]) -> Result<Option<Transfer>, Refusal> {
    let answer = unsafe {
        c::sporedrift_update_screen(
            block.as_mut_ptr(),
            block.len(),
            screen.as_ptr(),
            screen.len(),
        )
    };
    Ok(optional(answer)?.map(Transfer::of))
}

// ---- what the unit shows

/// What the screen's part of the picture shows. Refusals 1, 21 to 26.
pub fn mask_mode(block: &[u8]) -> Result<MaskMode, Refusal> {
    value(unsafe { c::sporedrift_mask_mode(block.as_ptr(), block.len()) }).map(MaskMode::of)
}

/// The colour of everything that nothing covers. Refusals 1, 21 to 26.
pub fn backdrop(block: &[u8]) -> Result<Rgb555, Refusal> {
    value(unsafe { c::sporedrift_backdrop(block.as_ptr(), block.len()) }).map(colour)
}

/// The colour of a shade at column x of row y of the screen, whatever the mask. Refusals 1, 21 to 26, 4.
pub fn color_at(block: &[u8], x: usize, y: usize, shade: u8) -> Result<Rgb555, Refusal> {
    value(unsafe { c::sporedrift_color_at(block.as_ptr(), block.len(), x, y, shade) }).map(colour)
}

/// The border's map word at a column of a row. Refusals 1, 21 to 26, 4.
pub fn map_entry(block: &[u8], column: usize, row: usize) -> Result<BorderMapEntry, Refusal> {
    value(unsafe { c::sporedrift_map_entry(block.as_ptr(), block.len(), column, row) })
        .map(|word| BorderMapEntry(word as u16))
}

/// The border's colour at column x of row y of the picture, none where it is transparent. Refusals 1, 21 to 26, 4.
pub fn border_color_at(block: &[u8], x: usize, y: usize) -> Result<Option<Rgb555>, Refusal> {
    let answer = unsafe { c::sporedrift_border_color_at(block.as_ptr(), block.len(), x, y) };
    Ok(optional(answer)?.map(colour))
}

/// Row y of the picture, into the first 256 words of `out`: that number. Refusals 1, 21 to 26, 4, 6.
pub fn row(block: &[u8], y: usize, out: &mut [Rgb555]) -> Result<u32, Refusal> {
    // an Rgb555 is its word (repr(transparent))
    let words: *mut u16 = out.as_mut_ptr().cast();
    value(unsafe { c::sporedrift_row(block.as_ptr(), block.len(), y, words, out.len()) })
}

/// The picture, into the first 57,344 words of `out`: that number. Refusals 1, 21 to 26, 6.
pub fn picture(block: &[u8], out: &mut [Rgb555]) -> Result<u32, Refusal> {
    let words: *mut u16 = out.as_mut_ptr().cast();
    value(unsafe { c::sporedrift_picture(block.as_ptr(), block.len(), words, out.len()) })
}

/// Red, green and blue at eight bits.
pub fn to_rgb8(word: Rgb555) -> [u8; 3] {
    let rgb = unsafe { c::sporedrift_to_rgb8(word.0) } >> 8;
    [(rgb >> 16) as u8, (rgb >> 8) as u8, rgb as u8]
}

/// The capture that a mask mode displays, by its number; the empty part exactly if either is not 5,760 bytes.
pub fn displayed_screen<'a>(live: &'a [u8], frozen: &'a [u8], mode: u8) -> &'a [u8] {
    let answer = unsafe {
        c::sporedrift_displayed_screen(
            live.as_ptr(),
            live.len(),
            frozen.as_ptr(),
            frozen.len(),
            mode,
        )
    };
    match optional(answer) {
        Ok(Some(1)) => frozen,
        Ok(Some(_)) => live,
        _ => &[],
    }
}

/// A tile's 32 bytes. The part is empty if there is no tile of that number, or if other than 8,192 bytes are lent as tiles.
pub fn tile(tiles: &[u8], n: usize) -> &[u8] {
    match optional(unsafe { c::sporedrift_tile(tiles.as_ptr(), tiles.len(), n) }) {
        Ok(Some(start)) => &tiles[start as usize..][..TILE],
        _ => &[],
    }
}

// ---- commands

/// The joypad writes that send a command, at the front of `out`: how many they are. Refusals 5, 6.
pub fn encode(command: &[u8], out: &mut [u8]) -> Result<usize, Refusal> {
    let answer = unsafe {
        c::sporedrift_encode(command.as_ptr(), command.len(), out.as_mut_ptr(), out.len())
    };
    value(answer).map(|writes| writes as usize)
}

/// Whether a command conforms, as [`verdict`](crate::verdict) tells it. Refusal 5.
pub fn verdict(command: &[u8]) -> Result<bool, Refusal> {
    value(unsafe { c::sporedrift_verdict(command.as_ptr(), command.len()) }).map(|told| told == 1)
}

// ---- pages

/// The screen that carries a page, as [`page_screen`](crate::page_screen) tells it, at the front of `screen`: how many bytes it has.
/// Refusals 10, 6.
pub fn page_screen(page: &[u8], screen: &mut [u8]) -> Result<usize, Refusal> {
    let answer = unsafe {
        c::sporedrift_page_screen(page.as_ptr(), page.len(), screen.as_mut_ptr(), screen.len())
    };
    value(answer).map(|bytes| bytes as usize)
}

// ---- logs

/// What the bytes of a line are.
#[derive(Clone, Copy, Debug, PartialEq, Eq, Hash)]
#[non_exhaustive]
pub enum LineKind {
    /// 1: joypad writes.
    Writes,
    /// 2: a screen.
    Screen,
}

/// One line of a log, without its line feed: what its bytes are, and how many of them now stand at the front of `bytes`.
/// Refusals 6, 7.
///
/// ```
/// use sporedrift::calls::{self, LineKind};
///
/// let mut bytes = [0; sporedrift::LINE];
/// assert_eq!(calls::parse_line(b"013020", &mut bytes), Ok((LineKind::Writes, 2)));
/// assert_eq!(bytes[..2], [0x30, 0x20]);
/// ```
pub fn parse_line(text: &[u8], bytes: &mut [u8]) -> Result<(LineKind, usize), Refusal> {
    let answer = unsafe {
        c::sporedrift_parse_line(text.as_ptr(), text.len(), bytes.as_mut_ptr(), bytes.len())
    };
    let told = value(answer)?;
    let kind = match told % 8 {
        1 => LineKind::Writes,
        _ => LineKind::Screen,
    };
    Ok((kind, told as usize / 8))
}

// ---- the library

/// The library's version: 65,536 times its first number, 256 times its second, and its third.
pub fn version() -> u32 {
    (unsafe { c::sporedrift_version() }) >> 8
}
