//! The unit, and what its methods take and answer.

use crate::{
    BLOCK, BorderMapEntry, COMMAND, PACKET, PICTURE, Refusal, Rgb555, SCREEN, State, TILE, TILES,
    WIDTH, calls,
};
use std::fmt;

// where bytes and parts stand in the block, as include/sporedrift.h has them
const JOYPAD_INDEX_AT: usize = 1;
const JOYPAD_MASK_AT: usize = 2;
const COUNTDOWN_AT: usize = 10;
const TRANSFER_AT: usize = 11;
const LIVE_AT: usize = 8_420;
const FROZEN_AT: usize = 14_180;
const TILES_AT: usize = 19_940;

/// What the screen's part of the picture shows, as the command MASK_EN sets it.
///
/// ```
/// use sporedrift::{MaskMode, Unit};
///
/// assert_eq!(Unit::new().mask_mode(), MaskMode::Shown);
/// assert_eq!(MaskMode::Backdrop.number(), 3);
/// ```
#[derive(Clone, Copy, Debug, PartialEq, Eq, Hash)]
pub enum MaskMode {
    /// 0: the screens of the game.
    Shown,
    /// 1: the screen that stood there when it was frozen.
    Frozen,
    /// 2: black.
    Black,
    /// 3: the backdrop's colour.
    Backdrop,
}

impl MaskMode {
    /// The mode's number, as the block holds it.
    pub const fn number(self) -> u8 {
        self as u8
    }

    pub(crate) fn of(number: u32) -> Self {
        match number {
            0 => MaskMode::Shown,
            1 => MaskMode::Frozen,
            2 => MaskMode::Black,
            _ => MaskMode::Backdrop,
        }
    }
}

/// What a screen brings to the unit when a transfer lands.
///
/// ```
/// use sporedrift::Transfer;
///
/// assert_eq!(Transfer::BorderTiles { upper_half: true }.number(), 3);
/// ```
#[derive(Clone, Copy, Debug, PartialEq, Eq, Hash)]
pub enum Transfer {
    /// 0: the 512 system palettes (PAL_TRN).
    Palettes,
    /// 1: the 45 attribute files (ATTR_TRN).
    AttributeFiles,
    /// 2 and 3: half of the border's tiles (CHR_TRN).
    BorderTiles {
        /// Tiles 128 to 255; else 0 to 127.
        upper_half: bool,
    },
    /// 4: the border's map and palettes (PCT_TRN).
    BorderMap,
}

impl Transfer {
    /// The kind's number, as the block holds it.
    pub const fn number(self) -> u8 {
        match self {
            Transfer::Palettes => 0,
            Transfer::AttributeFiles => 1,
            Transfer::BorderTiles { upper_half } => 2 + upper_half as u8,
            Transfer::BorderMap => 4,
        }
    }

    pub(crate) fn of(number: u32) -> Self {
        match number {
            0 => Transfer::Palettes,
            1 => Transfer::AttributeFiles,
            2 | 3 => Transfer::BorderTiles {
                upper_half: number == 3,
            },
            _ => Transfer::BorderMap,
        }
    }
}

/// A command that the unit received and carried out: one to seven packets of sixteen bytes. It prints as `replay` prints it, in
/// upper-case hexadecimal.
///
/// ```
/// use sporedrift::{Unit, encode};
///
/// let mut unit = Unit::post_boot();
/// let command = unit.play(&encode(&[0xF1; 16])?).command.expect("it is complete");
/// assert_eq!((command.code(), command.packets()), (0x1E, 1));
/// assert_eq!(command.to_string(), "F1".repeat(16));
/// # Ok::<(), sporedrift::Refusal>(())
/// ```
#[derive(Clone, Copy)]
pub struct Command {
    bytes: [u8; COMMAND],
    packets: u8,
}

impl Command {
    fn of(bytes: [u8; COMMAND], packets: u32) -> Option<Self> {
        (packets != 0).then_some(Command {
            bytes,
            packets: packets as u8,
        })
    }

    /// Its bytes, 16 for each packet.
    pub fn as_bytes(&self) -> &[u8] {
        &self.bytes[..self.packets() * PACKET]
    }

    /// How many packets it is, 1 to 7.
    pub const fn packets(&self) -> usize {
        self.packets as usize
    }

    /// Which command it is: the upper five bits of its first byte.
    pub const fn code(&self) -> u8 {
        self.bytes[0] >> 3
    }
}

impl AsRef<[u8]> for Command {
    fn as_ref(&self) -> &[u8] {
        self.as_bytes()
    }
}

impl PartialEq for Command {
    fn eq(&self, other: &Self) -> bool {
        self.as_bytes() == other.as_bytes()
    }
}

impl Eq for Command {}

impl fmt::Display for Command {
    fn fmt(&self, f: &mut fmt::Formatter<'_>) -> fmt::Result {
        self.as_bytes()
            .iter()
            .try_for_each(|byte| write!(f, "{byte:02X}"))
    }
}

impl fmt::Debug for Command {
    fn fmt(&self, f: &mut fmt::Formatter<'_>) -> fmt::Result {
        write!(f, "Command({self})")
    }
}

/// What [`Unit::play`] did.
#[derive(Clone, Copy, Debug, PartialEq, Eq)]
#[must_use = "the writes that it did not take go into the next call"]
pub struct Played {
    /// How many of the writes it took. What is left goes into the next call.
    pub taken: usize,
    /// The command that the last of these writes completed, which is carried out.
    pub command: Option<Command>,
}

/// A unit and its whole state.
///
/// Two units are equal if their blocks are. A unit is saved as [`Unit::as_bytes`] and taken up again with [`Unit::load`]:
///
/// ```
/// use sporedrift::Unit;
///
/// let mut unit = Unit::post_boot();
/// unit.write_joypad(0x00);
/// let saved = unit.as_bytes().to_vec();
/// assert_eq!(Unit::load(&saved), Ok(unit));
/// ```
#[derive(Clone, PartialEq, Eq)]
pub struct Unit {
    block: Box<[u8; BLOCK]>,
}

/// Takes an answer apart that only an invalid block could make a refusal.
fn sure<T>(answer: Result<T, Refusal>) -> T {
    answer.expect("a unit's block is valid")
}

impl Unit {
    /// A fresh unit.
    pub fn new() -> Self {
        Self::made_by(calls::new)
    }

    /// A fresh unit as the boot ROM leaves it. A log starts from this one.
    pub fn post_boot() -> Self {
        Self::made_by(calls::post_boot)
    }

    fn made_by(call: fn(&mut [u8]) -> Result<(), Refusal>) -> Self {
        let zeros = vec![0; BLOCK].into_boxed_slice();
        let mut block: Box<[u8; BLOCK]> = zeros.try_into().expect("it has this length");
        sure(call(&mut block[..]));
        Unit { block }
    }

    /// A unit that was saved. [`Refusal::Length`] or [`Refusal::Rule`] if these bytes are not the block of one.
    ///
    /// ```
    /// use sporedrift::{Refusal, Rule, Unit};
    ///
    /// let mut saved = Unit::new().as_bytes().to_vec();
    /// assert!(Unit::load(&saved).is_ok());
    /// saved[0] = 4; // no mask mode
    /// assert_eq!(Unit::load(&saved), Err(Refusal::Rule { rule: Rule::V1, offset: 0 }));
    /// ```
    pub fn load(saved: &[u8]) -> Result<Self, Refusal> {
        calls::check(saved)?;
        let copy: Box<[u8]> = saved.into();
        let block = copy.try_into().map_err(|_| Refusal::Length)?;
        Ok(Unit { block })
    }

    /// A unit that the emulator saved. [`Refusal::Span`] or [`Refusal::Cell`] if a span or a cell is not as it must be; [`Refusal::Rule`]
    /// of the block that it would become: the emulator takes states that no valid block can hold.
    ///
    /// Of a shade the low two bits are taken; beside a countdown of 0 a kind of 0 to 4 means nothing; a preset that is not in force is
    /// not looked at; and where one of the border's three spans is missing, the border is empty and the other two are not looked at.
    ///
    /// ```
    /// use sporedrift::{Refusal, Rule, Unit};
    ///
    /// let mut state = Unit::post_boot().to_state();
    /// assert_eq!(Unit::from_state(&state)?, Unit::post_boot());
    /// state.mask = 1; // a frozen screen, and no capture of it
    /// assert_eq!(Unit::from_state(&state), Err(Refusal::Rule { rule: Rule::V6, offset: 0 }));
    /// state.capture = None;
    /// assert_eq!(Unit::from_state(&state), Err(Refusal::Span));
    /// # Ok::<(), Refusal>(())
    /// ```
    pub fn from_state(state: &State) -> Result<Self, Refusal> {
        let mut unit = Unit::new();
        state.put(&mut unit.block[..])?;
        Ok(unit)
    }

    /// The unit as a state of the emulator. [`Unit::from_state`] makes the same unit of it.
    ///
    /// ```
    /// use sporedrift::{Unit, encode};
    ///
    /// let mut unit = Unit::post_boot();
    /// assert_eq!(unit.to_state().transfer, None); // two fields that the emulator's record must not have
    /// let mut pct_trn = [0; 16];
    /// pct_trn[0] = 0xA1;
    /// unit.play_all(&encode(&pct_trn)?, |_| ());
    /// assert_eq!(unit.to_state().transfer, Some((3, 4)));
    /// assert_eq!(Unit::from_state(&unit.to_state())?, unit);
    /// # Ok::<(), sporedrift::Refusal>(())
    /// ```
    pub fn to_state(&self) -> State {
        sure(State::of(&self.block[..]))
    }

    /// The unit's block: as it is saved, and to look at.
    pub fn as_bytes(&self) -> &[u8; BLOCK] {
        &self.block
    }

    /// A write to the joypad register: the command that it completes, which is carried out.
    ///
    /// ```
    /// use sporedrift::{Unit, encode};
    ///
    /// let mut unit = Unit::post_boot();
    /// let command = [0xF1; 16];
    /// let writes = encode(&command)?;
    /// // the command is complete at its stop pulse; the line's release is one more write
    /// let at = writes.iter().position(|write| unit.write_joypad(*write).is_some());
    /// assert_eq!(at, Some(258));
    /// # Ok::<(), sporedrift::Refusal>(())
    /// ```
    pub fn write_joypad(&mut self, value: u8) -> Option<Command> {
        let mut bytes = [0; COMMAND];
        let packets = sure(calls::write_joypad(&mut self.block[..], value, &mut bytes));
        Command::of(bytes, packets.unwrap_or(0))
    }

    /// Joypad writes in a row, up to and with the first that completes a command. It does what [`Unit::write_joypad`] does with one
    /// after the other, and is much quicker. Of more than [`PLAY`](crate::PLAY) writes it takes that many.
    ///
    /// ```
    /// use sporedrift::{Unit, encode};
    ///
    /// let mut unit = Unit::post_boot();
    /// let writes = encode(&[0xF1; 16])?;
    /// let played = unit.play(&writes);
    /// assert_eq!(played.taken, 259);
    /// assert_eq!(played.command.unwrap().as_bytes(), [0xF1; 16]);
    /// assert_eq!(unit.play(&writes[played.taken..]).command, None);
    /// # Ok::<(), sporedrift::Refusal>(())
    /// ```
    pub fn play(&mut self, writes: &[u8]) -> Played {
        let mut bytes = [0; COMMAND];
        let (taken, packets) = sure(calls::play(&mut self.block[..], writes, &mut bytes));
        Played {
            taken,
            command: Command::of(bytes, packets),
        }
    }

    /// All of these joypad writes. `told` is called with each command that they complete, in order, after it is carried out.
    ///
    /// ```
    /// use sporedrift::{Unit, encode};
    ///
    /// let mut writes = encode(&[0xF1; 16])?;
    /// writes.extend(encode(&[0xF9; 16])?);
    /// let mut codes = vec![];
    /// Unit::post_boot().play_all(&writes, |command| codes.push(command.code()));
    /// assert_eq!(codes, [0x1E, 0x1F]);
    /// # Ok::<(), sporedrift::Refusal>(())
    /// ```
    pub fn play_all(&mut self, writes: &[u8], mut told: impl FnMut(Command)) {
        let mut left = writes;
        while !left.is_empty() {
            let played = self.play(left);
            left = &left[played.taken..];
            played.command.into_iter().for_each(&mut told);
        }
    }

    /// A screen that the game shows: what it makes land. [`Refusal::Screen`] if it is not [`SCREEN`] bytes.
    ///
    /// ```
    /// use sporedrift::{SCREEN, Transfer, Unit, encode};
    ///
    /// let mut unit = Unit::post_boot();
    /// let mut pct_trn = [0; 16];
    /// pct_trn[0] = 0xA1;
    /// unit.play_all(&encode(&pct_trn)?, |_| ());
    /// let screen = [0; SCREEN];
    /// assert_eq!(unit.update_screen(&screen)?, None);
    /// assert_eq!(unit.update_screen(&screen)?, None);
    /// assert_eq!(unit.update_screen(&screen)?, Some(Transfer::BorderMap));
    /// # Ok::<(), sporedrift::Refusal>(())
    /// ```
    pub fn update_screen(&mut self, screen: &[u8]) -> Result<Option<Transfer>, Refusal> {
        calls::update_screen(&mut self.block[..], screen)
    }

    /// What the screen's part of the picture shows.
    pub fn mask_mode(&self) -> MaskMode {
        sure(calls::mask_mode(&self.block[..]))
    }

    /// Which pad the game reads next, from 0, as MLT_REQ and the polls leave it.
    ///
    /// ```
    /// use sporedrift::{Unit, encode};
    ///
    /// let mut unit = Unit::post_boot();
    /// let mut mlt_req = [0; 16];
    /// mlt_req[..2].copy_from_slice(&[0x89, 0x01]); // two pads
    /// unit.play_all(&encode(&mlt_req)?, |_| ());
    /// assert_eq!(unit.joypad_mask(), 1);
    /// let first = unit.joypad_index();
    /// unit.play_all(&[0x10, 0x30], |_| ()); // a poll
    /// assert_ne!(unit.joypad_index(), first);
    /// # Ok::<(), sporedrift::Refusal>(())
    /// ```
    pub fn joypad_index(&self) -> u8 {
        self.block[JOYPAD_INDEX_AT]
    }

    /// The bits that the index may have: 0 for one pad, 1 for two, 3 for four.
    pub fn joypad_mask(&self) -> u8 {
        self.block[JOYPAD_MASK_AT]
    }

    /// The transfer that is pending, and at which screen from now it lands: 1 is the next.
    ///
    /// ```
    /// use sporedrift::{Transfer, Unit, encode};
    ///
    /// let mut unit = Unit::post_boot();
    /// let mut pal_trn = [0; 16];
    /// pal_trn[0] = 0x59;
    /// unit.play_all(&encode(&pal_trn)?, |_| ());
    /// assert_eq!(unit.pending(), Some((3, Transfer::Palettes)));
    /// # Ok::<(), sporedrift::Refusal>(())
    /// ```
    pub fn pending(&self) -> Option<(u8, Transfer)> {
        let kind = || Transfer::of(self.block[TRANSFER_AT].into());
        match self.block[COUNTDOWN_AT] {
            0 => None,
            screens => Some((screens, kind())),
        }
    }

    /// The colour of everything that nothing covers.
    ///
    /// ```
    /// use sporedrift::{Rgb555, Unit};
    ///
    /// assert_eq!(Unit::new().backdrop(), Rgb555(0x67BF));
    /// ```
    pub fn backdrop(&self) -> Rgb555 {
        sure(calls::backdrop(&self.block[..]))
    }

    /// The colour of a shade (0 to 3) at column x (below 160) of row y (below 144) of the screen, whatever the mask.
    /// [`Refusal::Place`] if one of them is outside.
    ///
    /// ```
    /// use sporedrift::{Refusal, Rgb555, Unit};
    ///
    /// let unit = Unit::new();
    /// assert_eq!(unit.color_at(159, 143, 0), Ok(Rgb555(0x67BF)));
    /// assert_eq!(unit.color_at(160, 143, 0), Err(Refusal::Place));
    /// ```
    pub fn color_at(&self, x: usize, y: usize, shade: u8) -> Result<Rgb555, Refusal> {
        calls::color_at(&self.block[..], x, y, shade)
    }

    /// The border's map word at a column (below 32) of a row (below 28). [`Refusal::Place`] outside.
    ///
    /// ```
    /// use sporedrift::{BorderMapEntry, Unit};
    ///
    /// assert_eq!(Unit::new().map_entry(31, 27), Ok(BorderMapEntry(0)));
    /// ```
    pub fn map_entry(&self, column: usize, row: usize) -> Result<BorderMapEntry, Refusal> {
        calls::map_entry(&self.block[..], column, row)
    }

    /// The border's colour at column x (below 256) of row y (below 224) of the picture, none where it is transparent.
    /// [`Refusal::Place`] outside.
    ///
    /// ```
    /// assert_eq!(sporedrift::Unit::new().border_color_at(0, 0), Ok(None));
    /// ```
    pub fn border_color_at(&self, x: usize, y: usize) -> Result<Option<Rgb555>, Refusal> {
        calls::border_color_at(&self.block[..], x, y)
    }

    /// The capture that is displayed, [`SCREEN`] bytes: the frozen one where the mask mode is frozen, else the live one.
    ///
    /// ```
    /// use sporedrift::{SCREEN, Unit};
    ///
    /// let mut unit = Unit::post_boot();
    /// unit.update_screen(&[0x1B; SCREEN])?;
    /// assert_eq!(unit.displayed_screen(), [0x1B; SCREEN]);
    /// # Ok::<(), sporedrift::Refusal>(())
    /// ```
    pub fn displayed_screen(&self) -> &[u8] {
        let live = &self.block[LIVE_AT..][..SCREEN];
        let frozen = &self.block[FROZEN_AT..][..SCREEN];
        calls::displayed_screen(live, frozen, self.mask_mode().number())
    }

    /// The [`TILE`] bytes of a tile of the border, none if its number is over 255.
    ///
    /// ```
    /// use sporedrift::{TILE, Unit};
    ///
    /// assert_eq!(Unit::new().tile(255), Some(&[0; TILE][..]));
    /// assert_eq!(Unit::new().tile(256), None);
    /// ```
    pub fn tile(&self, n: usize) -> Option<&[u8]> {
        let tile = calls::tile(&self.block[TILES_AT..][..TILES], n);
        (tile.len() == TILE).then_some(tile)
    }

    /// Row y (below 224) of the picture. [`Refusal::Place`] outside.
    ///
    /// ```
    /// use sporedrift::{HEIGHT, Refusal, Rgb555, Unit, WIDTH};
    ///
    /// assert_eq!(Unit::new().row(0), Ok([Rgb555(0x67BF); WIDTH]));
    /// assert_eq!(Unit::new().row(HEIGHT), Err(Refusal::Place));
    /// ```
    pub fn row(&self, y: usize) -> Result<[Rgb555; WIDTH], Refusal> {
        let mut words = [Rgb555(0); WIDTH];
        calls::row(&self.block[..], y, &mut words)?;
        Ok(words)
    }

    /// The picture, row by row: [`PICTURE`] words.
    ///
    /// ```
    /// let unit = sporedrift::Unit::post_boot();
    /// let picture = unit.picture();
    /// let rgb: Vec<u8> = picture.iter().flat_map(|word| word.to_rgb8()).collect();
    /// assert_eq!(rgb.len(), 256 * 224 * 3);
    /// assert_eq!(picture[100 * 256..][..256], unit.row(100)?);
    /// # Ok::<(), sporedrift::Refusal>(())
    /// ```
    pub fn picture(&self) -> Vec<Rgb555> {
        let mut words = vec![Rgb555(0); PICTURE];
        sure(calls::picture(&self.block[..], &mut words));
        words
    }

    /// The picture into memory of the caller's own, for who draws one after the other.
    ///
    /// ```
    /// use sporedrift::{PICTURE, Rgb555, Unit};
    ///
    /// let unit = Unit::new();
    /// let mut words = [Rgb555(0); PICTURE];
    /// unit.picture_into(&mut words);
    /// assert_eq!(words[..], unit.picture());
    /// ```
    pub fn picture_into(&self, words: &mut [Rgb555; PICTURE]) {
        sure(calls::picture(&self.block[..], &mut words[..]));
    }
}

impl Default for Unit {
    /// As [`Unit::new`].
    fn default() -> Self {
        Unit::new()
    }
}

impl AsRef<[u8]> for Unit {
    fn as_ref(&self) -> &[u8] {
        self.as_bytes()
    }
}

impl TryFrom<&[u8]> for Unit {
    type Error = Refusal;

    /// As [`Unit::load`].
    fn try_from(saved: &[u8]) -> Result<Self, Refusal> {
        Unit::load(saved)
    }
}

impl fmt::Debug for Unit {
    fn fmt(&self, f: &mut fmt::Formatter<'_>) -> fmt::Result {
        f.debug_struct("Unit")
            .field("mask_mode", &self.mask_mode())
            .field("joypad_index", &self.joypad_index())
            .field("pending", &self.pending())
            .field("backdrop", &self.backdrop())
            .finish_non_exhaustive()
    }
}
