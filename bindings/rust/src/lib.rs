//! The command unit of the Super Game Boy, proved in Rattle, behind a safe interface.
//!
//! A Game Boy game talks to the Super Game Boy by writes to its joypad register, and sends pages of data as screens. [`Unit`] takes both
//! and draws the picture of 256 by 224 colours:
//!
//! ```
//! use sporedrift::{MaskMode, SCREEN, Unit};
//!
//! let mut unit = Unit::post_boot();
//!
//! // MASK_EN 2: the screen goes black. A game sends a command as joypad writes.
//! let mut command = [0; 16];
//! command[..2].copy_from_slice(&[0xB9, 0x02]);
//! let writes = sporedrift::encode(&command)?;
//! unit.play_all(&writes, |received| assert_eq!(received.as_bytes(), command));
//! assert_eq!(unit.mask_mode(), MaskMode::Black);
//!
//! // A screen of the game: 160 by 144 shades, four to a byte.
//! unit.update_screen(&[0x1B; SCREEN])?;
//! let picture = unit.picture();
//! assert_eq!(picture[112 * 256 + 128].to_rgb8(), [0, 0, 0]);
//! # Ok::<(), sporedrift::Refusal>(())
//! ```
//!
//! A unit's block is always valid, so most of its methods can't fail and answer a plain value. What may be refused is what a caller
//! brings: a saved block, a state of the emulator, a screen, a place, a command, a page, a line of a log. [`Refusal`] says why, and of a
//! saved block also at which byte. [`calls`] has every call of the C header over slices of the caller's own.
//!
//! A unit that the emulator missingno saved is a [`State`]: [`Unit::from_state`] takes it up, [`Unit::to_state`] makes one. What a game has
//! to draw to send a page is told by [`page_screen`].
//!
//! The crate links `libsporedrift`: see its README for where that is looked for.

#![deny(missing_docs, missing_debug_implementations, unsafe_op_in_unsafe_fn)]

pub mod calls;
mod field;
mod line;
mod refusal;
mod state;
mod unit;
mod words;

use std::fmt;

pub use field::field_text;
pub use line::{Line, lines, parse_line};
pub use refusal::{Refusal, Rule};
pub use state::{STATE_FIELDS, STATE_SPANS, State};
pub use unit::{Command, MaskMode, Played, Transfer, Unit};
pub use words::{BorderMapEntry, Rgb555};

/// The bytes of a unit's block, which is also its saved form.
pub const BLOCK: usize = 30_020;
/// The bytes of a screen: 144 rows of 160 shades, packed from the high bits down.
pub const SCREEN: usize = 5_760;
/// The bytes of a page, which a game sends as a screen.
pub const PAGE: usize = 4_096;
/// The pixels of a row of a screen.
pub const SCREEN_WIDTH: usize = 160;
/// The rows of a screen.
pub const SCREEN_HEIGHT: usize = 144;
/// The bytes of the longest command: seven packets.
pub const COMMAND: usize = 112;
/// The bytes of a packet.
pub const PACKET: usize = 16;
/// The joypad writes that send one packet.
pub const PACKET_WRITES: usize = 260;
/// The most joypad writes that one call of [`Unit::play`] takes.
pub const PLAY: usize = 1_048_576;
/// The most bytes of a line of a log: writes, or a screen.
pub const LINE: usize = 5_760;
/// The pixels of a row of the picture.
pub const WIDTH: usize = 256;
/// The rows of the picture.
pub const HEIGHT: usize = 224;
/// The words of the picture.
pub const PICTURE: usize = WIDTH * HEIGHT;
/// The bytes of a tile of the border: 8 by 8 colour indices, in four bit planes.
pub const TILE: usize = 32;
/// The bytes of the border's 256 tiles.
pub const TILES: usize = 8_192;

/// The joypad writes that send a command: 260 for each of its packets. [`Refusal::Command`] if its length is not what its first byte
/// tells.
///
/// ```
/// let writes = sporedrift::encode(&[0x01; 16])?;
/// assert_eq!(writes.len(), 260);
/// assert_eq!(writes[..4], [0x00, 0x30, 0x10, 0x30]);
/// # Ok::<(), sporedrift::Refusal>(())
/// ```
pub fn encode(command: &[u8]) -> Result<Vec<u8>, Refusal> {
    let mut writes = vec![0; PACKET_WRITES * COMMAND / PACKET];
    let n = calls::encode(command, &mut writes)?;
    writes.truncate(n);
    Ok(writes)
}

/// Whether a command conforms to Pan Docs. [`Refusal::Command`] if its length is not what its first byte tells.
///
/// It conforms exactly if all of this is so:
///
/// - its code is at most 19 hex;
/// - it has one packet; but ATTR_BLK (04) and ATTR_LIN (05) may have up to 7, and ATTR_CHR (07) up to 6;
/// - these three announce how many items they bring, sets or lines in byte 1, cells in the word at byte 3: at least one, and no more than
///   their packets hold.
///
/// | packets | 1 | 2 | 3 | 4 | 5 | 6 | 7 |
/// |---|---|---|---|---|---|---|---|
/// | sets (ATTR_BLK) | 2 | 5 | 7 | 10 | 13 | 15 | 18 |
/// | lines (ATTR_LIN) | 14 | 30 | 46 | 62 | 78 | 94 | 110 |
/// | cells (ATTR_CHR) | 40 | 104 | 168 | 232 | 296 | 360 | - |
///
/// What the packets hold is asked since 0.4. A [`Unit`] does not look at the verdict: it takes the items that are announced, whatever their
/// number, as far as the data reaches. Where a command conforms, these are all of them.
///
/// ```
/// let mut command = [0; 16];
/// command[0] = 0xB9; // MASK_EN, one packet
/// assert_eq!(sporedrift::verdict(&command), Ok(true));
/// command[0] = 0xD1; // no command of Pan Docs
/// assert_eq!(sporedrift::verdict(&command), Ok(false));
///
/// // ATTR_BLK with eighteen sets: one packet holds two of them, seven hold all
/// let mut sets = [0; 112];
/// sets[..2].copy_from_slice(&[0x21, 18]);
/// assert_eq!(sporedrift::verdict(&sets[..16]), Ok(false));
/// sets[0] = 0x27;
/// assert_eq!(sporedrift::verdict(&sets), Ok(true));
/// ```
pub fn verdict(command: &[u8]) -> Result<bool, Refusal> {
    calls::verdict(command)
}

/// The screen that carries a page: what a game has to draw so that these bytes land. [`Refusal::Page`] if it is not [`PAGE`] bytes.
///
/// The page fills the screen's first 256 tiles, of 8 by 8 pixels and twenty to a row; the other 104 are shade 0. Tile t has the sixteen
/// bytes from 16 * t on, two for each of its rows from the top. Of a row's eight shades the first byte has the low bits and the second the
/// high bits, the leftmost pixel in bit 7.
///
/// To send it: a transfer command, any two screens, and then this one. Another transfer command between would take the place of the
/// first, and count three screens from there; any other command may come.
///
/// ```
/// use sporedrift::{PAGE, SCREEN, Transfer, Unit, encode, page_screen};
///
/// let page: Vec<u8> = (0..PAGE).map(|i| (i / 16 + i) as u8).collect();
/// let screen = page_screen(&page)?;
///
/// let mut unit = Unit::post_boot();
/// let mut chr_trn = [0; 16];
/// chr_trn[0] = 0x99; // the border's tiles 0 to 127
/// unit.play_all(&encode(&chr_trn)?, |_| ());
/// assert_eq!(unit.update_screen(&[0; SCREEN])?, None);
/// assert_eq!(unit.update_screen(&[0; SCREEN])?, None);
/// assert_eq!(unit.update_screen(&screen)?, Some(Transfer::BorderTiles { upper_half: false }));
/// assert_eq!(unit.tile(127), Some(&page[127 * 32..]));
/// # Ok::<(), sporedrift::Refusal>(())
/// ```
pub fn page_screen(page: &[u8]) -> Result<Vec<u8>, Refusal> {
    let mut screen = vec![0; SCREEN];
    calls::page_screen(page, &mut screen)?;
    Ok(screen)
}

/// A version of the library.
#[derive(Clone, Copy, Debug, PartialEq, Eq, PartialOrd, Ord, Hash)]
pub struct Version {
    /// The first of its three numbers.
    pub major: u8,
    /// The second.
    pub minor: u8,
    /// The third.
    pub patch: u8,
}

impl fmt::Display for Version {
    fn fmt(&self, f: &mut fmt::Formatter<'_>) -> fmt::Result {
        write!(f, "{}.{}.{}", self.major, self.minor, self.patch)
    }
}

/// The version of the library that is linked.
///
/// ```
/// assert_eq!(sporedrift::version().to_string(), env!("CARGO_PKG_VERSION"));
/// ```
pub fn version() -> Version {
    let [_, major, minor, patch] = calls::version().to_be_bytes();
    Version {
        major,
        minor,
        patch,
    }
}
