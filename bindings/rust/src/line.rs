//! The lines of a log.

use crate::{LINE, Refusal, calls};
use std::fmt;

/// What a line of a log holds.
#[derive(Clone, PartialEq, Eq)]
#[non_exhaustive]
pub enum Line {
    /// Joypad writes, none or up to [`LINE`], for [`Unit::play_all`](crate::Unit::play_all).
    Writes(Vec<u8>),
    /// A screen, [`SCREEN`](crate::SCREEN) bytes, for [`Unit::update_screen`](crate::Unit::update_screen).
    Screen(Vec<u8>),
}

impl fmt::Debug for Line {
    fn fmt(&self, f: &mut fmt::Formatter<'_>) -> fmt::Result {
        match self {
            Line::Writes(writes) => write!(f, "Writes({} of them)", writes.len()),
            Line::Screen(_) => f.write_str("Screen(..)"),
        }
    }
}

/// One line of a log, without the line feed that ends it. [`Refusal::Line`] if it is none.
///
/// ```
/// use sporedrift::{Line, Refusal, parse_line};
///
/// assert_eq!(parse_line(b"01003020"), Ok(Line::Writes(vec![0x00, 0x30, 0x20])));
/// assert_eq!(parse_line(b"0100302"), Err(Refusal::Line));
/// ```
pub fn parse_line(text: &[u8]) -> Result<Line, Refusal> {
    let mut bytes = vec![0; LINE];
    let (kind, len) = calls::parse_line(text, &mut bytes)?;
    bytes.truncate(len);
    Ok(match kind {
        calls::LineKind::Writes => Line::Writes(bytes),
        calls::LineKind::Screen => Line::Screen(bytes),
    })
}

/// The lines of a whole log, for [`parse_line`]: what stands between its line feeds. The last line may lack its line feed.
///
/// ```
/// let lines: Vec<_> = sporedrift::lines(b"0130\n\n01").collect();
/// assert_eq!(lines, [&b"0130"[..], b"", b"01"]);
/// assert_eq!(sporedrift::lines(b"0130\n").count(), 1);
/// assert_eq!(sporedrift::lines(b"").count(), 0);
/// ```
pub fn lines(log: &[u8]) -> impl Iterator<Item = &[u8]> {
    let whole = log.strip_suffix(b"\n").unwrap_or(log);
    let some = !log.is_empty();
    whole.split(|byte| *byte == b'\n').filter(move |_| some)
}
