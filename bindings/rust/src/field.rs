//! Names for the bytes of the block.

use crate::BLOCK;

/// Where each field of the header and each part starts (docs/RULES.md, 1.4 and 1.5), with the words of include/sporedrift.h.
const FIELDS: [(usize, &str); 26] = [
    (0, "the mask mode"),
    (1, "the joypad index"),
    (2, "the joypad mask"),
    (3, "the P15-high flag"),
    (4, "the both-high flag"),
    (5, "the receiver"),
    (6, "the number of packets expected"),
    (7, "the number of packets received"),
    (8, "the bit index"),
    (9, "the preset-in-force flag"),
    (10, "the countdown"),
    (11, "the transfer's kind"),
    (12, "the frozen-present flag"),
    (13, "an unused byte"),
    (16, "the current packet"),
    (32, "the packet store"),
    (144, "the preset"),
    (152, "the palettes"),
    (184, "the attribute map"),
    (274, "the system palettes"),
    (4_370, "the attribute files"),
    (8_420, "the live capture"),
    (14_180, "the frozen capture"),
    (19_940, "the border tiles"),
    (28_132, "the border map"),
    (29_924, "the border palettes"),
];

/// The field or part of the block that the byte at an offset is in, for a message; none past the block's end.
///
/// ```
/// use sporedrift::{BLOCK, field_text};
///
/// assert_eq!(field_text(8), Some("the bit index"));
/// assert_eq!(field_text(143), Some("the packet store"));
/// assert_eq!(field_text(BLOCK), None);
/// ```
pub fn field_text(offset: usize) -> Option<&'static str> {
    let mut last_first = FIELDS.iter().rev();
    let (_, text) = last_first.find(|(start, _)| *start <= offset)?;
    (offset < BLOCK).then_some(*text)
}
