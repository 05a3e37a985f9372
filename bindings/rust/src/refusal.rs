//! Why a call refuses.

use crate::field_text;
use std::fmt;

/// Why a call refused what it was given. A refused call changes nothing.
///
/// Where several hold, the one that the call tests first is told: the block's length, its rules, and then what else was given. A state's
/// spans and cells come before the rules, which are asked of the block that it would become.
///
/// ```
/// use sporedrift::{Refusal, Unit};
///
/// let refusal = Unit::load(&[0; 100]).unwrap_err();
/// assert_eq!(refusal, Refusal::Length);
/// assert_eq!(refusal.number(), 1);
/// assert_eq!(refusal.to_string(), "the block is not 30,020 bytes (refusal 1)");
/// ```
#[derive(Clone, Copy, Debug, PartialEq, Eq, Hash)]
#[non_exhaustive]
pub enum Refusal {
    /// 1: the block's length is not [`BLOCK`](crate::BLOCK).
    Length,
    /// 3: the screen's length is not [`SCREEN`](crate::SCREEN).
    Screen,
    /// 4: there is no such column, row or shade.
    Place,
    /// 5: no command: not 16 bytes for each packet that its first byte counts.
    Command,
    /// 6: the lent output has no room for the call's longest result.
    Output,
    /// 7: the text is no line of a log.
    Line,
    /// 8: a span of the state is missing, or is not as long as it must be.
    Span,
    /// 9: a cell of the state's attribute map, or of one of its attribute files, is over 3.
    Cell,
    /// 10: the page's length is not [`PAGE`](crate::PAGE).
    Page,
    /// 21 to 26: the block is not valid. [`Unit::load`](crate::Unit::load) meets this one, and so does
    /// [`Unit::from_state`](crate::Unit::from_state), of the block that the state would become; a unit's own block is always valid.
    ///
    /// ```
    /// use sporedrift::{Refusal, Rule, Unit};
    ///
    /// let mut saved = Unit::new().as_bytes().to_vec();
    /// saved[8] = 129; // no data bit is in while no packet is coming in
    /// let refusal = Unit::load(&saved).unwrap_err();
    /// assert_eq!(refusal, Refusal::Rule { rule: Rule::V3, offset: 8 });
    /// assert_eq!((refusal.number(), refusal.offset()), (23, Some(8)));
    /// assert_eq!(
    ///     refusal.to_string(),
    ///     "rule V3 is broken at byte 8 (0x8), the bit index (refusal 23)"
    /// );
    /// ```
    Rule {
        /// The first rule that the block breaks.
        rule: Rule,
        /// The lowest byte of the block that breaks it. [`field_text`] has a name for what stands there.
        offset: usize,
    },
    /// A number that this version of the wrapper has no name for, from a library that is newer.
    Other(u8),
}

impl Refusal {
    /// The refusal's number, as the header for C and the programs have it.
    pub const fn number(self) -> u8 {
        match self {
            Refusal::Length => 1,
            Refusal::Screen => 3,
            Refusal::Place => 4,
            Refusal::Command => 5,
            Refusal::Output => 6,
            Refusal::Line => 7,
            Refusal::Span => 8,
            Refusal::Cell => 9,
            Refusal::Page => 10,
            Refusal::Rule { rule, .. } => 20 + rule.number(),
            Refusal::Other(number) => number,
        }
    }

    /// Where a rule of the block is broken, the lowest byte that breaks it.
    pub const fn offset(self) -> Option<usize> {
        match self {
            Refusal::Rule { offset, .. } => Some(offset),
            _ => None,
        }
    }

    /// An answer's refusal: its number in the low byte, the offset above it.
    pub(crate) const fn of(answer: u32) -> Self {
        let rule = match answer as u8 {
            1 => return Refusal::Length,
            3 => return Refusal::Screen,
            4 => return Refusal::Place,
            5 => return Refusal::Command,
            6 => return Refusal::Output,
            7 => return Refusal::Line,
            8 => return Refusal::Span,
            9 => return Refusal::Cell,
            10 => return Refusal::Page,
            21 => Rule::V1,
            22 => Rule::V2,
            23 => Rule::V3,
            24 => Rule::V4,
            25 => Rule::V5,
            26 => Rule::V6,
            number => return Refusal::Other(number),
        };
        Refusal::Rule {
            rule,
            offset: (answer >> 8) as usize,
        }
    }
}

impl fmt::Display for Refusal {
    fn fmt(&self, f: &mut fmt::Formatter<'_>) -> fmt::Result {
        match self {
            Refusal::Length => f.write_str("the block is not 30,020 bytes"),
            Refusal::Screen => f.write_str("the screen is not 5,760 bytes"),
            Refusal::Place => f.write_str("there is no such column, row or shade"),
            Refusal::Command => {
                f.write_str("the command is empty, or is not as long as its first byte tells")
            }
            Refusal::Output => f.write_str("the output is short"),
            Refusal::Line => f.write_str("the text is no line of a log"),
            Refusal::Span => {
                f.write_str("a span of the state is missing, or is not as long as it must be")
            }
            Refusal::Cell => f.write_str("a cell of the state's attribute map or files is over 3"),
            Refusal::Page => f.write_str("the page is not 4,096 bytes"),
            Refusal::Rule { rule, offset } => {
                write!(f, "rule {rule} is broken at byte {offset} ({offset:#X})")?;
                match field_text(*offset) {
                    Some(field) => write!(f, ", {field}"),
                    None => Ok(()),
                }
            }
            Refusal::Other(_) => {
                f.write_str("the library refuses for a reason that this version does not know")
            }
        }?;
        write!(f, " (refusal {})", self.number())
    }
}

impl std::error::Error for Refusal {}

/// A rule that a valid block keeps. docs/RULES.md tells each, from 1.6 on.
#[derive(Clone, Copy, Debug, PartialEq, Eq, PartialOrd, Ord, Hash)]
#[non_exhaustive]
pub enum Rule {
    /// Mask mode and joypad mask are 3 or less, and the joypad index has no bit outside the mask.
    V1,
    /// The four flags are 0 or 1, both lines are high only if P15 is, and the header's unused bytes are zero.
    V2,
    /// The receiver is 0, 1 or 2; packets expected and received, bit index, current packet and packet store are as it says.
    V3,
    /// A transfer is pending, with a countdown of 1 to 3 and a kind of 0 to 4; or none is, and both are 0.
    V4,
    /// A preset that is not in force is zero.
    V5,
    /// There is a frozen capture where the mask mode needs one and none where it forbids one; one that is not there is zero.
    V6,
}

impl Rule {
    /// The rule's number, 1 for V1.
    pub const fn number(self) -> u8 {
        self as u8 + 1
    }
}

impl fmt::Display for Rule {
    fn fmt(&self, f: &mut fmt::Formatter<'_>) -> fmt::Result {
        write!(f, "V{}", self.number())
    }
}
