//! Colours and map words. Both have sixteen bits; as two types neither can stand for the other.

use std::fmt;

/// A colour of the SNES: fifteen bits, red in the low five, then green, then blue. Bit 15 means nothing.
///
/// ```
/// use sporedrift::Rgb555;
///
/// assert_eq!(Rgb555(0x67BF).to_rgb8(), [255, 238, 202]);
/// assert_eq!(Rgb555::from_le_bytes([0xBF, 0x67]), Rgb555(0x67BF));
/// ```
#[derive(Clone, Copy, Default, PartialEq, Eq, Hash)]
#[repr(transparent)]
pub struct Rgb555(pub u16);

impl Rgb555 {
    /// The colour whose two bytes stand so in a palette of the block.
    pub const fn from_le_bytes(bytes: [u8; 2]) -> Self {
        Rgb555(u16::from_le_bytes(bytes))
    }

    /// Red, green and blue at eight bits, as a television of the time showed them.
    pub fn to_rgb8(self) -> [u8; 3] {
        crate::calls::to_rgb8(self)
    }
}

impl fmt::Debug for Rgb555 {
    fn fmt(&self, f: &mut fmt::Formatter<'_>) -> fmt::Result {
        write!(f, "Rgb555({:#06X})", self.0)
    }
}

/// A word of the border's map: which tile stands at a place, in which palette, and how it is turned.
///
/// ```
/// use sporedrift::BorderMapEntry;
///
/// let entry = BorderMapEntry(0x5003);
/// assert_eq!((entry.tile(), entry.palette()), (3, 4));
/// assert!(entry.flip_x() && !entry.flip_y());
/// ```
#[derive(Clone, Copy, Default, PartialEq, Eq, Hash)]
#[repr(transparent)]
pub struct BorderMapEntry(pub u16);

impl BorderMapEntry {
    /// The tile's number, 0 to 1,023. The border has tiles 0 to 255; any other is transparent.
    pub const fn tile(self) -> u16 {
        self.0 & 0x03FF
    }

    /// The palette's number, 0 to 7. The border has palettes 4 to 6; any other is transparent.
    pub const fn palette(self) -> u8 {
        (self.0 >> 10 & 7) as u8
    }

    /// Whether left and right change places.
    pub const fn flip_x(self) -> bool {
        self.0 & 0x4000 != 0
    }

    /// Whether top and bottom change places.
    pub const fn flip_y(self) -> bool {
        self.0 & 0x8000 != 0
    }
}

impl fmt::Debug for BorderMapEntry {
    fn fmt(&self, f: &mut fmt::Formatter<'_>) -> fmt::Result {
        f.debug_struct("BorderMapEntry")
            .field("tile", &self.tile())
            .field("palette", &self.palette())
            .field("flip_x", &self.flip_x())
            .field("flip_y", &self.flip_y())
            .finish()
    }
}
