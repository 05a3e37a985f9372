//! The Rust behind the calls that the port has: a block goes in, writes and screens are applied, answers and the block
//! come out. Between the block and the Rust's own saved state lies only a change of form: one byte a pixel or cell
//! there, four to a byte here; a capture, preset or transfer that is absent there, zero here.

use crate::block::*;
use gb::ppu::screen::Screen;
use gb::ppu::types::palette::PaletteIndex;
pub use gb::sgb::BorderMapEntry;
use gb::sgb::post_boot as door;
use gb::sgb::{Rgb555, Sgb};
use gb::state::{StateRecord, StateValue};

pub struct Oracle(pub Sgb);

/// The fields of the Rust's saved state that are a byte of the block, and those that are a flag.
const BYTES: [(&str, usize); 7] = [
    ("sgb_mask", MASK),
    ("sgb_joypad_index", JOYPAD_INDEX),
    ("sgb_joypad_mask", JOYPAD_MASK),
    ("sgb_receiver", RECEIVER),
    ("sgb_packets_expected", EXPECTED),
    ("sgb_packets_received", RECEIVED),
    ("sgb_bit_index", BIT_INDEX),
];
const FLAGS: [(&str, usize); 3] = [
    ("sgb_p15_high", P15_HIGH),
    ("sgb_lines_high", LINES_HIGH),
    ("sgb_preset_in_force", PRESET_IN_FORCE),
];
/// The two bytes that are there only while a transfer is pending.
const PENDING: [(&str, usize); 2] = [
    ("sgb_transfer_countdown", COUNTDOWN),
    ("sgb_transfer_kind", KIND),
];

/// The memory of the saved state that is a part of the block as it stands, and that which is packed there.
const PLAIN: [(&str, std::ops::Range<usize>); 6] = [
    ("sgb_packet", PACKET),
    ("sgb_palettes", PALETTES),
    ("sgb_system_palettes", SYSTEM_PALETTES),
    ("sgb_border_tiles", TILES),
    ("sgb_border_map", BORDER_MAP),
    ("sgb_border_palettes", BORDER_PALETTES),
];
const PACKED: [(&str, std::ops::Range<usize>); 3] = [
    ("sgb_attribute_map", MAP),
    ("sgb_attribute_files", FILES),
    ("sgb_capture", LIVE),
];

impl Oracle {
    pub fn new() -> Self {
        Oracle(Sgb::new())
    }

    pub fn post_boot() -> Self {
        Oracle(Sgb::post_boot())
    }

    /// The Rust's unit that a valid block describes.
    pub fn load(block: &[u8]) -> Self {
        assert_eq!(block.len(), LEN);
        let mut record = StateRecord::default();
        for (name, at) in BYTES {
            record.set(name, block[at]);
        }
        for (name, at) in FLAGS {
            record.set(name, block[at] != 0);
        }
        if block[COUNTDOWN] != 0 {
            for (name, at) in PENDING {
                record.set(name, block[at]);
            }
        }
        let received = usize::from(block[RECEIVED]);
        let mut memory = vec![(
            "sgb_packets".to_string(),
            block[STORE][..16 * received].to_vec(),
        )];
        for (name, part) in PLAIN {
            memory.push((name.to_string(), block[part].to_vec()));
        }
        for (name, part) in PACKED {
            memory.push((name.to_string(), unpack(&block[part])));
        }
        if block[FROZEN_PRESENT] != 0 {
            memory.push(("sgb_frozen_capture".to_string(), unpack(&block[FROZEN])));
        }
        if block[PRESET_IN_FORCE] != 0 {
            memory.push(("sgb_preset".to_string(), block[PRESET].to_vec()));
        }
        match door::from_state(&record, &memory) {
            Ok(Some(sgb)) => Oracle(sgb),
            _ => panic!("the Rust refuses this state"),
        }
    }

    /// The block that describes the Rust's unit.
    pub fn save(&self) -> Vec<u8> {
        let mut block = vec![0; LEN];
        block[..SPARE.start].copy_from_slice(&head(&self.0));
        for (name, data) in door::capture_memory(&self.0) {
            if let Some((_, part)) = PLAIN.into_iter().find(|(n, _)| *n == name) {
                block[part].copy_from_slice(&data);
            } else if let Some((_, part)) = PACKED.into_iter().find(|(n, _)| *n == name) {
                block[part].copy_from_slice(&pack(&data));
            } else {
                match name {
                    "sgb_packets" => block[STORE][..data.len()].copy_from_slice(&data),
                    "sgb_preset" => block[PRESET].copy_from_slice(&data),
                    "sgb_frozen_capture" => block[FROZEN].copy_from_slice(&pack(&data)),
                    _ => panic!("{name} has no place in the block"),
                }
            }
        }
        block
    }

    /// A write to JOYP: the command that it completes.
    pub fn write(&mut self, value: u8) -> Option<Vec<u8>> {
        self.0.write_joypad(value)
    }

    /// Writes in a row up to the first that completes a command: how many they were, and the command, or no byte.
    pub fn play(&mut self, writes: &[u8]) -> (usize, Vec<u8>) {
        for (i, w) in writes.iter().enumerate() {
            if let Some(command) = self.write(*w) {
                return (i + 1, command);
            }
        }
        (writes.len(), Vec::new())
    }

    /// A screen of 5,760 bytes: the kind that lands. The Rust answers nothing here, so what was pending before and
    /// after tells it.
    pub fn screen(&mut self, packed: &[u8]) -> Option<u8> {
        let before = self.pending();
        self.0.update_screen(&screen_of(packed));
        match (before, self.pending()) {
            (Some((_, kind)), None) => Some(kind),
            _ => None,
        }
    }

    /// Countdown and kind.
    pub fn pending(&self) -> Option<(u8, u8)> {
        let record = door::write_state(&self.0);
        let [countdown, kind] = PENDING.map(|(name, _)| byte(&record, name));
        countdown.zip(kind)
    }

    pub fn mask_mode(&self) -> u8 {
        self.0.mask_mode as u8
    }

    /// The displayed screen, packed.
    pub fn displayed(&self) -> Vec<u8> {
        let pixels: Vec<u8> = self.0.displayed_screen().pixels().map(|p| p.0).collect();
        pack(&pixels)
    }

    /// The 57,344 words of the picture. The Rust has no call for a row: a row is a part of it.
    pub fn picture(&self) -> Vec<u16> {
        self.0.snes_picture().iter().map(|c| c.0).collect()
    }

    pub fn row(&self, y: usize) -> Vec<u16> {
        self.picture()[y * 256..(y + 1) * 256].to_vec()
    }

    pub fn backdrop(&self) -> u16 {
        self.0.render_data().backdrop().0
    }

    pub fn color_at(&self, x: usize, y: usize, shade: u8) -> u16 {
        self.0.render_data().color_at(x, y, shade).0
    }

    pub fn map_entry(&self, column: usize, row: usize) -> u16 {
        self.0.border().map_entry(column, row).0
    }

    /// The border's colour at a pixel of the picture, unless it is transparent there.
    pub fn border_color_at(&self, x: usize, y: usize) -> Option<u16> {
        self.0.border().color_at(x, y).map(|c| c.0)
    }
}

/// The block's first 13 bytes.
pub fn head(sgb: &Sgb) -> [u8; SPARE.start] {
    let mut head = [0; SPARE.start];
    let record = door::write_state(sgb);
    for (name, at) in BYTES.into_iter().chain(FLAGS).chain(PENDING) {
        head[at] = byte(&record, name).unwrap_or(0);
    }
    head[FROZEN_PRESENT] = u8::from(door::is_frozen(sgb));
    head
}

fn byte(record: &StateRecord, name: &str) -> Option<u8> {
    match record.get(name)? {
        StateValue::Int(v) => Some(*v as u8),
        StateValue::Bool(b) => Some(u8::from(*b)),
        StateValue::Null => None,
    }
}

/// The screen as the packed shades have it.
pub fn draw(screen: &mut Screen, packed: &[u8]) {
    assert_eq!(packed.len(), SCREEN_LEN);
    let rows = screen.front_mut().pixels.iter_mut();
    for (row, bytes) in rows.zip(packed.chunks_exact(40)) {
        for (four, b) in row.chunks_exact_mut(4).zip(bytes) {
            four.copy_from_slice(&[b >> 6, b >> 4 & 3, b >> 2 & 3, b & 3].map(PaletteIndex));
        }
    }
}

fn screen_of(packed: &[u8]) -> Screen {
    let mut screen = Screen::default();
    draw(&mut screen, packed);
    screen
}

// The leaves: what the Rust does with one byte or word.

pub fn packet_count(first_byte: u8) -> u8 {
    door::packet_count(first_byte)
}

/// The 4,096 bytes of the page that a screen shows.
pub fn transfer_data(packed: &[u8]) -> Vec<u8> {
    door::screen_to_transfer_data(&screen_of(packed))
}

/// The cells of a packed attribute map or file.
pub fn attribute_cells(packed: &[u8]) -> [[u8; 20]; 18] {
    door::from_packed(packed).cells
}

pub fn word(low: u8, high: u8) -> u16 {
    Rgb555::from_bytes(low, high).0
}

/// red * 65536 + green * 256 + blue.
pub fn rgb8(word: u16) -> u32 {
    let c = Rgb555(word).to_rgb8();
    u32::from_be_bytes([0, c.r, c.g, c.b])
}
