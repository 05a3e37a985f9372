//! States of the emulator.

use crate::{PACKET, Refusal, Unit, calls};
use std::fmt;

/// The fields of a state, a byte each, as [`calls::from_spans`] has them.
pub const STATE_FIELDS: usize = 12;

/// The spans of a state, in their order: the name of each in the emulator's `sgb/state.rs`, without its `sgb_`, and the most bytes that
/// it can have. Only the packets can have fewer: [`PACKET`] for each that is in.
pub const STATE_SPANS: [(&str, usize); 12] = [
    ("palettes", 32),
    ("attribute_map", 360),
    ("system_palettes", 4_096),
    ("attribute_files", 16_200),
    ("packet", 16),
    ("packets", 112),
    ("capture", 23_040),
    ("frozen_capture", 23_040),
    ("preset", 8),
    ("border_tiles", 8_192),
    ("border_map", 1_792),
    ("border_palettes", 96),
];

/// A state of the emulator, missingno: the Super Game Boy's part of what it saves, as its `sgb/state.rs` lays it out. The names are that
/// file's without their `sgb_`. [`Unit::from_state`] takes one up, [`Unit::to_state`] makes one.
///
/// A span that is `None` is missing, which is not the same as empty: while no packet is in, `packets` is there and has no bytes.
///
/// **The transfer is the emulator's two fields in one.** Where it is `None`, the emulator's record must have neither
/// `sgb_transfer_countdown` nor `sgb_transfer_kind`: a countdown that is there and 0 is for the emulator a transfer, which lands at the
/// next screen.
///
/// ```
/// use sporedrift::{STATE_SPANS, State, Unit};
///
/// // out: the spans as the emulator's memory has them, by name
/// let state = Unit::post_boot().to_state();
/// let mut memory: Vec<(String, Vec<u8>)> = vec![];
/// for ((name, _), span) in STATE_SPANS.into_iter().zip(state.spans()) {
///     memory.extend(span.map(|bytes| (format!("sgb_{name}"), bytes.to_vec())));
/// }
/// assert_eq!(memory.len(), 11); // no screen is frozen
/// assert_eq!(state.transfer, None); // so two fields stay out of the record
///
/// // and in
/// let mut again = State { p15_high: true, lines_high: true, preset_in_force: true, ..State::default() };
/// for ((name, _), span) in STATE_SPANS.into_iter().zip(again.spans_mut()) {
///     let found = memory.iter().find(|(known, _)| *known == format!("sgb_{name}"));
///     *span = found.map(|(_, bytes)| bytes.clone());
/// }
/// assert_eq!(Unit::from_state(&again)?, Unit::post_boot());
/// # Ok::<(), sporedrift::Refusal>(())
/// ```
#[derive(Clone, Default, PartialEq, Eq)]
pub struct State {
    /// The number of the mask mode.
    pub mask: u8,
    /// Which pad the game reads next, from 0.
    pub joypad_index: u8,
    /// The bits that the index may have.
    pub joypad_mask: u8,
    /// The line P15 at the last write.
    pub p15_high: bool,
    /// Both lines at the last write.
    pub lines_high: bool,
    /// 0 idle, 1 in a packet, 2 between two packets of a command.
    pub receiver: u8,
    /// The packets of the command that is coming in.
    pub packets_expected: u8,
    /// Those of them that are in.
    pub packets_received: u8,
    /// The data bits of the packet that is coming in.
    pub bit_index: u8,
    /// Whether the palette of the start still colours the screen.
    pub preset_in_force: bool,
    /// The transfer that is pending: its countdown and the number of its kind. `None` if none is, and then the emulator's record has
    /// neither field.
    pub transfer: Option<(u8, u8)>,
    /// Four palettes. Colours are words here, the low byte first, and so is the border's map.
    pub palettes: Option<Vec<u8>>,
    /// A palette number for each of 20 by 18 cells, a byte each.
    pub attribute_map: Option<Vec<u8>>,
    /// 512 palettes.
    pub system_palettes: Option<Vec<u8>>,
    /// 45 attribute maps.
    pub attribute_files: Option<Vec<u8>>,
    /// The packet that is coming in.
    pub packet: Option<Vec<u8>>,
    /// The packets that are in.
    pub packets: Option<Vec<u8>>,
    /// The screen that was shown last: 160 by 144 shades, a byte each.
    pub capture: Option<Vec<u8>>,
    /// The screen that was frozen. It may be missing.
    pub frozen_capture: Option<Vec<u8>>,
    /// The palette of the start. It may be missing where it is not in force.
    pub preset: Option<Vec<u8>>,
    /// The border's 256 tiles. Where one of the border's three spans is missing, the border is empty.
    pub border_tiles: Option<Vec<u8>>,
    /// The border's 32 by 28 map words.
    pub border_map: Option<Vec<u8>>,
    /// The border's three palettes, of sixteen colours each.
    pub border_palettes: Option<Vec<u8>>,
}

impl State {
    /// The spans, in the order of [`STATE_SPANS`].
    pub fn spans(&self) -> [Option<&[u8]>; 12] {
        [
            &self.palettes,
            &self.attribute_map,
            &self.system_palettes,
            &self.attribute_files,
            &self.packet,
            &self.packets,
            &self.capture,
            &self.frozen_capture,
            &self.preset,
            &self.border_tiles,
            &self.border_map,
            &self.border_palettes,
        ]
        .map(Option::as_deref)
    }

    /// The same, to be set.
    pub fn spans_mut(&mut self) -> [&mut Option<Vec<u8>>; 12] {
        [
            &mut self.palettes,
            &mut self.attribute_map,
            &mut self.system_palettes,
            &mut self.attribute_files,
            &mut self.packet,
            &mut self.packets,
            &mut self.capture,
            &mut self.frozen_capture,
            &mut self.preset,
            &mut self.border_tiles,
            &mut self.border_map,
            &mut self.border_palettes,
        ]
    }

    /// Writes the state into a block.
    pub(crate) fn put(&self, block: &mut [u8]) -> Result<(), Refusal> {
        let (countdown, kind) = self.transfer.unwrap_or((0, 0));
        let fields = [
            self.mask,
            self.joypad_index,
            self.joypad_mask,
            self.p15_high.into(),
            self.lines_high.into(),
            self.receiver,
            self.packets_expected,
            self.packets_received,
            self.bit_index,
            self.preset_in_force.into(),
            countdown,
            kind,
        ];
        calls::from_spans(block, &fields, self.spans())
    }

    /// The state that a block is.
    pub(crate) fn of(block: &[u8]) -> Result<Self, Refusal> {
        let mut fields = [0; STATE_FIELDS];
        let mut lent = STATE_SPANS.map(|(_, most)| vec![0; most]);
        let present = calls::to_spans(block, &mut fields, lent.each_mut().map(|v| &mut v[..]))?;
        let [
            mask,
            joypad_index,
            joypad_mask,
            p15_high,
            lines_high,
            receiver,
            packets_expected,
            packets_received,
            bit_index,
            preset_in_force,
            countdown,
            kind,
        ] = fields;
        let mut state = State {
            mask,
            joypad_index,
            joypad_mask,
            p15_high: p15_high == 1,
            lines_high: lines_high == 1,
            receiver,
            packets_expected,
            packets_received,
            bit_index,
            preset_in_force: preset_in_force == 1,
            transfer: (countdown != 0).then_some((countdown, kind)),
            ..State::default()
        };
        for (k, (span, bytes)) in state.spans_mut().into_iter().zip(lent).enumerate() {
            *span = (present >> k & 1 == 1).then_some(bytes);
        }
        if let Some(packets) = &mut state.packets {
            packets.truncate(PACKET * usize::from(packets_received));
        }
        Ok(state)
    }
}

impl From<&Unit> for State {
    /// As [`Unit::to_state`].
    fn from(unit: &Unit) -> Self {
        unit.to_state()
    }
}

impl TryFrom<&State> for Unit {
    type Error = Refusal;

    /// As [`Unit::from_state`].
    fn try_from(state: &State) -> Result<Self, Refusal> {
        Unit::from_state(state)
    }
}

/// The spans print as their lengths.
impl fmt::Debug for State {
    fn fmt(&self, f: &mut fmt::Formatter<'_>) -> fmt::Result {
        let mut told = f.debug_struct("State");
        told.field("mask", &self.mask)
            .field("joypad_index", &self.joypad_index)
            .field("joypad_mask", &self.joypad_mask)
            .field("p15_high", &self.p15_high)
            .field("lines_high", &self.lines_high)
            .field("receiver", &self.receiver)
            .field("packets_expected", &self.packets_expected)
            .field("packets_received", &self.packets_received)
            .field("bit_index", &self.bit_index)
            .field("preset_in_force", &self.preset_in_force)
            .field("transfer", &self.transfer);
        for ((name, _), span) in STATE_SPANS.into_iter().zip(self.spans()) {
            match span {
                Some(bytes) => told.field(name, &format_args!("{} bytes", bytes.len())),
                None => told.field(name, &format_args!("None")),
            };
        }
        told.finish()
    }
}
