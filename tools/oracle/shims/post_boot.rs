//! Stands in the place of `sgb/post_boot.rs`, which is about the rest of the machine and is left behind. A child of `sgb`
//! sees what is private there, so this file is the door through which the harness reaches it. It decides nothing.

use super::{AttributeMap, Sgb};
use crate::ppu::screen::Screen;
use crate::state::StateRecord;
use crate::system::StateError;

pub fn packet_count(first_byte: u8) -> u8 {
    super::packet_count(first_byte)
}

pub fn screen_to_transfer_data(screen: &Screen) -> Vec<u8> {
    super::screen_to_transfer_data(screen)
}

pub fn from_packed(bytes: &[u8]) -> AttributeMap {
    AttributeMap::from_packed(bytes)
}

pub fn from_state(
    record: &StateRecord,
    memory: &[(String, Vec<u8>)],
) -> Result<Option<Sgb>, StateError> {
    Sgb::from_state(record, memory)
}

pub fn write_state(sgb: &Sgb) -> StateRecord {
    let mut record = StateRecord::default();
    sgb.write_state(&mut record);
    record
}

pub fn capture_memory(sgb: &Sgb) -> Vec<(&'static str, Vec<u8>)> {
    let mut memory = Vec::new();
    sgb.capture_memory(&mut memory);
    memory
}

pub fn is_frozen(sgb: &Sgb) -> bool {
    sgb.frozen_screen.is_some()
}
