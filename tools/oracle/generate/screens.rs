//! Screens, the pages that they show, and the border's map, which a page may hold.

use super::fill;
use crate::block::*;
use crate::rng::Rng;

/// A screen: a page as a transfer shows it, a flat or sparse one, or noise.
pub fn screen(rng: &mut Rng) -> Vec<u8> {
    if rng.one_in(3) {
        let page = page(rng);
        return screen_of_page(rng, &page);
    }
    let mut screen = vec![0; SCREEN_LEN];
    fill(rng, &mut screen);
    screen
}

/// 4,096 bytes to transfer: half of them shaped as PCT_TRN's.
pub fn page(rng: &mut Rng) -> Vec<u8> {
    let mut page = vec![0; 4096];
    fill(rng, &mut page);
    if rng.one_in(2) {
        border_map(rng, &mut page[..0x700]);
    }
    page
}

/// The screen whose tiles 0 to 255 are the page; the rest of it is of any shades.
pub fn screen_of_page(rng: &mut Rng, page: &[u8]) -> Vec<u8> {
    let mut shades = vec![0; 4 * SCREEN_LEN];
    shades.iter_mut().for_each(|s| *s = rng.byte() & 3);
    for (at, planes) in page.chunks(2).enumerate() {
        let (tile, row) = (at / 8, at % 8);
        let left = (tile / 20 * 8 + row) * 160 + tile % 20 * 8;
        for x in 0..8 {
            let bit = |plane: u8| plane >> (7 - x) & 1;
            shades[left + x] = bit(planes[0]) | bit(planes[1]) << 1;
        }
    }
    pack(&shades)
}

/// Map words that mostly draw: a tile that is there, a palette from 4 to 6.
pub fn border_map(rng: &mut Rng, out: &mut [u8]) {
    if rng.one_in(3) {
        return fill(rng, out);
    }
    for entry in out.chunks_mut(2) {
        let tile = if rng.one_in(8) {
            rng.below(1024)
        } else {
            rng.below(256)
        };
        let palette = if rng.one_in(8) {
            rng.below(8)
        } else {
            rng.within(4, 6)
        };
        let word = rng.below(8) << 13 | palette << 10 | tile;
        entry.copy_from_slice(&(word as u16).to_le_bytes());
    }
}
