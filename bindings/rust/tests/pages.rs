//! The screen that carries a page (RULES 5.6), by a second reading pixel by pixel, and what its landing leaves (RULES 5.7).

use sporedrift::{PAGE, SCREEN, SCREEN_HEIGHT, SCREEN_WIDTH, Transfer, Unit, encode, page_screen};
use std::ops::Range;

/// The shade that a page has at a place of the screen.
fn shade(page: &[u8], x: usize, y: usize) -> u8 {
    let tile = y / 8 * 20 + x / 8;
    if tile >= 256 {
        return 0;
    }
    let [low, high] = [0, 1].map(|plane| page[16 * tile + y % 8 * 2 + plane] >> (7 - x % 8) & 1);
    2 * high + low
}

fn read(page: &[u8]) -> Vec<u8> {
    let mut screen = vec![0; SCREEN];
    for at in 0..SCREEN_WIDTH * SCREEN_HEIGHT {
        screen[at / 4] |= shade(page, at % 160, at / 160) << (6 - at % 4 * 2);
    }
    screen
}

/// A page of random bytes, another for each seed.
fn page(seed: u64) -> Vec<u8> {
    let mut state = seed;
    let mut next = || {
        state = state
            .wrapping_mul(6364136223846793005)
            .wrapping_add(1442695040888963407);
        (state >> 56) as u8
    };
    (0..PAGE).map(|_| next()).collect()
}

#[test]
fn every_pixel_is_its_bits() {
    for seed in 0..32 {
        let page = page(seed);
        assert_eq!(page_screen(&page), Ok(read(&page)));
    }
    for byte in [0x00, 0xFF, 0x80, 0x01] {
        let page = [byte; PAGE];
        assert_eq!(page_screen(&page), Ok(read(&page)));
    }
}

#[test]
fn each_bit_is_one_pixel() {
    // a bit at a time over the first and the last tile of a row, and about the last that a page has
    for tile in [0, 19, 20, 239, 240, 255] {
        for at in 16 * tile..16 * tile + 16 {
            for bit in 0..8 {
                let mut page = vec![0; PAGE];
                page[at] = 1 << bit;
                let screen = page_screen(&page).unwrap();
                let (x, y) = (tile % 20 * 8 + 7 - bit, tile / 20 * 8 + at % 16 / 2);
                let (pixel, shade) = (y * SCREEN_WIDTH + x, 1 << (at % 2));
                let mut due = vec![0; SCREEN];
                due[pixel / 4] = shade << (6 - pixel % 4 * 2);
                assert_eq!(screen, due, "bit {bit} of byte {at}");
            }
        }
    }
}

/// Each transfer: its command's first two bytes, and which bytes of the page land at which bytes of the block (RULES 5.4).
type Landing = (Transfer, [u8; 2], &'static [(Range<usize>, usize)]);
const LANDINGS: [Landing; 5] = [
    (Transfer::Palettes, [0x59, 0], &[(0..4096, 274)]),
    (Transfer::AttributeFiles, [0xA9, 0], &[(0..4050, 4370)]),
    (
        Transfer::BorderTiles { upper_half: false },
        [0x99, 0],
        &[(0..4096, 19_940)],
    ),
    (
        Transfer::BorderTiles { upper_half: true },
        [0x99, 1],
        &[(0..4096, 24_036)],
    ),
    (
        Transfer::BorderMap,
        [0xA1, 0],
        &[(0..0x700, 28_132), (0x800..0x860, 29_924)],
    ),
];

/// A command of one packet that starts so.
fn send(unit: &mut Unit, start: [u8; 2]) {
    let mut command = [0; 16];
    command[..2].copy_from_slice(&start);
    unit.play_all(&encode(&command).unwrap(), |received| {
        assert_eq!(received.as_bytes(), command)
    });
}

#[test]
fn a_page_lands_as_it_is() {
    let mut unit = Unit::post_boot();
    for (seed, (kind, start, parts)) in (0..).zip(LANDINGS.iter().chain(&LANDINGS)) {
        let page = page(seed);
        let screen = page_screen(&page).unwrap();
        send(&mut unit, *start);
        assert_eq!(unit.update_screen(&[0xFF; SCREEN]), Ok(None));
        assert_eq!(unit.update_screen(&[0x1B; SCREEN]), Ok(None));
        // nothing else changes but the live capture, and the countdown and kind of what was pending
        let mut due = unit.as_bytes().to_vec();
        assert_eq!(unit.update_screen(&screen), Ok(Some(*kind)));
        due[10..12].fill(0);
        due[8_420..][..SCREEN].copy_from_slice(&screen);
        for (from, at) in *parts {
            due[*at..][..from.len()].copy_from_slice(&page[from.clone()]);
        }
        assert!(unit.as_bytes()[..] == due, "{kind:?}");
        assert_eq!(unit.pending(), None);
    }
}

#[test]
fn another_transfer_command_between_counts_anew() {
    let page = page(1);
    let screen = page_screen(&page).unwrap();
    let mut unit = Unit::post_boot();
    send(&mut unit, [0x59, 0]);
    assert_eq!(unit.update_screen(&screen), Ok(None));
    assert_eq!(unit.update_screen(&screen), Ok(None));
    send(&mut unit, [0x99, 1]);
    assert_eq!(unit.update_screen(&screen), Ok(None));
    // a command that is none of these may come between
    send(&mut unit, [0xB9, 2]);
    assert_eq!(unit.update_screen(&screen), Ok(None));
    let landed = unit.update_screen(&screen);
    assert_eq!(landed, Ok(Some(Transfer::BorderTiles { upper_half: true })));
    assert_eq!(unit.tile(255), Some(&page[PAGE - 32..]));
}
