//! plate OUT.ppm: what a game sends to the unit, and the picture that comes of it. It prints each answer, and writes the picture.
//! examples/c/plate.c is the same program over the header: both print examples/plate.stdout.

use sporedrift::{HEIGHT, PICTURE, Refusal, Rgb555, SCREEN, Unit, WIDTH, calls};
use std::error::Error;
use std::io::Write;

/// An answer as both programs print it: in hex, `none`, or a refusal.
fn tell(call: &str, answer: Result<Option<u32>, Refusal>) {
    match answer {
        Ok(Some(value)) => println!("{call}: {value:X}"),
        Ok(None) => println!("{call}: none"),
        Err(refusal @ Refusal::Rule { .. }) => println!("{call}: {refusal}"),
        Err(refusal) => println!("{call}: refused {}", refusal.number()),
    }
}

fn value<T: Into<u32>>(answer: Result<T, Refusal>) -> Result<Option<u32>, Refusal> {
    Ok(Some(answer?.into()))
}

/// The command's joypad writes, one by one, as a game makes them. Only the last one completes the command.
fn send(unit: &mut Unit, name: &str, command: &[u8]) {
    println!("{name}");
    tell("  verdict", value(sporedrift::verdict(command)));
    let writes = sporedrift::encode(command);
    tell(
        "  encode",
        value(writes.as_ref().map(|w| w.len() as u32).map_err(|no| *no)),
    );
    for write in writes.unwrap_or_default() {
        if let Some(received) = unit.write_joypad(write) {
            tell("  write_joypad", Ok(Some(received.packets() as u32)));
            println!(
                "  as sent: {}",
                if received.as_bytes() == command {
                    "yes"
                } else {
                    "no"
                }
            );
        }
    }
}

fn show(unit: &mut Unit, screen: &[u8]) {
    let landed = unit.update_screen(screen);
    tell(
        "  update_screen",
        landed.map(|some| some.map(|transfer| transfer.number().into())),
    );
}

/// The screen of these shades.
fn packed(shade: impl Fn(usize, usize) -> u8) -> Vec<u8> {
    let mut screen = vec![0; SCREEN];
    for at in 0..160 * 144 {
        screen[at / 4] |= shade(at % 160, at / 160) << (6 - at % 4 * 2);
    }
    screen
}

/// The screen whose tiles are a page of 4,096 bytes, and the three showings that a transfer takes.
fn transfer(unit: &mut Unit, page: &[u8]) {
    let screen = packed(|x, y| {
        let at = (y / 8 * 20 + x / 8) * 16 + y % 8 * 2;
        let bit = |plane: usize| {
            page.get(at + plane)
                .map_or(0, |byte| byte >> (7 - x % 8) & 1)
        };
        bit(1) * 2 + bit(0)
    });
    for _ in 0..3 {
        show(unit, &screen);
    }
}

/// 128 tiles of colour indices that run from corner to corner: four planes, by rows.
fn tiles_page() -> Vec<u8> {
    let mut page = vec![0; 4096];
    for (t, tile) in page.chunks_mut(32).enumerate() {
        for (r, x, plane) in (0..256).map(|i| (i / 32, i / 4 % 8, i % 4)) {
            let index = (x + r + t) % 15 + 1;
            tile[r * 2 + plane % 2 + plane / 2 * 16] |= ((index >> plane & 1) as u8) << (7 - x);
        }
    }
    page
}

/// Words of the map around the screen, and none inside; then three palettes: reds, greens, blues.
fn map_page() -> Vec<u8> {
    let mut page = vec![0; 4096];
    for (row, column) in (0..896).map(|i| (i / 32, i % 32)) {
        if !((5..23).contains(&row) && (6..26).contains(&column)) {
            let word =
                (row + column) * 8 % 128 + (4 + (row + column) / 4 % 3) * 1024 + row % 4 * 0x4000;
            page[(row * 32 + column) * 2..][..2].copy_from_slice(&(word as u16).to_le_bytes());
        }
    }
    for k in 0..48 {
        let word = ((k % 16 * 2) << (k / 16 * 5)) as u16;
        page[0x800 + k * 2..][..2].copy_from_slice(&word.to_le_bytes());
    }
    page
}

fn word(colour: Rgb555) -> u32 {
    colour.0.into()
}

fn look(unit: &Unit) -> Result<Vec<Rgb555>, Refusal> {
    let block = unit.as_bytes();
    println!("look");
    tell("  check", calls::check(block).map(|()| Some(0)));
    tell("  mask_mode", Ok(Some(unit.mask_mode().number().into())));
    tell("  backdrop", Ok(Some(word(unit.backdrop()))));
    for shade in [2, 4] {
        tell("  color_at", value(unit.color_at(80, 72, shade).map(word)));
    }
    tell(
        "  map_entry",
        value(unit.map_entry(31, 27).map(|entry| entry.0)),
    );
    for (x, y) in [(3, 2), (128, 112)] {
        tell(
            "  border_color_at",
            unit.border_color_at(x, y).map(|some| some.map(word)),
        );
    }
    let live = unit.displayed_screen().as_ptr() == block[8420..].as_ptr();
    println!(
        "  displayed_screen: {}",
        if live { "live" } else { "frozen" }
    );
    if let Some(tile) = unit.tile(5) {
        println!("  tile: {:02X} {:02X}", tile[0], tile[31]);
    }
    println!(
        "  tile: {}",
        if unit.tile(256).is_none() {
            "none"
        } else {
            "some"
        }
    );
    let mut out = vec![Rgb555(0); PICTURE];
    tell("  row", value(calls::row(block, 100, &mut out[..WIDTH])));
    tell("  row", value(calls::row(block, 224, &mut out[..WIDTH])));
    let row = out[..WIDTH].to_vec();
    tell("  picture", value(calls::picture(block, &mut out[1..])));
    tell("  picture", value(calls::picture(block, &mut out)));
    let same = row == out[100 * WIDTH..][..WIDTH] && row == unit.row(100)? && out == unit.picture();
    println!(
        "  row 100 of it: {}",
        if same { "the same" } else { "another" }
    );
    Ok(out)
}

/// A saved block in which one byte went bad, as a program tells it that takes up saved blocks.
fn damage(unit: &Unit, at: usize, value: u8) {
    let mut saved = unit.as_bytes().to_vec();
    saved[at] = value;
    tell("  check", Unit::load(&saved).map(|_| Some(0)));
}

/// A Portable Pixmap; the sum (FNV-1a) tells whether another program drew the same.
fn write_picture(path: &str, picture: &[Rgb555]) -> std::io::Result<()> {
    let bytes: Vec<u8> = picture.iter().flat_map(|word| word.to_rgb8()).collect();
    let sum = bytes.iter().fold(2166136261, |sum: u32, b| {
        (sum ^ u32::from(*b)).wrapping_mul(16777619)
    });
    println!("picture {sum:08X}");
    let mut file = std::fs::File::create(path)?;
    write!(file, "P6\n{WIDTH} {HEIGHT}\n255\n")?;
    file.write_all(&bytes)
}

fn main() -> Result<(), Box<dyn Error>> {
    let path = std::env::args().nth(1).ok_or("usage: plate OUT.ppm")?;
    tell(
        "post_boot",
        calls::post_boot(&mut [0; sporedrift::BLOCK - 1]).map(|()| Some(0)),
    );
    let mut unit = Unit::post_boot();
    tell("post_boot", Ok(Some(0)));
    let pal01 = [
        0x01, 0xDF, 0x7B, 0x1F, 0x02, 0xB0, 0x01, 0x43, 0x10, 0xE0, 0x3A, 0x60, 0x25, 0x84, 0x10, 0,
    ];
    send(&mut unit, "PAL01", &pal01);
    send(
        &mut unit,
        "ATTR_BLK",
        &[0x21, 0x01, 0x03, 0x05, 4, 3, 15, 14, 0, 0, 0, 0, 0, 0, 0, 0],
    );
    send(
        &mut unit,
        "a command of two packets, cut",
        &[0x02, 0, 0, 0, 0, 0, 0, 0, 0, 0, 0, 0, 0, 0, 0, 0],
    );
    send(
        &mut unit,
        "CHR_TRN",
        &[0x99, 0, 0, 0, 0, 0, 0, 0, 0, 0, 0, 0, 0, 0, 0, 0],
    );
    transfer(&mut unit, &tiles_page());
    send(
        &mut unit,
        "PCT_TRN",
        &[0xA1, 0, 0, 0, 0, 0, 0, 0, 0, 0, 0, 0, 0, 0, 0, 0],
    );
    transfer(&mut unit, &map_page());
    println!("screen");
    show(&mut unit, &packed(|x, y| ((x / 16 + y / 12) % 4) as u8));
    let picture = look(&unit)?;
    println!("damaged");
    for (at, value) in [(0, 4), (8, 129), (11, 1), (15_180, 0x1B), (19_940, 0xFF)] {
        damage(&unit, at, value);
    }
    write_picture(&path, &picture)?;
    Ok(())
}
