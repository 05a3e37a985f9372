//! The unit by its safe interface: worked examples of docs/RULES.md (RULES 10) that need no log.

use sporedrift::{
    BorderMapEntry, MaskMode, Refusal, Rgb555, SCREEN, Transfer, Unit, encode, verdict, version,
};

/// A command by its pulses; the unit must answer it at the last write, and only there.
fn send(unit: &mut Unit, command: &[u8]) {
    let writes = encode(command).unwrap();
    let told: Vec<_> = writes
        .iter()
        .filter_map(|w| unit.write_joypad(*w))
        .collect();
    assert_eq!(told.len(), 1);
    assert_eq!(told[0].as_bytes(), command);
}

fn packet(start: &[u8]) -> [u8; 16] {
    let mut packet = [0; 16];
    packet[..start.len()].copy_from_slice(start);
    packet
}

#[test]
fn a_command_comes_back() {
    let mut unit = Unit::post_boot();
    send(&mut unit, &packet(&[0xB9, 0x02]));
    assert_eq!(
        unit.as_bytes()[..13],
        [2, 0, 0, 1, 1, 0, 0, 0, 0, 1, 0, 0, 0]
    );
    assert_eq!(unit.mask_mode(), MaskMode::Black);
    let long: Vec<u8> = (0..112).map(|i| if i == 0 { 0x27 } else { i }).collect();
    send(&mut unit, &long);
}

#[test]
fn a_transfer_lands_at_the_third_screen() {
    let mut unit = Unit::post_boot();
    let screen = vec![0; SCREEN];
    for (code, d1, kind) in [
        (0x0B, 0, Transfer::Palettes),
        (0x15, 0, Transfer::AttributeFiles),
        (0x13, 0, Transfer::BorderTiles { upper_half: false }),
        (0x13, 1, Transfer::BorderTiles { upper_half: true }),
        (0x14, 0, Transfer::BorderMap),
    ] {
        send(&mut unit, &packet(&[code << 3 | 1, d1]));
        assert_eq!(unit.pending(), Some((3, kind)));
        assert_eq!(unit.as_bytes()[11], kind.number());
        let told: Vec<_> = (0..4)
            .map(|_| unit.update_screen(&screen).unwrap())
            .collect();
        assert_eq!(told, [None, None, Some(kind), None]);
    }
    assert_eq!(unit.update_screen(&screen[1..]), Err(Refusal::Screen));
}

#[test]
fn a_saved_unit_goes_on_where_it_was() {
    let mut unit = Unit::post_boot();
    let writes = encode(&packet(&[0x01, 0xFF, 0x7F])).unwrap();
    for write in &writes[..100] {
        unit.write_joypad(*write);
    }
    let mut again = Unit::load(unit.as_bytes()).unwrap();
    for write in &writes[100..] {
        assert_eq!(unit.write_joypad(*write), again.write_joypad(*write));
    }
    assert_eq!(unit, again);
    assert_eq!(unit.backdrop(), Rgb555(0x7FFF));
    assert_eq!(Unit::load(&unit.as_bytes()[1..]), Err(Refusal::Length));
}

#[test]
fn a_frozen_screen_stays() {
    let mut unit = Unit::post_boot();
    unit.update_screen(&[0x1B; SCREEN]).unwrap();
    send(&mut unit, &packet(&[0xB9, 0x01]));
    let before = unit.picture();
    unit.update_screen(&[0xE4; SCREEN]).unwrap();
    assert_eq!(unit.displayed_screen(), [0x1B; SCREEN]);
    assert_eq!(unit.picture(), before);
    send(&mut unit, &packet(&[0xB9, 0x00]));
    assert_eq!(unit.displayed_screen(), [0xE4; SCREEN]);
    assert_ne!(unit.picture(), before);
}

#[test]
fn rows_are_the_pictures() {
    let mut unit = Unit::default();
    unit.update_screen(&[0x1B; SCREEN]).unwrap();
    let rows: Vec<Rgb555> = (0..224).flat_map(|y| unit.row(y).unwrap()).collect();
    assert_eq!(unit.picture(), rows);
    let mut lent: Box<[Rgb555; 57_344]> = vec![Rgb555(1); 57_344].try_into().unwrap();
    unit.picture_into(&mut lent);
    assert_eq!(lent[..], rows);
    assert_eq!(unit.row(224), Err(Refusal::Place));
}

#[test]
fn colours_map_words_and_verdicts() {
    assert_eq!(Rgb555(0x67BF).to_rgb8(), [255, 238, 202]);
    assert_eq!(Rgb555(0x8000).to_rgb8(), [0, 0, 0]);
    assert_eq!(Unit::new().backdrop(), Rgb555(0x67BF));
    assert_eq!(Unit::new().border_color_at(0, 0), Ok(None));
    assert_eq!(Unit::new().map_entry(31, 27), Ok(BorderMapEntry(0)));
    let entry = BorderMapEntry(0xB7FF);
    assert_eq!((entry.tile(), entry.palette()), (0x3FF, 5));
    assert!(!entry.flip_x() && entry.flip_y());
    assert_eq!(Unit::new().tile(255).map(<[u8]>::len), Some(32));
    assert_eq!(Unit::new().tile(256), None);
    assert_eq!(verdict(&packet(&[0xB9, 0x02])), Ok(true));
    assert_eq!(verdict(&packet(&[0xD1])), Ok(false));
    assert_eq!(verdict(&[]), Err(Refusal::Command));
}

#[test]
fn pads_take_turns() {
    let mut unit = Unit::post_boot();
    send(&mut unit, &packet(&[0x89, 0x01])); // MLT_REQ for two pads
    assert_eq!(unit.joypad_mask(), 1);
    let before = unit.joypad_index();
    unit.play_all(&[0x10, 0x30], |_| panic!("no command"));
    assert_eq!(unit.joypad_index(), before ^ 1);
}

#[test]
fn what_is_printed_is_short() {
    assert_eq!(
        format!("{:?}", Unit::new()),
        "Unit { mask_mode: Shown, joypad_index: 0, pending: None, backdrop: Rgb555(0x67BF), .. }"
    );
    let mut unit = Unit::post_boot();
    let told = unit.play(&encode(&packet(&[0xB9, 0xA2])).unwrap());
    let command = told.command.unwrap();
    assert_eq!(command.to_string(), "B9A20000000000000000000000000000");
    assert_eq!((command.code(), command.packets()), (0x17, 1));
    assert_eq!(
        format!("{:?}", BorderMapEntry(0x5003)),
        "BorderMapEntry { tile: 3, palette: 4, flip_x: true, flip_y: false }"
    );
}

#[test]
fn the_library_has_this_version() {
    assert_eq!(version().to_string(), env!("CARGO_PKG_VERSION"));
}
