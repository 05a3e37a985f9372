//! state: a unit as a state of the emulator, and back. It prints the state as the emulator has it, a field or a span a line, and what
//! becomes of it when it comes in. examples/c/state.c is the same program over the header: both print examples/state.stdout.

use sporedrift::{Refusal, SCREEN, STATE_SPANS, State, Unit, encode};

/// FNV-1a, which tells whether another program has the same bytes.
fn sum(bytes: &[u8]) -> u32 {
    bytes.iter().fold(2166136261, |sum: u32, byte| {
        (sum ^ u32::from(*byte)).wrapping_mul(16777619)
    })
}

fn show(state: &State) {
    println!("  sgb_mask: {}", state.mask);
    println!("  sgb_joypad_index: {}", state.joypad_index);
    println!("  sgb_joypad_mask: {}", state.joypad_mask);
    println!("  sgb_p15_high: {}", state.p15_high);
    println!("  sgb_lines_high: {}", state.lines_high);
    println!("  sgb_receiver: {}", state.receiver);
    println!("  sgb_packets_expected: {}", state.packets_expected);
    println!("  sgb_packets_received: {}", state.packets_received);
    println!("  sgb_bit_index: {}", state.bit_index);
    println!("  sgb_preset_in_force: {}", state.preset_in_force);
    // else the record must have neither
    if let Some((countdown, kind)) = state.transfer {
        println!("  sgb_transfer_countdown: {countdown}");
        println!("  sgb_transfer_kind: {kind}");
    }
    for ((name, _), span) in STATE_SPANS.into_iter().zip(state.spans()) {
        if let Some(bytes) = span {
            println!(
                "  sgb_{name}: {} bytes, sum {:08X}",
                bytes.len(),
                sum(bytes)
            );
        }
    }
}

fn take(state: &State, unit: &Unit) {
    let other = match Unit::from_state(state) {
        Ok(other) => other,
        Err(refusal) => return println!("  from_state: {refusal}"),
    };
    let same = if other == *unit {
        "the same"
    } else {
        "another"
    };
    println!("  from_state: taken\n  the block: {same}");
    let picture = other.picture();
    let rgb: Vec<u8> = picture.iter().flat_map(|word| word.to_rgb8()).collect();
    println!("  picture: {:08X}", sum(&rgb));
}

/// A command's writes, or the first of them.
fn play(unit: &mut Unit, start: &[u8], most: usize) -> Result<(), Refusal> {
    let mut command = [0; 16];
    command[..start.len()].copy_from_slice(start);
    unit.play_all(&encode(&command)?[..most], |_| ());
    Ok(())
}

/// A screen of eight shades again and again, as often as is said.
fn show_screens(unit: &mut Unit, times: usize, eight: [u8; 2]) -> Result<(), Refusal> {
    let screen = eight.repeat(SCREEN / 2);
    (0..times).try_for_each(|_| unit.update_screen(&screen).map(drop))
}

fn main() -> Result<(), Refusal> {
    let pal01 = [
        0x01, 0xDF, 0x7B, 0x1F, 0x02, 0xB0, 0x01, 0x43, 0x10, 0xE0, 0x3A, 0x60, 0x25, 0x84, 0x10,
    ];
    let attr_blk = [0x21, 0x01, 0x03, 0x05, 4, 3, 15, 14];
    let mut unit = Unit::post_boot();
    println!("after the boot ROM");
    show(&unit.to_state());
    take(&unit.to_state(), &unit);

    println!("a frozen screen, a transfer that is pending, a command that is coming in");
    play(&mut unit, &pal01, 260)?;
    play(&mut unit, &attr_blk, 260)?;
    play(&mut unit, &[0x99], 260)?; // CHR_TRN
    show_screens(&mut unit, 3, [0x4E, 0x1B])?;
    play(&mut unit, &[0xA1], 260)?; // PCT_TRN
    show_screens(&mut unit, 3, [0x02, 0x01])?; // tile 1 in palette 4 everywhere
    play(&mut unit, &[0xB9, 0x01], 260)?; // MASK_EN: freeze
    play(&mut unit, &[0x99], 260)?;
    show_screens(&mut unit, 1, [0xE4, 0x1B])?;
    play(&mut unit, &pal01, 100)?; // not all of its writes
    let mut state = unit.to_state();
    show(&state);
    take(&state, &unit);

    println!("shades with bits above their low two");
    for shade in state.capture.iter_mut().flatten() {
        *shade |= 0xFC;
    }
    take(&state, &unit);

    println!("no border map: the border is empty");
    state.border_map = None;
    take(&state, &unit);

    println!("no frozen capture, and the mask wants one");
    state.frozen_capture = None;
    take(&state, &unit);

    println!("a cell of the attribute map that is 4");
    if let Some(cells) = &mut state.attribute_map {
        cells[359] = 4;
    }
    take(&state, &unit);

    println!("a capture that lacks a byte");
    state.capture.as_mut().and_then(Vec::pop);
    take(&state, &unit);
    Ok(())
}
