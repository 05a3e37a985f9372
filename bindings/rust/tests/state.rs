//! States of the emulator: out and in again, every length of every span, every refusal in its order.

use sporedrift::Rule::{self, V1, V2, V3, V4, V6};
use sporedrift::{
    BLOCK, PACKET, Refusal, SCREEN, STATE_FIELDS, STATE_SPANS, State, Transfer, Unit, calls, encode,
};

fn play(unit: &mut Unit, start: &[u8], most: usize) {
    let packets = start[0] as usize % 8;
    let mut command: Vec<u8> = (0..PACKET * packets).map(|i| (37 * i) as u8).collect();
    command[..start.len()].copy_from_slice(start);
    let writes = encode(&command).unwrap();
    unit.play_all(&writes[..most.min(writes.len())], |_| ());
}

/// Units of all sorts, by their names.
fn units() -> Vec<(&'static str, Unit)> {
    let mut all = vec![("new", Unit::new()), ("post_boot", Unit::post_boot())];
    let mut unit = Unit::post_boot();
    play(&mut unit, &[0x01], 260); // PAL01: the preset is gone
    play(&mut unit, &[0x21, 0x01, 0x07, 0x1B, 3, 2, 13, 9], 260); // ATTR_BLK
    play(&mut unit, &[0x89, 0x03], 260); // MLT_REQ for four pads
    for (d1, kind) in [(0x59, 0), (0xA9, 1), (0x99, 2), (0xA1, 4)] {
        play(&mut unit, &[d1, 0], 260);
        for k in 0..3 {
            unit.update_screen(&[0x1B + 16 * k + kind; SCREEN]).unwrap();
        }
    }
    all.push(("every table filled", unit.clone()));
    play(&mut unit, &[0xB9, 0x01], 260);
    unit.update_screen(&[0xE4; SCREEN]).unwrap();
    all.push(("frozen", unit.clone()));
    play(&mut unit, &[0x99, 0x01], 260);
    unit.update_screen(&[0x4E; SCREEN]).unwrap();
    all.push(("a transfer pending", unit.clone()));
    play(&mut unit, &[0x01], 100);
    all.push(("in a packet", unit.clone()));
    unit.play_all(&[0x00, 0x30], |_| ()); // a start: the packet begins anew
    let whole = encode(&[vec![0x27], vec![0xFF; 111]].concat()).unwrap();
    unit.play_all(&whole[..260 * 6], |_| ());
    all.push(("between two packets", unit.clone()));
    unit.play_all(&whole[260 * 6..260 * 6 + 200], |_| ());
    all.push(("in the seventh packet", unit));
    all
}

fn frozen() -> (Unit, State) {
    let unit = units().swap_remove(3).1;
    let state = unit.to_state();
    assert_eq!((state.mask, state.frozen_capture.is_some()), (1, true));
    (unit, state)
}

/// A byte of the block for each four cells, the first in the high bits.
fn packed(cells: &[u8]) -> Vec<u8> {
    let four = |c: &[u8]| c.iter().fold(0, |byte, cell| (byte << 2) | (cell % 4));
    cells.chunks(4).map(four).collect()
}

#[test]
fn out_and_in_again() {
    for (name, unit) in units() {
        let state = unit.to_state();
        assert_eq!(Unit::from_state(&state), Ok(unit.clone()), "{name}");
        assert_eq!(State::from(&unit), state);
        assert_eq!(Unit::try_from(&state), Ok(unit.clone()));
        // and both go on alike
        let (mut one, mut other) = (unit, Unit::from_state(&state).unwrap());
        for step in 0..4 {
            let screen = [step; SCREEN];
            assert_eq!(one.update_screen(&screen), other.update_screen(&screen));
            let writes = encode(&[0x51; PACKET]).unwrap();
            assert_eq!(one.play(&writes), other.play(&writes));
        }
        assert_eq!(one, other);
    }
}

#[test]
fn a_state_is_what_the_block_says() {
    for (name, unit) in units() {
        let (block, state) = (unit.as_bytes(), unit.to_state());
        let spans = state.spans();
        let starts = [
            152, 184, 274, 4_370, 16, 32, 8_420, 14_180, 144, 19_940, 28_132, 29_924,
        ];
        for (k, (start, (span, most))) in starts.into_iter().zip(STATE_SPANS).enumerate() {
            let there = match span {
                "frozen_capture" => block[12] == 1,
                "preset" => block[9] == 1,
                _ => true,
            };
            assert_eq!(spans[k].is_some(), there, "{name}: {span}");
            let Some(bytes) = spans[k] else { continue };
            let due = if span == "packets" {
                16 * block[7] as usize
            } else {
                most
            };
            assert_eq!(bytes.len(), due, "{name}: {span}");
            if [1, 3, 6, 7].contains(&k) {
                assert!(bytes.iter().all(|cell| *cell < 4));
                assert_eq!(packed(bytes), block[start..][..most / 4], "{name}: {span}");
            } else {
                assert_eq!(bytes, &block[start..][..due], "{name}: {span}");
            }
        }
        let pending = unit
            .pending()
            .map(|(screens, kind)| (screens, kind.number()));
        assert_eq!(state.transfer, pending);
        let fields = [
            state.mask,
            state.joypad_index,
            state.joypad_mask,
            state.p15_high.into(),
            state.lines_high.into(),
            state.receiver,
            state.packets_expected,
            state.packets_received,
            state.bit_index,
            state.preset_in_force.into(),
        ];
        assert_eq!(fields, block[..10], "{name}");
    }
    let (_, last) = units().pop().unwrap();
    let state = last.to_state();
    assert_eq!((state.receiver, state.packets_expected), (1, 7));
    assert_eq!(state.packets.map(|bytes| bytes.len()), Some(96));
}

#[test]
fn no_transfer_is_none() {
    let mut unit = Unit::post_boot();
    assert_eq!(unit.to_state().transfer, None);
    play(&mut unit, &[0xA1], 260);
    assert_eq!(unit.to_state().transfer, Some((3, 4)));
    for _ in 0..3 {
        unit.update_screen(&[0; SCREEN]).unwrap();
    }
    let mut state = unit.to_state();
    assert_eq!(state.transfer, None);
    // a countdown of 0, which the emulator may hold, is none here: nothing lands
    for kind in 0..5 {
        state.transfer = Some((0, kind));
        let mut again = Unit::from_state(&state).unwrap();
        assert_eq!(again, unit);
        assert_eq!(again.update_screen(&[0xFF; SCREEN]), Ok(None));
    }
    for (countdown, kind) in (1..4).flat_map(|c| (0..5).map(move |k| (c, k))) {
        state.transfer = Some((countdown, kind));
        let mut again = Unit::from_state(&state).unwrap();
        assert_eq!(again.to_state(), state);
        let landed: Vec<Option<Transfer>> = (0..3)
            .map(|_| again.update_screen(&[0xFF; SCREEN]).unwrap())
            .collect();
        let at = landed.iter().position(Option::is_some).unwrap();
        assert_eq!(at + 1, usize::from(countdown));
        assert_eq!(landed[at].map(Transfer::number), Some(kind));
    }
    for (transfer, offset) in [((0, 5), 11), ((3, 5), 11), ((4, 0), 10), ((255, 255), 10)] {
        state.transfer = Some(transfer);
        let no = Refusal::Rule { rule: V4, offset };
        assert_eq!(Unit::from_state(&state), Err(no));
    }
}

#[test]
fn every_length_of_every_span() {
    for (name, unit) in units() {
        let state = unit.to_state();
        for (k, (span, most)) in STATE_SPANS.into_iter().enumerate() {
            let len = state.spans()[k].map_or(most, <[u8]>::len);
            let lengths = [None, Some(0), len.checked_sub(1), Some(len), Some(len + 1)];
            for (len, is) in lengths.into_iter().zip(0..) {
                let mut other = state.clone();
                let bytes = other.spans_mut().into_iter().nth(k).unwrap();
                let old = bytes.take().unwrap_or_default();
                *bytes = len.map(|n| [&old[..], &[0; 23_041]].concat()[..n].to_vec());
                let told = Unit::from_state(&other);
                let optional = span == "preset" && !state.preset_in_force;
                let empty = span == "packets" && state.packets_received == 0 && len == Some(0);
                let border = k >= 9 && is == 0;
                if span == "frozen_capture" && is == 0 {
                    let no = Refusal::Rule {
                        rule: V6,
                        offset: 0,
                    };
                    assert_eq!(told.err(), (state.mask == 1).then_some(no), "{name}");
                } else if span == "frozen_capture" && is == 3 && state.mask == 0 {
                    assert_eq!(told.unwrap().as_bytes()[12], 1, "{name}");
                } else if border {
                    let told = told.unwrap();
                    assert_eq!(told.as_bytes()[..19_940], unit.as_bytes()[..19_940]);
                    assert!(told.as_bytes()[19_940..].iter().all(|byte| *byte == 0));
                } else if is == 3 || optional || empty {
                    assert_eq!(told, Ok(unit.clone()), "{name}: {span} {len:?}");
                } else {
                    assert_eq!(told, Err(Refusal::Span), "{name}: {span} {len:?}");
                }
            }
        }
    }
    assert_eq!(Unit::from_state(&State::default()), Err(Refusal::Span));
}

#[test]
fn what_is_not_looked_at() {
    let (_, unit) = units().swap_remove(2);
    let mut state = unit.to_state();
    assert_eq!((state.preset_in_force, &state.preset), (false, &None));
    state.preset = Some(vec![1; 8]);
    assert_eq!(Unit::from_state(&state), Ok(unit));
}

#[test]
fn no_length_is_right_for_over_seven_packets() {
    let mut state = Unit::post_boot().to_state();
    for received in [8, 9, 255] {
        state.packets_received = received;
        for len in [0, 112, 16 * usize::from(received)] {
            state.packets = Some(vec![0; len]);
            assert_eq!(Unit::from_state(&state), Err(Refusal::Span));
        }
    }
}

#[test]
fn a_border_of_which_a_span_is_missing_is_empty() {
    let (unit, state) = frozen();
    for missing in 1..8 {
        for len in [None, Some(0), Some(7), Some(8_192)] {
            let mut other = state.clone();
            let border = other.spans_mut().into_iter().skip(9);
            for (k, span) in border.enumerate() {
                *span = if missing >> k & 1 == 1 {
                    None
                } else {
                    len.map(|n| vec![1; n])
                };
            }
            let told = Unit::from_state(&other).unwrap();
            assert_eq!(told.as_bytes()[..19_940], unit.as_bytes()[..19_940]);
            assert!(told.as_bytes()[19_940..].iter().all(|byte| *byte == 0));
        }
    }
}

#[test]
fn cells_and_shades() {
    let (unit, state) = frozen();
    for (at, value) in [(0, 4), (359, 4), (17, 255)] {
        let mut other = state.clone();
        other.attribute_map.as_mut().unwrap()[at] = value;
        assert_eq!(Unit::from_state(&other), Err(Refusal::Cell));
    }
    for (at, value) in [(0, 4), (16_199, 4), (8_000, 128)] {
        let mut other = state.clone();
        other.attribute_files.as_mut().unwrap()[at] = value;
        assert_eq!(Unit::from_state(&other), Err(Refusal::Cell));
    }
    let mut other = state.clone();
    let captures = [&mut other.capture, &mut other.frozen_capture];
    for shade in captures.into_iter().flat_map(|c| c.as_mut().unwrap()) {
        *shade |= 0xFC;
    }
    assert_ne!(other, state);
    assert_eq!(Unit::from_state(&other), Ok(unit));
}

#[test]
fn what_no_block_can_hold() {
    fn refused(change: impl FnOnce(&mut State), rule: Rule, offset: usize) {
        let mut state = Unit::post_boot().to_state();
        change(&mut state);
        assert_eq!(
            Unit::from_state(&state),
            Err(Refusal::Rule { rule, offset }),
            "{state:?}"
        );
    }
    refused(|s| s.mask = 4, V1, 0);
    refused(|s| s.joypad_index = 1, V1, 1);
    refused(|s| s.joypad_mask = 4, V1, 2);
    refused(|s| s.p15_high = false, V2, 3);
    refused(|s| s.receiver = 3, V3, 5);
    refused(|s| s.packets_expected = 1, V3, 6);
    refused(|s| s.bit_index = 1, V3, 8);
    refused(|s| s.packet.as_mut().unwrap()[3] = 1, V3, 19);
    refused(
        |s| (s.packets_received, s.packets) = (1, Some(vec![0; 16])),
        V3,
        7,
    );
    refused(|s| (s.receiver, s.bit_index) = (1, 129), V3, 8);
    refused(|s| s.mask = 1, V6, 0);
    refused(
        |s| (s.mask, s.frozen_capture) = (2, s.capture.clone()),
        V6,
        0,
    );
}

/// The call over slices: each refusal, in order, and what is lent stays as it was.
#[test]
fn slices_in() {
    let (unit, state) = frozen();
    let fields: [u8; STATE_FIELDS] = unit.as_bytes()[..12].try_into().unwrap();
    for faults in 0..32 {
        let mut spans = state.spans();
        let mut fields = fields.to_vec();
        let cells = [3; 360].map(|cell| cell + (faults & 8) / 8);
        spans[1] = Some(&cells);
        if faults & 16 != 0 {
            fields[11] = 5;
        }
        if faults & 4 != 0 {
            spans[6] = Some(&spans[6].unwrap()[1..]);
        }
        if faults & 2 != 0 {
            fields.push(0);
        }
        let mut block = vec![0xEE; BLOCK + usize::from(faults & 1)];
        let told = calls::from_spans(&mut block, &fields, spans);
        let due = match faults {
            n if n & 1 != 0 => Err(Refusal::Length),
            n if n & 6 != 0 => Err(Refusal::Span),
            n if n & 8 != 0 => Err(Refusal::Cell),
            0 => Ok(()),
            _ => Err(Refusal::Rule {
                rule: V4,
                offset: 11,
            }),
        };
        assert_eq!(told, due, "{faults}");
        assert!(told.is_ok() || block.iter().all(|byte| *byte == 0xEE));
    }
    let mut block = [0xEE; BLOCK];
    for len in [0, 11, 13] {
        let told = calls::from_spans(&mut block, &vec![0; len], state.spans());
        assert_eq!(told, Err(Refusal::Span));
    }
    // empty slices everywhere, there and missing
    for spans in [[Some(&[][..]); 12], [None; 12]] {
        let told = calls::from_spans(&mut block, &fields, spans);
        assert_eq!(told, Err(Refusal::Span));
        assert_eq!(calls::from_spans(&mut [], &[], spans), Err(Refusal::Length));
    }
    assert_eq!(block, [0xEE; BLOCK]);
}

#[test]
fn slices_out() {
    let (unit, state) = frozen();
    let plain = Unit::post_boot();
    let mut broken = unit.as_bytes().to_vec();
    broken[15] = 1;
    let unused = Refusal::Rule {
        rule: V2,
        offset: 15,
    };
    let blocks = [
        (&unit.as_bytes()[..], None),
        (plain.as_bytes(), None),
        (&broken, Some(unused)),
        (&broken[1..], Some(Refusal::Length)),
        (&[], Some(Refusal::Length)),
    ];
    // no room in one of the thirteen, in any, or in none; and more room than is needed
    for (block, no) in blocks {
        for short in 0..16 {
            let room = |k: usize, most: usize| match short {
                15 => 0,
                14 => most + 5,
                _ if short == k => most - 1,
                _ => most,
            };
            let mut fields = vec![0x77; room(12, STATE_FIELDS)];
            let mut lent = STATE_SPANS.map(|(_, most)| most);
            for (k, most) in lent.iter_mut().enumerate() {
                *most = room(k, *most);
            }
            let mut lent = lent.map(|room| vec![0x77; room]);
            let told = calls::to_spans(block, &mut fields, lent.each_mut().map(|v| &mut v[..]));
            let few = [13, 14].iter().all(|enough| short != *enough);
            let due = no.or(few.then_some(Refusal::Output));
            assert_eq!(told.err(), due, "{short}");
            let kept = |bytes: &[u8]| bytes.iter().all(|byte| *byte == 0x77);
            let Ok(present) = told else {
                assert!(kept(&fields) && lent.iter().all(|bytes| kept(bytes)));
                continue;
            };
            assert_eq!(fields[..12], block[..12]);
            assert!(kept(&fields[12..]));
            let due = Unit::load(block).unwrap().to_state();
            for (k, (bytes, due)) in lent.iter().zip(due.spans()).enumerate() {
                assert_eq!(present >> k & 1 == 1, due.is_some());
                let due = due.unwrap_or_default();
                assert_eq!(&bytes[..due.len()], due);
                assert!(kept(&bytes[due.len()..]));
            }
            assert_eq!(present, if block[12] == 1 { 0xEFF } else { 0xF7F });
        }
    }
    assert_eq!(state.preset, None);
}

#[test]
fn what_is_printed_is_short() {
    let mut state = Unit::post_boot().to_state();
    state.border_map = None;
    assert_eq!(
        format!("{state:?}"),
        "State { mask: 0, joypad_index: 0, joypad_mask: 0, p15_high: true, lines_high: true, receiver: 0, packets_expected: 0, \
         packets_received: 0, bit_index: 0, preset_in_force: true, transfer: None, palettes: 32 bytes, attribute_map: 360 bytes, \
         system_palettes: 4096 bytes, attribute_files: 16200 bytes, packet: 16 bytes, packets: 0 bytes, capture: 23040 bytes, \
         frozen_capture: None, preset: 8 bytes, border_tiles: 8192 bytes, border_map: None, border_palettes: 96 bytes }"
    );
}
