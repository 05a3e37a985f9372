//! Which commands conform (RULES 7.2): how many items packets hold, and what a unit carries out of them.

use sporedrift::{Refusal, Unit, calls, encode, verdict};

/// ATTR_BLK, ATTR_LIN and ATTR_CHR, and the most sets, lines and cells that 1 to 7 packets may announce.
const HELD: [(u8, [u16; 7]); 3] = [
    (0x04, [2, 5, 7, 10, 13, 15, 18]),
    (0x05, [14, 30, 46, 62, 78, 94, 110]),
    (0x07, [40, 104, 168, 232, 296, 360, 0]),
];

/// A command of so many packets that announces so many items; each of its other bytes is `rest`.
fn announcing(code: u8, packets: u8, items: u16, rest: u8) -> Vec<u8> {
    let mut command = vec![rest; 16 * usize::from(packets)];
    command[0] = code << 3 | packets;
    if code == 0x07 {
        command[3..5].copy_from_slice(&items.to_le_bytes());
    } else {
        command[1] = items.try_into().unwrap();
    }
    command
}

/// ATTR_BLK that announces eighteen sets. Each set that is there gives palette 3 to one cell, the first to cell 0, and so on.
fn eighteen_sets(packets: u8) -> Vec<u8> {
    let mut command = announcing(0x04, packets, 18, 0);
    for (x, set) in (0..).zip(command[2..].chunks_exact_mut(6)) {
        set.copy_from_slice(&[0x02, 0x0C, x, 0, x, 0]);
    }
    command
}

/// How many cells of the attribute map have palette 3 after a command; all others must have palette 0.
fn coloured(command: &[u8]) -> usize {
    let mut unit = Unit::post_boot();
    unit.play_all(&encode(command).unwrap(), |received| {
        assert_eq!(received.as_bytes(), command)
    });
    let map = &unit.as_bytes()[184..274];
    let cells = map
        .iter()
        .flat_map(|byte| [6, 4, 2, 0].map(|k| byte >> k & 3));
    cells
        .inspect(|palette| assert!(matches!(palette, 0 | 3)))
        .filter(|palette| *palette == 3)
        .count()
}

#[test]
fn eighteen_sets_in_one_packet_and_in_seven() {
    assert_eq!(verdict(&eighteen_sets(1)), Ok(false));
    assert_eq!(verdict(&eighteen_sets(7)), Ok(true));
    // the unit doesn't look at the verdict, and takes the sets that are there
    for (packets, held) in (1..).zip(HELD[0].1) {
        let command = eighteen_sets(packets);
        assert_eq!(verdict(&command), Ok(held == 18));
        assert_eq!(coloured(&command), held.into());
    }
}

#[test]
fn what_packets_hold_and_one_more() {
    for (code, row) in HELD {
        for (packets, held) in (1..).zip(row) {
            for rest in [0x00, 0xFF, 0xA5] {
                let told = |items| {
                    let command = announcing(code, packets, items, rest);
                    let told = verdict(&command);
                    assert_eq!(calls::verdict(&command), told);
                    told.unwrap()
                };
                let what = format!("{code:02X} in {packets}, which hold {held}");
                assert!(!told(0), "{what}: none");
                assert_eq!(told(1), held > 0, "{what}: one");
                assert_eq!(told(held), held > 0, "{what}: as many");
                assert!(!told(held + 1), "{what}: one more");
                assert_eq!(told(255), held >= 255, "{what}: 255");
            }
        }
    }
    // of a word the high byte counts too, and seven packets of cells are one too many
    for items in [256, 257, 360, 361, 0xFF01, 0xFFFF] {
        assert_eq!(verdict(&announcing(0x07, 2, items, 0)), Ok(false));
    }
    for items in [1, 40, 360] {
        assert_eq!(verdict(&announcing(0x07, 7, items, 0)), Ok(false));
    }
}

#[test]
fn the_fewest_packets_and_more() {
    for (code, row) in HELD {
        let most = *row.iter().max().unwrap();
        for items in 1..=most {
            for (packets, held) in (1..).zip(row) {
                let told = verdict(&announcing(code, packets, items, 0));
                assert_eq!(
                    told,
                    Ok(items <= held),
                    "{items} of {code:02X} in {packets}"
                );
            }
        }
    }
}

#[test]
fn what_conforms_is_carried_out_to_its_last_item() {
    for (packets, held) in (1..).zip(HELD[2].1) {
        for items in 1..=held {
            // every cell takes palette 3, row by row from the first on, and there are data for more
            let mut command = announcing(0x07, packets, items, 0xFF);
            command[1..3].fill(0);
            command[5] = 0;
            assert_eq!(verdict(&command), Ok(true));
            assert_eq!(coloured(&command), items.into());
        }
    }
    for (packets, held) in (1..).zip(HELD[1].1) {
        for items in 1..=held {
            // a column that isn't there, again and again, and column 0 as the last
            let mut command = announcing(0x05, packets, items, 0x1F);
            command[1 + usize::from(items)] = 0x60;
            assert_eq!(verdict(&command), Ok(true));
            assert_eq!(coloured(&command), 18);
        }
    }
}

#[test]
fn other_commands_announce_nothing() {
    for first in 0..=255u8 {
        let (code, packets) = (first >> 3, if first < 0xF0 { first & 7 } else { 1 });
        if matches!(code, 0x04 | 0x05 | 0x07) {
            continue;
        }
        for rest in [0x00, 0xFF] {
            let mut command = vec![rest; 16 * usize::from(packets)];
            command.iter_mut().take(1).for_each(|byte| *byte = first);
            let due = match packets {
                0 => Err(Refusal::Command),
                _ => Ok(packets == 1 && code <= 0x19),
            };
            assert_eq!(verdict(&command), due, "{first:02X}");
        }
    }
}
