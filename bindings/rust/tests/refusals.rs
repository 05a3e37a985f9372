//! Every refusal of every call over slices: the block's come first, then the lowest number, and no lent byte changes. rules.rs has those
//! of a broken rule, state.rs those of the calls about states.

use sporedrift::{
    BLOCK, COMMAND, LINE, PAGE, PICTURE, Refusal, Rgb555, Rule, SCREEN, TILE, Unit, WIDTH, calls,
};

fn blocks() -> [(Vec<u8>, Result<(), Refusal>); 4] {
    let valid = Unit::post_boot().as_bytes().to_vec();
    let mut broken = valid.clone();
    broken[13] = 1;
    let mut longer = broken.clone();
    longer.push(0);
    let unused = Refusal::Rule {
        rule: Rule::V2,
        offset: 13,
    };
    [
        (valid, Ok(())),
        (broken, Err(unused)),
        (longer, Err(Refusal::Length)),
        (vec![], Err(Refusal::Length)),
    ]
}

/// What is due: the block's refusal, else the first of these that holds, else whatever the call answers.
fn due<T: PartialEq + std::fmt::Debug>(
    told: Result<T, Refusal>,
    block: Result<(), Refusal>,
    then: &[(bool, Refusal)],
) {
    let own = then
        .iter()
        .find(|(holds, _)| *holds)
        .map(|(_, refusal)| *refusal);
    match block.err().or(own) {
        Some(refusal) => assert_eq!(told, Err(refusal)),
        None => assert!(told.is_ok(), "{told:?}"),
    }
}

#[test]
fn blocks_are_checked_first() {
    for (block, no) in blocks() {
        assert_eq!(calls::check(&block), no);
        due(calls::mask_mode(&block), no, &[]);
        due(calls::backdrop(&block), no, &[]);
        for (x, y, shade) in [
            (0, 0, 0),
            (159, 143, 3),
            (160, 0, 0),
            (0, 144, 0),
            (0, 0, 4),
            (usize::MAX, 0, 255),
        ] {
            due(
                calls::color_at(&block, x, y, shade),
                no,
                &[(x >= 160 || y >= 144 || shade > 3, Refusal::Place)],
            );
        }
        for (x, y) in [
            (0, 0),
            (31, 27),
            (32, 0),
            (0, 28),
            (255, 223),
            (256, 0),
            (0, 224),
            (usize::MAX, usize::MAX),
        ] {
            due(
                calls::map_entry(&block, x, y),
                no,
                &[(x >= 32 || y >= 28, Refusal::Place)],
            );
            due(
                calls::border_color_at(&block, x, y),
                no,
                &[(x >= 256 || y >= 224, Refusal::Place)],
            );
        }
    }
}

#[test]
fn outputs_keep_what_is_not_answered() {
    for (block, no) in blocks() {
        for (y, room) in [
            (0, WIDTH),
            (223, WIDTH + 3),
            (224, WIDTH),
            (0, WIDTH - 1),
            (224, 0),
            (0, 0),
        ] {
            let mut out = vec![Rgb555(0xA5C3); room];
            let told = calls::row(&block, y, &mut out);
            due(
                told,
                no,
                &[(y >= 224, Refusal::Place), (room < WIDTH, Refusal::Output)],
            );
            let kept = if told.is_ok() { WIDTH } else { 0 };
            assert!(out[kept..].iter().all(|word| *word == Rgb555(0xA5C3)));
        }
        for room in [PICTURE, PICTURE + 1, PICTURE - 1, 0] {
            let mut out = vec![Rgb555(0xA5C3); room];
            let told = calls::picture(&block, &mut out);
            due(told, no, &[(room < PICTURE, Refusal::Output)]);
            let kept = if told.is_ok() { PICTURE } else { 0 };
            assert!(out[kept..].iter().all(|word| *word == Rgb555(0xA5C3)));
        }
    }
}

#[test]
fn refused_writes_and_screens_change_nothing() {
    for (block, no) in blocks() {
        for room in [COMMAND, COMMAND + 1, COMMAND - 1, 0] {
            let (mut after, mut command) = (block.clone(), vec![0x5A; room]);
            let told = calls::write_joypad(&mut after, 0x00, &mut command);
            due(told, no, &[(room < COMMAND, Refusal::Output)]);
            assert_eq!(after == block, told.is_err());
            assert!(command.iter().all(|byte| *byte == 0x5A));
            let mut played = block.clone();
            let told = calls::play(&mut played, &[0x00], &mut command);
            due(told, no, &[(room < COMMAND, Refusal::Output)]);
            assert_eq!(played, after);
            assert!(told.is_err() || told == Ok((1, 0)));
        }
        for len in [SCREEN, SCREEN - 1, SCREEN + 1, 0] {
            let mut after = block.clone();
            let told = calls::update_screen(&mut after, &vec![0x1B; len]);
            due(told, no, &[(len != SCREEN, Refusal::Screen)]);
            assert_eq!(after == block, told.is_err());
        }
    }
}

#[test]
fn fresh_blocks_ask_for_the_length_alone() {
    for len in [0, BLOCK - 1, BLOCK, BLOCK + 1] {
        for call in [calls::new, calls::post_boot] {
            let mut block = vec![0xFF; len];
            let told = call(&mut block);
            assert_eq!(
                told,
                if len == BLOCK {
                    Ok(())
                } else {
                    Err(Refusal::Length)
                }
            );
            assert_eq!(calls::check(&block), told);
            assert!(told.is_ok() || block.iter().all(|byte| *byte == 0xFF));
        }
    }
}

#[test]
fn commands_of_another_length_are_refused() {
    let cases: [(&[u8], usize, Option<Refusal>); 6] = [
        (&[], 0, Some(Refusal::Command)),
        (&[0x01; 15], 0, Some(Refusal::Command)),
        (&[0x08; 16], 2000, Some(Refusal::Command)),
        (&[0x02; 32], 519, Some(Refusal::Output)),
        (&[0x02; 32], 520, None),
        (&[0xF0; 16], 261, None),
    ];
    for (command, room, refusal) in cases {
        let mut out = vec![0x77; room];
        let told = calls::encode(command, &mut out);
        let writes = command.len() / 16 * 260;
        assert_eq!(told, refusal.map_or(Ok(writes), Err));
        assert!(out[told.unwrap_or(0)..].iter().all(|byte| *byte == 0x77));
        assert_eq!(
            calls::verdict(command).is_err(),
            refusal == Some(Refusal::Command)
        );
    }
}

#[test]
fn pages_of_another_length_are_refused_before_the_room() {
    for len in [0, 1, 16, PAGE - 1, PAGE, PAGE + 1, SCREEN, 2 * PAGE] {
        let page = vec![0xFF; len];
        for room in [0, 1, SCREEN - 1, SCREEN, SCREEN + 1, 3 * SCREEN] {
            let mut screen = vec![0x77; room];
            let told = calls::page_screen(&page, &mut screen);
            let due = match (len == PAGE, room >= SCREEN) {
                (false, _) => Err(Refusal::Page),
                (true, false) => Err(Refusal::Output),
                (true, true) => Ok(SCREEN),
            };
            assert_eq!(told, due, "{len} bytes, room for {room}");
            assert!(screen[told.unwrap_or(0)..].iter().all(|byte| *byte == 0x77));
        }
        assert_eq!(sporedrift::page_screen(&page).is_ok(), len == PAGE);
    }
}

#[test]
fn parts_are_parts_of_what_is_lent() {
    let (live, frozen) = (vec![1; SCREEN], vec![2; SCREEN]);
    for mode in 0..=255 {
        let shown = calls::displayed_screen(&live, &frozen, mode);
        let due = if mode == 1 { &frozen } else { &live };
        assert!(std::ptr::eq(shown, due.as_slice()));
        assert!(calls::displayed_screen(&live[1..], &frozen, mode).is_empty());
        assert!(calls::displayed_screen(&live, &frozen[1..], mode).is_empty());
    }
    let tiles = vec![0; 8192];
    for n in 0..256 {
        assert!(std::ptr::eq(
            calls::tile(&tiles, n),
            &tiles[n * TILE..][..TILE]
        ));
    }
    for n in [256, 1 << 27, usize::MAX / 32 + 1, usize::MAX] {
        assert!(calls::tile(&tiles, n).is_empty());
    }
    assert!(calls::tile(&tiles[1..], 0).is_empty());
}

#[test]
fn lines_that_are_none_change_nothing() {
    let screen = b"02".repeat(SCREEN + 1);
    let most = b"01".repeat(LINE + 1);
    let cases: [(&[u8], Result<usize, Refusal>); 14] = [
        (b"01", Ok(0)),
        (b"0130aAfF", Ok(3)),
        (&screen, Ok(SCREEN)),
        (&most, Ok(LINE)),
        (b"", Err(Refusal::Line)),
        (b"0", Err(Refusal::Line)),
        (b"00", Err(Refusal::Line)),
        (b"03", Err(Refusal::Line)),
        (b"013", Err(Refusal::Line)),
        (b"0130\r", Err(Refusal::Line)),
        (b"01 30", Err(Refusal::Line)),
        (b"0130\n", Err(Refusal::Line)),
        (&screen[2..], Err(Refusal::Line)),
        (b"0230", Err(Refusal::Line)),
    ];
    for (text, due) in cases {
        for room in [LINE, LINE + 1] {
            let mut bytes = vec![0x77; room];
            let told = calls::parse_line(text, &mut bytes).map(|(_, len)| len);
            assert_eq!(told, due, "{:?}", String::from_utf8_lossy(text));
            let kept = due.unwrap_or(0);
            assert!(bytes[kept..].iter().all(|byte| *byte == 0x77));
        }
        let mut short = vec![0x77; LINE - 1];
        assert_eq!(calls::parse_line(text, &mut short), Err(Refusal::Output));
        assert!(short.iter().all(|byte| *byte == 0x77));
    }
    for other in *b"\r \t\0\n/:@G`g\xB1" {
        for text in [[b'0', b'1', other, b'0'], [b'0', b'1', b'0', other]] {
            assert_eq!(calls::parse_line(&text, &mut [0; LINE]), Err(Refusal::Line));
        }
    }
    let longer = b"01".repeat(LINE + 2);
    assert_eq!(
        calls::parse_line(&longer, &mut [0; LINE]),
        Err(Refusal::Line)
    );
}

#[test]
fn numbers_and_words() {
    let all = [
        (Refusal::Length, 1),
        (Refusal::Screen, 3),
        (Refusal::Place, 4),
        (Refusal::Command, 5),
        (Refusal::Output, 6),
        (Refusal::Line, 7),
        (Refusal::Span, 8),
        (Refusal::Cell, 9),
        (Refusal::Page, 10),
    ];
    for (refusal, number) in all {
        assert_eq!(refusal.number(), number);
        assert_eq!(refusal.offset(), None);
        assert!(
            refusal
                .to_string()
                .ends_with(&format!(" (refusal {number})"))
        );
    }
    let error: Box<dyn std::error::Error> = Refusal::Line.into();
    assert_eq!(
        error.to_string(),
        "the text is no line of a log (refusal 7)"
    );
}
