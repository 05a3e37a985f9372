//! Writes in a row against the same writes one by one, and the sample's log by its lines.

use sporedrift::{Command, Line, PLAY, Refusal, Unit, encode, lines, parse_line};

/// Numbers that look random, from a seed (a linear congruential generator).
struct Chance(u64);

impl Chance {
    fn below(&mut self, n: usize) -> usize {
        self.0 = self
            .0
            .wrapping_mul(6_364_136_223_846_793_005)
            .wrapping_add(1_442_695_040_888_963_407);
        (self.0 >> 33) as usize % n
    }

    /// Pulses of random commands, idle polls and random bytes in turns.
    fn writes(&mut self, n: usize) -> Vec<u8> {
        let mut writes = vec![];
        while writes.len() < n {
            match self.below(4) {
                0 => writes.extend((0..self.below(40)).map(|_| self.0 as u8 & 0x30)),
                1 => writes.extend([0x20, 0x10, 0x30].repeat(self.below(20))),
                2 => {
                    let some = self.below(300);
                    writes.extend((0..some).map(|_| self.below(256) as u8));
                }
                _ => {
                    let packets = self.below(7) + 1;
                    let mut command: Vec<u8> =
                        (0..16 * packets).map(|_| self.below(256) as u8).collect();
                    command[0] = (self.below(30) << 3 | packets) as u8;
                    writes.extend(encode(&command).unwrap());
                }
            }
        }
        writes
    }
}

fn one_by_one(unit: &mut Unit, writes: &[u8]) -> Vec<(usize, Command)> {
    let told = writes.iter().enumerate();
    told.filter_map(|(at, write)| Some((at + 1, unit.write_joypad(*write)?)))
        .collect()
}

#[test]
fn in_a_row_is_one_by_one() {
    let mut chance = Chance(20_261_116);
    for _ in 0..40 {
        let (mut single, mut row) = (Unit::post_boot(), Unit::post_boot());
        let mut commands = 0;
        for _ in 0..20 {
            let n = chance.below(3000);
            let writes = chance.writes(n);
            let due = one_by_one(&mut single, &writes);
            let (mut told, mut at) = (vec![], 0);
            while at < writes.len() {
                let played = row.play(&writes[at..]);
                at += played.taken;
                match played.command {
                    Some(command) => told.push((at, command)),
                    None => assert_eq!(at, writes.len()),
                }
            }
            assert_eq!(told, due);
            assert_eq!(row, single);
            commands += due.len();
        }
        assert!(commands > 0);
    }
}

#[test]
fn pieces_of_any_size_are_the_whole() {
    let mut chance = Chance(7);
    let writes = chance.writes(20_000);
    let (mut whole, mut pieces) = (Unit::new(), Unit::new());
    let (mut due, mut told) = (vec![], vec![]);
    whole.play_all(&writes, |command| due.push(command));
    let mut left = &writes[..];
    while !left.is_empty() {
        let (piece, rest) = left.split_at(chance.below(400).min(left.len()));
        pieces.play_all(piece, |command| told.push(command));
        left = rest;
    }
    assert!(due.len() > 3);
    assert_eq!(told, due);
    assert_eq!(pieces, whole);
}

#[test]
fn nothing_and_very_much() {
    let mut unit = Unit::post_boot();
    let before = unit.clone();
    let nothing = unit.play(&[]);
    assert_eq!((nothing.taken, nothing.command), (0, None));
    assert_eq!(unit, before);
    let polls = vec![0x30; PLAY + 5];
    assert_eq!(unit.play(&polls).taken, PLAY);
    assert_eq!(unit.play(&polls[..PLAY]).taken, PLAY);
    unit.play_all(&polls, |_| panic!("no command"));
    assert_eq!(unit, before);
}

#[test]
fn the_sample_draws_its_plate() {
    let folder = concat!(env!("CARGO_MANIFEST_DIR"), "/../../samples/");
    let log = std::fs::read(format!("{folder}dusk.log")).unwrap();
    let mut unit = Unit::post_boot();
    let mut printed = String::new();
    for line in lines(&log) {
        match parse_line(line).unwrap() {
            Line::Writes(writes) => unit.play_all(&writes, |c| printed += &format!("{c}\n")),
            Line::Screen(screen) => drop(unit.update_screen(&screen).unwrap()),
            _ => panic!("a line of another kind"),
        }
    }
    for byte in &unit.as_bytes()[..13] {
        printed += &format!("{byte:02X}");
    }
    printed += "\n";
    let replay = std::fs::read_to_string(format!("{folder}dusk.replay")).unwrap();
    assert_eq!(printed, replay);
    let drawn = unit.picture();
    let rows = drawn
        .chunks(256)
        .map(|row| row.iter().map(|w| format!("{:04X}", w.0)).collect());
    let rows: Vec<String> = rows.collect();
    let plate = std::fs::read_to_string(format!("{folder}dusk.plate")).unwrap();
    assert_eq!(rows, plate.lines().collect::<Vec<_>>());
}

#[test]
fn lines_and_their_refusal() {
    assert_eq!(parse_line(b"0100ff"), Ok(Line::Writes(vec![0, 0xFF])));
    let screen = [b"02".to_vec(), b"1b".repeat(5760)].concat();
    assert_eq!(parse_line(&screen), Ok(Line::Screen(vec![0x1B; 5760])));
    assert_eq!(parse_line(&screen[..100]), Err(Refusal::Line));
    assert_eq!(parse_line(b""), Err(Refusal::Line));
}
