//! Damaged blocks: which rule is broken, at which byte, and in which words.

use sporedrift::Rule::{self, V1, V2, V3, V4, V5, V6};
use sporedrift::{
    BLOCK, COMMAND, PICTURE, Refusal, Rgb555, SCREEN, STATE_SPANS, Unit, calls, field_text,
};

fn idle() -> Vec<u8> {
    Unit::post_boot().as_bytes().to_vec()
}

/// In a first packet: twenty bits are in.
fn receiving() -> Vec<u8> {
    let mut block = idle();
    block[5] = 1;
    block[8] = 20;
    block[16..19].copy_from_slice(&[0xFF, 0xFF, 0x0F]);
    block
}

/// Between two packets: two of three are in.
fn awaiting() -> Vec<u8> {
    let mut block = idle();
    block[5..8].copy_from_slice(&[2, 3, 2]);
    block[32..64].fill(0xFF);
    block[32] = 0x03;
    block
}

/// Idle, and the preset is not in force.
fn plain() -> Vec<u8> {
    let mut block = idle();
    block[9] = 0;
    block[144..152].fill(0);
    block
}

/// A valid block, damaged so, must break this rule at this byte, which is in this field.
fn broken(mut block: Vec<u8>, damage: &[(usize, u8)], rule: Rule, offset: usize, field: &str) {
    assert_eq!(calls::check(&block), Ok(()));
    for (at, value) in damage {
        block[*at] = *value;
    }
    let refusal = Unit::load(&block).unwrap_err();
    assert_eq!(refusal, Refusal::Rule { rule, offset }, "{damage:?}");
    assert_eq!(refusal.number(), 20 + rule.number());
    assert_eq!(refusal.offset(), Some(offset));
    assert_eq!(field_text(offset), Some(field));
    let number = refusal.number();
    let byte = format!("byte {offset} ({offset:#X}), {field}");
    let due = format!("rule {rule} is broken at {byte} (refusal {number})");
    assert_eq!(refusal.to_string(), due);
    every_call_refuses(&block, refusal);
}

/// Whether what else is lent is right or not; and nothing that is lent changes.
fn every_call_refuses(block: &[u8], refusal: Refusal) {
    for right in [true, false] {
        let at = if right { 0 } else { 1000 };
        let mut after = block.to_vec();
        let mut command = vec![0x5A; if right { COMMAND } else { 0 }];
        let mut words = vec![Rgb555(0xA5C3); if right { PICTURE } else { 0 }];
        let screen = vec![0x1B; if right { SCREEN } else { 0 }];
        let mut fields = [0x3C; 12];
        let mut spans = STATE_SPANS.map(|(_, most)| vec![0x3C; if right { most } else { 0 }]);
        let lent = spans.each_mut().map(|span| &mut span[..]);
        let told = [
            calls::check(&after),
            calls::write_joypad(&mut after, 0x00, &mut command).map(drop),
            calls::play(&mut after, &[0x00, 0x30], &mut command).map(drop),
            calls::update_screen(&mut after, &screen).map(drop),
            calls::mask_mode(&after).map(drop),
            calls::backdrop(&after).map(drop),
            calls::color_at(&after, at, at, 0).map(drop),
            calls::map_entry(&after, at, at).map(drop),
            calls::border_color_at(&after, at, at).map(drop),
            calls::row(&after, at, &mut words).map(drop),
            calls::picture(&after, &mut words).map(drop),
            calls::to_spans(&after, &mut fields, lent).map(drop),
        ];
        assert_eq!(told, [Err(refusal); 12]);
        assert_eq!(after, block);
        assert!(command.iter().all(|byte| *byte == 0x5A));
        assert!(words.iter().all(|word| *word == Rgb555(0xA5C3)));
        let state = spans.iter().flatten().chain(&fields);
        assert!(state.into_iter().all(|byte| *byte == 0x3C));
    }
}

#[test]
fn v1_mask_and_pads() {
    broken(idle(), &[(0, 4)], V1, 0, "the mask mode");
    broken(idle(), &[(1, 1)], V1, 1, "the joypad index");
    broken(idle(), &[(2, 4)], V1, 2, "the joypad mask");
}

#[test]
fn v2_flags_and_unused_bytes() {
    broken(idle(), &[(3, 0)], V2, 3, "the P15-high flag");
    broken(idle(), &[(4, 2)], V2, 4, "the both-high flag");
    broken(idle(), &[(9, 2)], V2, 9, "the preset-in-force flag");
    broken(idle(), &[(12, 2)], V2, 12, "the frozen-present flag");
    broken(idle(), &[(15, 1), (14, 1)], V2, 14, "an unused byte");
}

#[test]
fn v3_the_receiver() {
    let (expected, received) = (
        "the number of packets expected",
        "the number of packets received",
    );
    broken(idle(), &[(5, 3)], V3, 5, "the receiver");
    broken(idle(), &[(7, 1)], V3, 7, received);
    broken(idle(), &[(8, 1)], V3, 8, "the bit index");
    broken(receiving(), &[(8, 129)], V3, 8, "the bit index");
    broken(receiving(), &[(8, 129), (6, 1)], V3, 6, expected);
    broken(receiving(), &[(18, 0x1F)], V3, 18, "the current packet");
    broken(receiving(), &[(143, 1)], V3, 143, "the packet store");
    broken(awaiting(), &[(7, 3)], V3, 6, expected);
    broken(awaiting(), &[(7, 0)], V3, 7, received);
    broken(awaiting(), &[(31, 1)], V3, 31, "the current packet");
    broken(awaiting(), &[(64, 1)], V3, 64, "the packet store");
}

#[test]
fn v4_a_transfer() {
    broken(idle(), &[(10, 4), (11, 9)], V4, 10, "the countdown");
    broken(idle(), &[(11, 1)], V4, 11, "the transfer's kind");
    broken(idle(), &[(10, 3), (11, 5)], V4, 11, "the transfer's kind");
}

#[test]
fn v5_the_preset() {
    broken(idle(), &[(9, 0)], V5, 144, "the preset");
    broken(plain(), &[(151, 1)], V5, 151, "the preset");
}

#[test]
fn v6_the_frozen_capture() {
    broken(idle(), &[(0, 1)], V6, 0, "the mask mode");
    broken(idle(), &[(0, 3), (12, 1)], V6, 0, "the mask mode");
    broken(idle(), &[(14_180, 1)], V6, 14_180, "the frozen capture");
    broken(plain(), &[(19_939, 1)], V6, 19_939, "the frozen capture");
}

#[test]
fn the_first_rule_wins() {
    broken(idle(), &[(15, 1), (5, 3)], V2, 15, "an unused byte");
    broken(idle(), &[(143, 1), (10, 4)], V3, 143, "the packet store");
    broken(idle(), &[(11, 1), (0, 1)], V4, 11, "the transfer's kind");
}

#[test]
fn words_and_numbers() {
    let refusal = Refusal::Rule {
        rule: V6,
        offset: 15_180,
    };
    assert_eq!(
        refusal.to_string(),
        "rule V6 is broken at byte 15180 (0x3B4C), the frozen capture (refusal 26)"
    );
    for (rule, number) in [V1, V2, V3, V4, V5, V6].into_iter().zip(1..) {
        assert_eq!(rule.number(), number);
        assert_eq!(rule.to_string(), format!("V{number}"));
    }
}

#[test]
fn every_byte_has_a_name() {
    assert!((0..BLOCK).all(|at| field_text(at).is_some()));
    let starts = (1..BLOCK).filter(|at| field_text(*at) != field_text(at - 1));
    let fields = 1..14;
    let parts = [
        16, 32, 144, 152, 184, 274, 4370, 8420, 14180, 19940, 28132, 29924,
    ];
    assert!(starts.eq(fields.chain(parts)));
    assert_eq!(field_text(BLOCK), None);
    assert_eq!(field_text(usize::MAX), None);
}
