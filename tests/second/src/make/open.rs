//! Samples for the sentences of request 1, open subtitles.

use super::header::good_header;
use super::plan::{Plan, MNR};
use super::sets::{add_user_blocks, pieces, set};
use super::spoil::{any_rows, spoil, spoil_count};
use super::switches::{open_row, OPEN_SOUP, SWITCHES, THIN_OPEN_SOUP};
use crate::dice::Dice;
use crate::display::Display;

pub(super) fn open_case(dice: &mut Dice) -> Plan {
    match dice.below(16) {
        0 | 1 => rows_of_the_screen(dice),
        2 => display_standard(dice),
        3 => positions(dice),
        4 => last_rows(dice),
        5 => long_row(dice),
        6..=9 => any_switches(dice),
        10 => next_subtitles(dice),
        11 => blocks_of_switches(dice),
        12 => codes_of_the_other_kind(dice),
        13 => accents_and_switches(dice),
        _ => row_ends(dice),
    }
}

/// A screen that is high enough for any text here at VP 0.
fn high(dice: &mut Dice) -> Plan {
    let rows = dice.pick(&[24, 25, 99]);
    Plan::of(dice, Display::Open { rows })
}

/// Adds a set with this text.
fn add(dice: &mut Dice, plan: &mut Plan, sn: u16, position: u8, text: &[u8]) {
    let header = good_header(dice, sn, plan.rate);
    let pieces = pieces(dice, text);
    let blocks = set(dice, &header, position, &pieces);
    plan.blocks.extend(blocks);
}

/// The plan with one subtitle of this text, and perhaps user blocks.
pub(super) fn with_text(dice: &mut Dice, mut plan: Plan, position: u8, text: &[u8]) -> Plan {
    add(dice, &mut plan, 1, position, text);
    if dice.chance(20) {
        add_user_blocks(dice, &mut plan);
    }
    plan
}

/// Good and bad MNR, also in teletext files, and beside other faults of the
/// GSI.
fn rows_of_the_screen(dice: &mut Dice) -> Plan {
    let mut plan = if dice.chance(75) { Plan::open(dice) } else { Plan::new(dice) };
    if dice.chance(70) {
        plan.gsi[MNR..MNR + 2].copy_from_slice(&any_rows(dice));
    }
    // VP 0 stands on every open screen.
    let position = if plan.display.is_open() { 0 } else { 20 };
    let mut plan = with_text(dice, plan, position, b"Hi");
    for fault in [1, 3, 4, 5] {
        if dice.chance(6) {
            spoil(dice, &mut plan, fault);
        }
    }
    if dice.chance(15) {
        spoil_count(dice, &mut plan);
    }
    plan
}

/// Every DSC, with texts that only one kind may have.
fn display_standard(dice: &mut Dice) -> Plan {
    let mut plan = Plan::new(dice);
    if !plan.display.is_open() && dice.chance(70) {
        plan.gsi[MNR..MNR + 2].copy_from_slice(b"23");
    }
    let any = dice.byte();
    let next_to_digits = dice.byte_between(b'/', b':');
    plan.gsi[11] = dice.pick(&[b'0', b'0', b'1', b'2', next_to_digits, 0x00, 0x01, b' ', 0xB0, any]);
    let position = dice.pick(&[0, 1, 1, 10]);
    let text = dice.pick(&[&b"Hi"[..], b"Hi", b"H\x80i", b"H\x03i", b"\x0DHi"]);
    with_text(dice, plan, position, text)
}

/// VP 0, and on both sides of MNR.
fn positions(dice: &mut Dice) -> Plan {
    let plan = Plan::open(dice);
    let rows = plan.display.end();
    let any = dice.byte();
    let position = dice.pick(&[0, 0, 1, rows - 1, rows - 1, rows - 1, rows, rows, rows + 1, 24, 255, any]);
    with_text(dice, plan, position, b"\x80x")
}

/// Rows that end at MNR, one before and one past.
fn last_rows(dice: &mut Dice) -> Plan {
    let plan = Plan::open(dice);
    let rows = usize::from(plan.display.end());
    let position = match dice.below(3) {
        0 => 0,
        1 => dice.below(rows),
        _ => rows - dice.between(1, 4.min(rows)),
    };
    let fit = rows - position;
    let count = dice.pick(&[fit, fit, fit + 1, fit.max(2) - 1]);
    let cells = dice.between(0, 3);
    let text: Vec<Vec<u8>> = (0..count).map(|_| open_row(dice, cells)).collect();
    with_text(dice, plan, position as u8, &text.join(&0x8A))
}

/// 63 to 66 cells, with few switches between them and with many.
fn long_row(dice: &mut Dice) -> Plan {
    let plan = high(dice);
    let cells = dice.pick(&[63, 64, 64, 64, 65, 65, 66]);
    let mut text = open_row(dice, cells);
    if dice.chance(30) {
        // Only switches in front, which may fill more than one block.
        let switch = dice.pick(SWITCHES);
        let count = dice.pick(&[1, 10, 64, 112, 200]);
        text.splice(0..0, vec![switch; count]);
    }
    if dice.chance(40) {
        text.push(0x8A);
        let cells = dice.between(0, 64);
        text.extend(open_row(dice, cells));
    }
    with_text(dice, plan, 0, &text)
}

/// Short texts of switches, spaces, letters and row ends in any order.
fn any_switches(dice: &mut Dice) -> Plan {
    let plan = high(dice);
    let soup =
        dice.pick(&[OPEN_SOUP, THIN_OPEN_SOUP, b"\x80\x81\x82\x83 A\x8A", b"\x82\x82\x83  A\x80\x81\x8A"]);
    let length = dice.between(0, 16);
    let text: Vec<u8> = (0..length).map(|_| dice.pick(soup)).collect();
    with_text(dice, plan, 0, &text)
}

/// Subtitles that leave switches on, and plain ones after them.
fn next_subtitles(dice: &mut Dice) -> Plan {
    let mut plan = high(dice);
    let texts: [&[u8]; 8] =
        [b"\x80A", b"\x82A\x8AB", b"A\x80\x82", b"\x80\x82 \x8A", b" A B ", b" ", b"A\x8A B", b"\x81\x83A"];
    for sn in 1..=dice.between(2, 5) as u16 {
        let text = dice.pick(&texts);
        add(dice, &mut plan, sn, 0, text);
    }
    add_user_blocks(dice, &mut plan);
    plan
}

/// Switches as the last and first code of blocks, in blocks of their own, and
/// around user blocks.
fn blocks_of_switches(dice: &mut Dice) -> Plan {
    let mut plan = high(dice);
    let mut texts = Vec::new();
    for _ in 0..dice.between(2, 6) {
        let length = dice.pick(&[1, 1, 2, 3, 112]);
        texts.push(match dice.below(4) {
            0 => vec![dice.pick(SWITCHES); length],
            1 => vec![dice.pick(SWITCHES), dice.pick(b" A\x8A")],
            2 => vec![dice.pick(b" A\x8A"), dice.pick(SWITCHES)],
            _ => vec![b'x', b' '],
        });
    }
    let header = good_header(dice, 1, plan.rate);
    plan.blocks = set(dice, &header, 0, &texts);
    add_user_blocks(dice, &mut plan);
    plan
}

/// A teletext code, 84h or 85h in an open file, 80h to 85h in a teletext file.
fn codes_of_the_other_kind(dice: &mut Dice) -> Plan {
    let open = dice.chance(60);
    let plan = if open { high(dice) } else { Plan::of(dice, Display::Teletext) };
    let code = match dice.below(3) {
        0 => dice.byte_between(0x80, 0x85),
        1 if open => dice.pick(&[0x84, 0x85]),
        _ if open => dice.byte_between(0x00, 0x1F),
        _ => dice.byte_between(0x80, 0x85),
    };
    let text = match dice.below(3) {
        0 => vec![code],
        1 => vec![b'A', code, b'B'],
        _ => vec![b'A', 0x8A, code, b'B', code],
    };
    with_text(dice, plan, 1, &text)
}

/// A switch after an accent and before one, in one block or over its end.
fn accents_and_switches(dice: &mut Dice) -> Plan {
    let mut plan = high(dice);
    let switch = dice.pick(SWITCHES);
    let accent = dice.pick(&[0xC1, 0xC2, 0xC3, 0xC8]);
    let texts = match dice.below(4) {
        0 => vec![vec![accent], vec![switch, b'e']],
        1 => vec![vec![b'x', accent, switch], vec![b'e']],
        2 => vec![vec![switch], vec![accent], vec![dice.pick(b"e q"), switch], vec![b'x']],
        _ => vec![vec![b' ', switch, accent, dice.pick(b"e q"), switch, accent], vec![b'a', b' ']],
    };
    let header = good_header(dice, 1, plan.rate);
    plan.blocks = set(dice, &header, 0, &texts);
    plan
}

/// Runs of 8Ah of any length, good in both break modes; and bad modes.
fn row_ends(dice: &mut Dice) -> Plan {
    let mut plan = high(dice);
    let mut text = Vec::new();
    for _ in 0..dice.between(1, 4) {
        text.extend(dice.pick(&[&b"A"[..], b"\x80A", b"A\x82", b"\x83 A \x81", b"\x82 ", b""]));
        text.resize(text.len() + dice.between(1, 4), 0x8A);
    }
    text.extend(dice.pick(&[&b"B"[..], b"", b" B "]));
    if dice.chance(10) {
        spoil(dice, &mut plan, 1);
    }
    with_text(dice, plan, 0, &text)
}
