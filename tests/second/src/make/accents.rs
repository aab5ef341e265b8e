//! Accents before letters, before spaces and before what they cannot stand before,
//! and samples for the sentences of request 4.

use super::header::good_header;
use super::open::with_text;
use super::plan::Plan;
use super::sets::set;
use super::switches::OPEN_SOUP;
use super::text::SOUP;
use super::why::add_users_inside;
use crate::characters::{composed, ACCENTS};
use crate::dice::Dice;
use crate::display::Display;

/// One of the thirteen.
pub(super) fn listed_accent(dice: &mut Dice) -> u8 {
    dice.pick(&ACCENTS).0
}

fn letter(dice: &mut Dice) -> u8 {
    dice.byte_between(b'A', b'Z') + dice.pick(&[0, 32])
}

/// Any accent, C9h and CCh among them, and any letter or 20h.
pub(super) fn any_pair(dice: &mut Dice) -> [u8; 2] {
    let next = if dice.chance(5) { b' ' } else { letter(dice) };
    [dice.byte_between(0xC1, 0xCF), next]
}

/// A pair that gives a cell: a composed letter, a letter and its mark, or U+00A0
/// and the mark.
pub(super) fn good_pair(dice: &mut Dice) -> [u8; 2] {
    match dice.below(3) {
        0 => letter_pair(dice, true),
        1 => letter_pair(dice, false),
        _ => [listed_accent(dice), b' '],
    }
}

/// An accent and a letter that have a composed letter, or have none.
fn letter_pair(dice: &mut Dice, wanted: bool) -> [u8; 2] {
    loop {
        let (accent, letter) = (listed_accent(dice), letter(dice));
        if composed(accent, letter).is_some() == wanted {
            return [accent, letter];
        }
    }
}

/// An accent before what is no letter and no 20h, or what is no accent of the
/// thirteen before such a code: 13 in both kinds of file.
pub(super) fn bad_pair(dice: &mut Dice) -> [u8; 2] {
    let accent = listed_accent(dice);
    match dice.below(9) {
        0 => [accent, dice.byte_between(0xC0, 0xCF)],
        1 => [accent, accent],
        2 => [accent, 0x8A],
        3 => [accent, dice.pick(b"\x00\x01\x07\x0A\x0B\x0D\x1C\x1D\x08\x1F")],
        4 => [accent, dice.byte_between(0x80, 0x85)],
        // What only looks like a space or a letter.
        5 => [accent, dice.pick(b"\xA0\xA0\xA0\xE1\xE9\xF1\xF5\xFB\xE5")],
        // Next to the letters and the space.
        6 => [accent, dice.pick(b"@[`{!\x1F\x7F")],
        7 => [accent, dice.pick(b"0139,./\xA6\xD8")],
        _ => [dice.pick(b"\xC0\xC9\xCC"), dice.pick(b"eaEqQ ")],
    }
}

pub(super) fn accent_case(dice: &mut Dice) -> Plan {
    let display = match dice.below(5) {
        0 | 1 => Display::Open { rows: dice.pick(&[24, 30, 99]) },
        _ => Display::Teletext,
    };
    let plan = Plan::of(dice, display);
    match dice.below(13) {
        0..=2 => rows_of_pairs(dice, plan),
        3 | 4 => ends_of_rows(dice, plan),
        5 => long_row(dice, plan),
        6 => one_pair(dice, plan),
        7 => full_block(dice, plan),
        _ => block_ends(dice, plan),
    }
}

/// A line from which twelve rows fit.
const POSITION: u8 = 12;

/// Pairs of all kinds between letters, blanks, and colours and boxes or switches.
fn rows_of_pairs(dice: &mut Dice, plan: Plan) -> Plan {
    let soup = if plan.display.is_open() { OPEN_SOUP } else { SOUP };
    let mut cells: Vec<Vec<u8>> = Vec::new();
    for row in 0..dice.between(1, 3) {
        if row > 0 {
            cells.push(vec![0x8A]);
        }
        for _ in 0..dice.between(1, 12) {
            cells.push(if dice.chance(50) { good_pair(dice).to_vec() } else { vec![dice.pick(soup)] });
        }
    }
    if dice.chance(12) {
        let at = dice.between(0, cells.len());
        cells.insert(at, bad_pair(dice).to_vec());
    }
    with_text(dice, plan, POSITION, &cells.concat())
}

/// Pairs as the first and the last of rows and of the set, with blanks around them
/// or without. The last may be refused.
fn ends_of_rows(dice: &mut Dice, plan: Plan) -> Plan {
    let blanks: [&[u8]; 6] = if plan.display.is_open() {
        [b"", b"", b" ", b"\x80 ", b"\x82", b"\x83 "]
    } else {
        [b"", b"", b" ", b"\x01 ", b"\x01\x1D", b"\x1C"]
    };
    let mut text = Vec::new();
    for row in 0..dice.between(1, 4) {
        if row > 0 {
            text.push(0x8A);
        }
        text.extend(dice.pick(&blanks));
        text.extend(good_pair(dice));
        text.extend(dice.pick(&[&b""[..], b"A", b" ", b" A "]));
        text.extend(good_pair(dice));
        text.extend(dice.pick(&blanks));
    }
    match dice.below(12) {
        0 => text.extend(bad_pair(dice)),
        1 => text.push(listed_accent(dice)),
        2 => text.extend([listed_accent(dice), 0x8A]),
        _ => {}
    }
    with_text(dice, plan, POSITION, &text)
}

/// 63 to 66 cells, most of them pairs or all the same one.
fn long_row(dice: &mut Dice, plan: Plan) -> Plan {
    let cells = dice.pick(&[63, 64, 64, 64, 65, 65, 66]);
    let mut text = if dice.chance(40) {
        let pair = good_pair(dice);
        dice.pick(&[*b"\xC2 ", *b"\xC2q", pair]).repeat(cells)
    } else {
        (0..cells).flat_map(|_| if dice.chance(80) { good_pair(dice).to_vec() } else { vec![b'x'] }).collect()
    };
    if dice.chance(30) {
        text.splice(0..0, *b"\xC2x\x8A");
    }
    with_text(dice, plan, POSITION, &text)
}

/// Nothing but a pair, a lone accent, or a pair and 0Dh.
fn one_pair(dice: &mut Dice, plan: Plan) -> Plan {
    let text = match dice.below(6) {
        0 => bad_pair(dice).to_vec(),
        1 => vec![listed_accent(dice)],
        2 => [&good_pair(dice)[..], b"\x0D"].concat(),
        _ => good_pair(dice).to_vec(),
    };
    with_text(dice, plan, POSITION, &text)
}

/// A pair, or a lone accent, as the last bytes of a block without 8Fh.
fn full_block(dice: &mut Dice, mut plan: Plan) -> Plan {
    let mut text = Vec::new();
    fill(&mut text);
    let end = match dice.below(6) {
        0 => vec![listed_accent(dice)],
        1 => bad_pair(dice).to_vec(),
        _ => good_pair(dice).to_vec(),
    };
    text.truncate(112 - end.len());
    text.extend(end);
    let header = good_header(dice, 1, plan.rate);
    plan.blocks = set(dice, &header, POSITION, &[text]);
    plan
}

/// An accent as the last byte of a block's text, once or several times; what stands
/// after it opens the next block of the set, also behind user blocks.
fn block_ends(dice: &mut Dice, mut plan: Plan) -> Plan {
    let mut pieces = vec![Vec::new()];
    let cuts = dice.pick(&[1, 1, 1, 2, 3]);
    for cut in 1..=cuts {
        let [accent, next] = if cut == cuts && dice.chance(30) { bad_pair(dice) } else { good_pair(dice) };
        let last = pieces.last_mut().expect("there is one piece");
        if dice.chance(30) {
            fill(last);
        } else {
            last.extend(dice.pick(&[&b""[..], b"A", b" ", b"A\x8A"]));
        }
        last.push(accent);
        if dice.chance(10) {
            pieces.push(Vec::new());
        }
        pieces.push(vec![next]);
    }
    let last = pieces.last_mut().expect("there is one piece");
    match dice.below(8) {
        // Nothing after the last accent.
        0 => last.clear(),
        1 | 2 => {}
        3 => last.extend(b"\x8AB"),
        _ => last.extend(b" B"),
    }
    let header = good_header(dice, 1, plan.rate);
    let mut blocks = set(dice, &header, POSITION, &pieces);
    add_users_inside(dice, &mut blocks);
    plan.blocks = blocks;
    plan
}

/// Adds so many bytes that one more fills a block, in rows of at most 56 cells.
fn fill(piece: &mut Vec<u8>) {
    piece.push(0x8A);
    while piece.len() < 111 {
        piece.push(if piece.len() == 56 { 0x8A } else { b'x' });
    }
}
