//! Teletext rows with boxes and with text outside them, and samples for the
//! sentences of request 2.

use super::accents::good_pair;
use super::header::good_header;
use super::open::with_text;
use super::plan::Plan;
use super::sets::{add_user_blocks, set};
use super::text::{bad_fragment, good_character, row_of, SOUP};
use crate::dice::Dice;
use crate::display::Display;

/// "the end box"
pub(super) const END: u8 = 0x0A;
pub(super) const START: u8 = 0x0B;

/// A row of exactly so many cells, with text in its boxes and outside.
pub(super) fn boxed_row(dice: &mut Dice, length: usize) -> Vec<u8> {
    let flavour = dice.below(9);
    let mut cells: Vec<Vec<u8>> = (0..length).map(|cell| slug_cell(dice, flavour, cell)).collect();
    if length > 0 {
        put_boxes(dice, &mut cells);
    }
    cells.concat()
}

/// A cell of the text, inside and outside alike: box codes come later.
fn slug_cell(dice: &mut Dice, flavour: usize, cell: usize) -> Vec<u8> {
    match flavour {
        // Words, now and then in a colour.
        0 | 1 if dice.chance(20) => vec![dice.pick(b"  \x01\x03\x06\x07")],
        0 | 1 => vec![dice.byte_between(b'a', b'z')],
        // A background that goes on over the edges of the boxes.
        2 | 3 => match cell {
            0 => vec![dice.byte_between(0, 7)],
            1 => vec![0x1D],
            _ => vec![dice.pick(b"    ABCDab\xA0\x01\x07\x1D\x1C")],
        },
        // Blanks, and what only looks like one.
        4 => vec![dice.pick(b"    \xA0\xA0\x01\x1D\x1C")],
        5 if dice.chance(50) => good_pair(dice).to_vec(),
        5 => vec![dice.pick(b"<>&'\" aeiou")],
        // Colours of all sorts, and more boxes.
        6 | 7 => vec![dice.pick(SOUP)],
        _ => vec![good_character(dice)],
    }
}

/// Turns some of the cells into box codes, once or, as files in use have them,
/// twice.
fn put_boxes(dice: &mut Dice, cells: &mut [Vec<u8>]) {
    let twice = dice.chance(40);
    for (place, code) in box_codes(dice, cells.len()) {
        cells[place] = vec![code];
        if twice && place + 1 < cells.len() {
            cells[place + 1] = vec![code];
        }
    }
}

/// Box codes and their places in a row of so many cells, not 0.
fn box_codes(dice: &mut Dice, length: usize) -> Vec<(usize, u8)> {
    let mut places = [0; 4].map(|_| dice.below(length));
    places.sort_unstable();
    let [first, second, third, fourth] = places;
    match dice.below(13) {
        // Text behind the end box.
        0..=2 => vec![(0, START), (third, END)],
        // In front of the box.
        3 => vec![(second, START), (length - 1, END)],
        // On both sides.
        4 | 5 => vec![(first, START), (third, END)],
        // Between two boxes, too.
        6 | 7 => vec![(first, START), (second, END), (third, START), (fourth, END)],
        // 0Ah only, so nothing is shown; 0Bh only, so the box ends with the row.
        8 => vec![(second, END)],
        9 => vec![(second, START)],
        // A 0Ah outside any box.
        10 => vec![(first, END), (second, START), (fourth, END)],
        _ => (0..dice.between(1, 6)).map(|_| (dice.below(length), dice.pick(&[START, END]))).collect(),
    }
}

pub(super) fn box_case(dice: &mut Dice) -> Plan {
    let plan = Plan::of(dice, Display::Teletext);
    match dice.below(12) {
        0..=4 => any_boxes(dice, plan),
        5 | 6 => rows_beside_rows(dice, plan),
        7 | 8 => blocks_of_boxes(dice, plan),
        9 => hidden_faults(dice, plan),
        10 => long_row(dice, plan),
        _ => accents_and_boxes(dice, plan),
    }
}

/// Short texts of box codes, colours, blanks and letters in any order.
fn any_boxes(dice: &mut Dice, plan: Plan) -> Plan {
    let soups: [&[u8]; 4] = [
        b"\x0A\x0B A",
        b"\x0A\x0B\x01\x1D A",
        b"\x0A\x0B\x0B\x01\x02\x07\x1D\x1D\x1C  A\xA0",
        b"\x0A\x0A\x0B\x0B\x01\x1DA \x8A",
    ];
    let soup = dice.pick(&soups);
    let mut text = if dice.chance(30) { vec![0x0D] } else { Vec::new() };
    text.extend((0..dice.between(1, 14)).map(|_| dice.pick(soup)));
    with_text(dice, plan, 1, &text)
}

/// Rows with and without boxes in any order: no box goes on in the next row.
fn rows_beside_rows(dice: &mut Dice, plan: Plan) -> Plan {
    let rows: [&[u8]; 12] = [
        b"A",
        b" B \xA0",
        b"",
        b"\x01\x1DA ",
        b"\x0BA",
        b"x\x0B\x0B\x04\x1DA",
        b"A\x0A",
        b"\x01\x1DA\x0A ",
        b"\x0BA\x0Ax",
        b"\x01x\x0BA\x0A",
        b"\x01\x1D\x0BA\x0Ax\x0BB\x0A\x0A",
        b"\x0A\x1D\x0B",
    ];
    let double = dice.chance(40);
    let end: &[u8] = if double && plan.mode == 2 { b"\x8A\x8A" } else { b"\x8A" };
    let count = dice.between(2, 5);
    let mut text = (0..count).map(|_| dice.pick(&rows)).collect::<Vec<_>>().join(end);
    if double {
        text.insert(0, 0x0D);
    }
    with_text(dice, plan, 12, &text)
}

/// Box codes as the last and first code of blocks, and around user blocks.
fn blocks_of_boxes(dice: &mut Dice, mut plan: Plan) -> Plan {
    let texts: [&[u8]; 10] = [
        b"\x0B",
        b"\x0A",
        b"A\x0A",
        b"A\x0B",
        b"\x0AB",
        b"\x0BB",
        b"x\xC2",
        b"e\x01",
        b"\x1D ",
        b"\x0BA\x0A\x8A",
    ];
    let mut pieces: Vec<Vec<u8>> = (0..dice.between(2, 7)).map(|_| dice.pick(&texts).to_vec()).collect();
    // An accent always finds its letter.
    for at in 1..pieces.len() {
        if pieces[at - 1].ends_with(b"\xC2") {
            pieces[at] = b"e\x0A".to_vec();
        }
    }
    pieces.push(b"ex".to_vec());
    let header = good_header(dice, 1, plan.rate);
    plan.blocks = set(dice, &header, 12, &pieces);
    add_user_blocks(dice, &mut plan);
    plan
}

/// "hidden codes are still tested": what is refused, outside a box or inside.
fn hidden_faults(dice: &mut Dice, plan: Plan) -> Plan {
    let fault = match dice.below(4) {
        0 => b"A\x0D".to_vec(),
        1 => b"\x0D".to_vec(),
        _ => bad_fragment(dice, Display::Teletext),
    };
    let starts: [&[u8]; 6] = [b"", b"x", b"\x0A", b"\x0BA\x0A", b"\x0BA\x0Ax", b"\x0B"];
    let ends: [&[u8]; 5] = [b"", b"\x0BA\x0A", b"\x0A", b"\x01\x0BA", b"\x8AB"];
    let text = [dice.pick(&starts), &fault, dice.pick(&ends)].concat();
    with_text(dice, plan, 12, &text)
}

/// 63 to 66 cells with hidden ones among them.
fn long_row(dice: &mut Dice, plan: Plan) -> Plan {
    let cells = dice.pick(&[63, 64, 64, 65, 65, 66]);
    let mut text = boxed_row(dice, cells);
    if dice.chance(40) {
        text.push(0x8A);
        let cells = dice.between(0, 64);
        text.extend(row_of(dice, Display::Teletext, cells));
    }
    with_text(dice, plan, 12, &text)
}

/// A box code after an accent and before one, in one block or over its end.
fn accents_and_boxes(dice: &mut Dice, mut plan: Plan) -> Plan {
    let code = dice.pick(&[START, START, END]);
    let accent = dice.pick(&[0xC1, 0xC2, 0xC3, 0xC8]);
    let texts = match dice.below(5) {
        0 => vec![vec![accent, code, b'e']],
        1 => vec![vec![b'x', START, accent], vec![code, b'e']],
        2 => vec![vec![START], vec![accent], vec![b' ', code, accent], vec![b'q', END, accent, b'a']],
        3 => vec![vec![accent], vec![b'e', code, accent, b'u'], vec![END, accent, b'o']],
        _ => vec![vec![code, accent, b'e', START, accent], vec![b'a', b' ']],
    };
    let header = good_header(dice, 1, plan.rate);
    plan.blocks = set(dice, &header, 20, &texts);
    plan
}
