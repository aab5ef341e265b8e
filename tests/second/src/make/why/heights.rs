//! Faults of heights and breaks: 14.

use super::{add_set, pieces_near};
use crate::dice::Dice;
use crate::display::Display;
use crate::make::plan::Plan;

pub(super) fn heights(dice: &mut Dice) -> Plan {
    let mut plan = Plan::of(dice, Display::Teletext);
    plan.mode = dice.pick(&[1, 2, 2, 2]);
    let text = text(dice);
    // Near a code that the rule is about, in many texts the first row end.
    let codes: &[u8] = if dice.chance(50) { b"\x8A" } else { b"\x0D\x8A" };
    let places: Vec<usize> = (0..text.len()).filter(|&at| codes.contains(&text[at])).collect();
    let at = if dice.chance(40) { places[0] } else { dice.pick(&places) };
    let pieces = pieces_near(dice, &text, at);
    let position = dice.pick(&[1, 1, 1, 8, 20]);
    add_set(dice, &mut plan, position, &pieces);
    plan
}

/// A first row, runs of 8Ah and later rows, with a fault in the runs, in the
/// rows, in either or in none.
fn text(dice: &mut Dice) -> Vec<u8> {
    let double = dice.chance(75);
    let (bad_runs, bad_rows) = dice.pick(&[(true, false), (true, false), (false, true), (true, true)]);
    let mut text = if double { double_row(dice) } else { dice.pick(&[&b""[..], b"A", b"\x01A"]).to_vec() };
    if bad_rows && dice.chance(25) {
        text.extend(b"A\x0D");
    }
    for _ in 0..dice.between(1, 3) {
        add_run(dice, &mut text, bad_runs);
        let row = later_row(dice, double, bad_rows);
        text.extend(row);
    }
    if dice.chance(50) {
        add_run(dice, &mut text, bad_runs);
    }
    text
}

/// A first row with 0Dh before its characters, if it has any. Now and then it is
/// long, so that what follows can stand at the end of a full block.
fn double_row(dice: &mut Dice) -> Vec<u8> {
    let rows: [&[u8]; 5] = [b"\x0D", b"\x0DA", b"\x01\x0D\x0B\x0BHi\x0A", b"\x0D\x0DA", b"\x0D\x01"];
    let mut row = dice.pick(&rows).to_vec();
    if dice.chance(40) {
        let controls = dice.pick(&[50, 108, 109, 110, 111]);
        row.splice(0..0, vec![0x01; controls]);
    }
    row
}

fn add_run(dice: &mut Dice, text: &mut Vec<u8>, bad: bool) {
    let length = if bad { dice.pick(&[1, 1, 2, 2, 2, 3, 3, 4, 5, 5, 5, 7]) } else { dice.pick(&[2, 2, 4]) };
    text.resize(text.len() + length, 0x8A);
}

fn later_row(dice: &mut Dice, double: bool, bad: bool) -> Vec<u8> {
    let bad_rows: [&[u8]; 6] = [b"B\x0D", b" \x0D", b"\xC2e\x03\x0DB", b"\x0DB\x0D", b"\x0D", b"\x01\x0DB"];
    let double_rows: [&[u8]; 3] = [b"\x0DB", b"\x01\x0D\x0DB", b"\x0D"];
    let rows: [&[u8]; 4] = [b"B", b"", b"\x07CD", b" "];
    if bad && dice.chance(60) {
        dice.pick(&bad_rows).to_vec()
    } else if double && dice.chance(50) {
        dice.pick(&double_rows).to_vec()
    } else {
        dice.pick(&rows).to_vec()
    }
}
