//! Faults of rows: 15.

use super::{add_set, pieces_near};
use crate::dice::Dice;
use crate::display::Display;
use crate::make::accents::good_pair;
use crate::make::plan::Plan;
use crate::make::text::row_of;

pub(super) fn rows(dice: &mut Dice) -> Plan {
    let screens = [1, 2, 11, 24, 25, 99].map(|rows| Display::Open { rows });
    let display = if dice.chance(40) { dice.pick(&screens) } else { Display::Teletext };
    let mut plan = Plan::of(dice, display);
    let double = !display.is_open() && dice.chance(55);
    // Where pairs end rows there is more to get wrong.
    if double && dice.chance(40) {
        plan.mode = 2;
    }
    let height = if double { 2 } else { 1 };
    let (mut rows, fitting) = any_rows(dice, display);
    let position = any_position(dice, display, fitting, height);
    // The first row with a line past the last, or else the last row.
    let past = usize::from(display.end() - position) / height;
    let past = past.min(rows.len() - 1);
    if dice.chance(35) {
        add_long_rows(dice, display, &mut rows, past);
    }
    // An accent as the first byte.
    if !rows[past].is_empty() && dice.chance(20) {
        rows[past].splice(0..0, good_pair(dice));
    }
    if double {
        add_heights(dice, &mut rows);
    }
    let row_end: &[u8] = if double && plan.mode == 2 { b"\x8A\x8A" } else { b"\x8A" };
    let text = rows.join(row_end);
    // Near the start of a row, or of the break before it.
    let row = if dice.chance(75) { past } else { dice.below(rows.len()) };
    let start = rows[..row].iter().map(|row| row.len() + row_end.len()).sum::<usize>();
    let at = start.saturating_sub(dice.pick(&[0, 0, 1, row_end.len(), row_end.len()]));
    let pieces = pieces_near(dice, &text, at);
    add_set(dice, &mut plan, position, &pieces);
    plan
}

/// Rows with bytes and without, and how many of them are meant to fit.
fn any_rows(dice: &mut Dice, display: Display) -> (Vec<Vec<u8>>, usize) {
    match dice.below(4) {
        0 => short_rows(dice, display),
        1 => rows_after_long_ones(dice, display),
        _ => rows_in_parts(dice, display),
    }
}

/// A few rows, most of them without bytes.
fn short_rows(dice: &mut Dice, display: Display) -> (Vec<Vec<u8>>, usize) {
    let count = dice.between(2, 5);
    let rows: Vec<Vec<u8>> = (0..count)
        .map(|_| {
            let cells = dice.pick(&[0, 0, 1, 2]);
            row_of(dice, display, cells)
        })
        .collect();
    (rows, dice.between(1, count - 1))
}

/// Long rows, which fit, and short ones, most of them without bytes: these can
/// stand at the end of a full block.
fn rows_after_long_ones(dice: &mut Dice, display: Display) -> (Vec<Vec<u8>>, usize) {
    let long = dice.between(2, 3);
    let short = dice.between(1, 2);
    let lengths = (0..long + short).map(|row| if row < long { 50 } else { 0 }).collect::<Vec<_>>();
    let rows = lengths.into_iter().map(|length| {
        let cells = length + dice.pick(&[0, 0, 3, 12]);
        row_of(dice, display, cells)
    });
    (rows.collect(), long)
}

/// Rows without bytes at the start, in the middle, at the end, everywhere or
/// nowhere.
fn rows_in_parts(dice: &mut Dice, display: Display) -> (Vec<Vec<u8>>, usize) {
    let empty = dice.pick(&[
        [true, false, false],
        [false, true, false],
        [false, false, true],
        [true, true, true],
        [false, false, false],
    ]);
    let mut rows = Vec::new();
    for part in empty {
        for _ in 0..dice.between(1, 3) {
            let cells = if part { 0 } else { dice.pick(&[0, 1, 3, 20, 50, 63]) };
            rows.push(row_of(dice, display, cells));
        }
    }
    let any = dice.between(1, rows.len());
    let fitting = dice.pick(&[rows.len(), rows.len() - 1, rows.len() - 1, any]);
    (rows, fitting)
}

/// One or two rows of more than 64 cells, or just not.
fn add_long_rows(dice: &mut Dice, display: Display, rows: &mut [Vec<u8>], past: usize) {
    for _ in 0..dice.between(1, 2) {
        let any = dice.below(rows.len());
        let row = dice.pick(&[past, any, any, rows.len() - 1]);
        let cells = dice.pick(&[64, 65, 65, 66, 80]);
        rows[row] = row_of(dice, display, cells);
    }
}

/// 0Dh in the first row always, in a later one perhaps. It takes a cell.
fn add_heights(dice: &mut Dice, rows: &mut [Vec<u8>]) {
    for (number, row) in rows.iter_mut().enumerate() {
        if number == 0 || (!row.is_empty() && dice.chance(25)) {
            row.insert(0, 0x0D);
        }
    }
}

/// A VP from which so many rows fit, in double height sometimes with one line of
/// the next, or only one line.
fn any_position(dice: &mut Dice, display: Display, rows: usize, height: usize) -> u8 {
    let (first, end) = (usize::from(display.first()), usize::from(display.end()));
    let lines = match dice.below(10) {
        0 => 1,
        1 | 2 => rows * height + height - 1,
        _ => rows * height,
    };
    end.saturating_sub(lines).clamp(first, end - 1) as u8
}
