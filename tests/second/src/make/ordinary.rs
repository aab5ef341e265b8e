//! Ordinary samples: a few sets, in some samples with faults. Those of the text
//! (13 to 15) are made here, the others in `spoil`.

use super::header::{good_header, next_number};
use super::plan::{Block, Plan};
use super::sets::{add_user_blocks, comment_set, pieces, set};
use super::spoil::spoil;
use super::text::{bad_fragment, good_position, good_text, row_of, Text};
use crate::dice::Dice;
use crate::display::Display;

pub(super) fn ordinary(dice: &mut Dice) -> Plan {
    let faults: Vec<u8> = match dice.below(100) {
        0..=54 => vec![],
        55..=90 => vec![fault(dice)],
        91..=97 => vec![fault(dice), fault(dice)],
        _ => (0..dice.between(3, 6)).map(|_| fault(dice)).collect(),
    };
    with_faults(dice, faults)
}

/// A plan with these faults, good if there are none.
pub(super) fn with_faults(dice: &mut Dice, faults: Vec<u8>) -> Plan {
    let mut plan = Plan::new(dice);
    let sets = match dice.below(40) {
        0 => 0,
        1 => dice.between(5, 20),
        2..=4 => 4,
        5..=9 => 3,
        10..=19 => 2,
        _ => 1,
    };
    // The set in which the text of a fault stands.
    let target = dice.below(sets.max(1));
    let mut before = None;
    for number in 0..sets {
        if before == Some(u16::MAX) {
            break;
        }
        let sn = next_number(dice, before);
        before = Some(sn);
        let text_faults: Vec<u8> =
            faults.iter().copied().filter(|fault| number == target && (13..=15).contains(fault)).collect();
        if text_faults.is_empty() && dice.chance(10) {
            let blocks = comment_set(dice, sn);
            plan.blocks.extend(blocks);
            continue;
        }
        let blocks = subtitle_set(dice, sn, &plan, &text_faults);
        plan.blocks.extend(blocks);
    }
    // Where the first blocks stand is asked while the plan is still good.
    let mut others: Vec<u8> = faults.into_iter().filter(|fault| *fault < 13).collect();
    others.sort_unstable_by(|left, right| right.cmp(left));
    add_user_blocks(dice, &mut plan);
    for fault in others {
        spoil(dice, &mut plan, fault);
    }
    plan
}

/// The number at which a fault is aimed.
pub(super) fn fault(dice: &mut Dice) -> u8 {
    // The block numbers more often than those of the GSI.
    dice.pick(&[1, 2, 3, 4, 5, 6, 7, 7, 7, 8, 9, 9, 10, 11, 11, 12, 12, 13, 13, 13, 14, 14, 14, 15, 15, 15])
}

/// A subtitle set, its text with faults of numbers 13 to 15.
pub(super) fn subtitle_set(dice: &mut Dice, sn: u16, plan: &Plan, faults: &[u8]) -> Vec<Block> {
    let Plan { mode, display, .. } = *plan;
    let mut text = good_text(dice, display);
    let mut position = good_position(dice, display, text.lines());
    if faults.contains(&15) {
        position = spoil_fit(dice, display, &mut text, position);
    }
    let mut bytes = match faults.contains(&14) {
        // There is no height in open subtitles.
        true if display.is_open() => spoil_breaks(dice, &text),
        true => spoil_height(dice, &mut text, mode),
        false => text.joined(mode),
    };
    if faults.contains(&13) {
        spoil_codes(dice, display, &mut bytes);
    }
    let header = good_header(dice, sn, plan.rate);
    let pieces = pieces(dice, &bytes);
    set(dice, &header, position, &pieces)
}

/// Aims at 13.
pub(super) fn spoil_codes(dice: &mut Dice, display: Display, text: &mut Vec<u8>) {
    if dice.chance(10) {
        // An accent with nothing after it.
        text.push(dice.pick(&[0xC1, 0xC2, 0xC8, 0xCF]));
        return;
    }
    let fragment = bad_fragment(dice, display);
    let at = match dice.below(4) {
        0 => 0,
        1 => text.len(),
        _ => dice.between(0, text.len()),
    };
    text.splice(at..at, fragment);
}

/// Aims at 14. Gives the joined text.
pub(super) fn spoil_height(dice: &mut Dice, text: &mut Text, mode: u64) -> Vec<u8> {
    match dice.below(4) {
        // 0Dh after a code of 20h or above in its row.
        0 => {
            let row = dice.below(text.rows.len());
            let row = &mut text.rows[row];
            let fragment = dice.pick(&[&b"A\x0D"[..], b" \x0D", b"\xC2e\x01\x0D", b"\xA0\x07\x0B\x0D"]);
            let at = dice.pick(&[0, row.len()]);
            row.splice(at..at, fragment.iter().copied());
            text.joined(mode)
        }
        // 0Dh in a later row of a single-height subtitle.
        1 => {
            text.rows.iter_mut().for_each(|row| row.retain(|&code| code != 0x0D));
            text.double = false;
            if text.rows.len() == 1 {
                text.rows.push(b"B".to_vec());
            }
            let row = dice.between(1, text.rows.len() - 1);
            let at = dice.pick(&[0, text.rows[row].len()]);
            text.rows[row].insert(at, 0x0D);
            text.joined(mode)
        }
        _ => spoil_breaks(dice, text),
    }
}

/// Runs of 8Ah of odd and even lengths: good in mode 1, and in mode 2 if the
/// height is single.
fn spoil_breaks(dice: &mut Dice, text: &Text) -> Vec<u8> {
    let mut bytes = text.rows[0].clone();
    for row in &text.rows[1..] {
        bytes.resize(bytes.len() + dice.between(1, 4), 0x8A);
        bytes.extend(row);
    }
    if dice.chance(50) {
        bytes.resize(bytes.len() + dice.between(1, 4), 0x8A);
    }
    bytes
}

/// Aims at 15. Gives the VP.
pub(super) fn spoil_fit(dice: &mut Dice, display: Display, text: &mut Text, position: u8) -> u8 {
    let end = usize::from(display.end());
    match dice.below(4) {
        // A row of 63 to 66 cells; 0Dh is one of them.
        0 => {
            let row = dice.below(text.rows.len());
            let length = dice.pick(&[63, 64, 65, 65, 65, 66, 80]);
            let controls = usize::from(text.rows[row].contains(&0x0D));
            let mut cells = row_of(dice, display, length - controls);
            if controls == 1 {
                cells.insert(0, 0x0D);
            }
            text.rows[row] = cells;
            position
        }
        // One line more than fits, or exactly as many.
        1 | 2 => {
            let highest = end - text.lines();
            dice.between(highest, highest + 2).min(end - 1) as u8
        }
        // One row more than fits, or exactly as many.
        _ => {
            let room = (end - usize::from(position)) / if text.double { 2 } else { 1 };
            let wanted = dice.between(room, room + 1).max(text.rows.len());
            text.rows.resize(wanted, Vec::new());
            position
        }
    }
}
