//! Faults of codes and accent pairs: 13.

use super::{add_set, pieces_near};
use crate::dice::Dice;
use crate::display::Display;
use crate::make::plan::Plan;
use crate::make::text::{bad_fragment, good_position, good_text};

pub(super) fn codes(dice: &mut Dice) -> Plan {
    let mut plan = Plan::new(dice);
    let Plan { mode, display, .. } = plan;
    let text = good_text(dice, display);
    let position = good_position(dice, display, text.lines());
    let mut text = text.joined(mode);
    if dice.chance(50) {
        text.splice(0..0, filling(dice));
    }
    let at = add_fault(dice, display, &mut text);
    // The first of several counts.
    if dice.chance(25) {
        let later = dice.between(at, text.len());
        let fragment = bad_fragment(dice, display);
        text.splice(later..later, fragment);
    }
    let pieces = pieces_near(dice, &text, at);
    add_set(dice, &mut plan, position, &pieces);
    plan
}

/// Rows in front, so that the fault can stand at the end of a full block.
fn filling(dice: &mut Dice) -> Vec<u8> {
    let length = dice.pick(&[56, 111, 112, 150, 223]);
    (1..=length).map(|cell| if cell % 50 == 0 { 0x8A } else { b'x' }).collect()
}

/// Gives its place.
fn add_fault(dice: &mut Dice, display: Display, text: &mut Vec<u8>) -> usize {
    if dice.chance(25) {
        // An accent with nothing after it.
        text.push(dice.pick(&[0xC1, 0xC2, 0xC8, 0xC9, 0xCF]));
        return text.len() - 1;
    }
    let at = match dice.below(5) {
        0 => 0,
        1 => text.len(),
        _ => dice.between(0, text.len()),
    };
    let fragment = bad_fragment(dice, display);
    text.splice(at..at, fragment);
    at
}
