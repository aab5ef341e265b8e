//! Refused files of every kind within a number, for request 3: it asks which
//! byte breaks the rule. Some are good, on the other side of a limit.
//!
//! The fault stands behind good sets and before further ones, in a set of one
//! block or several, with user blocks around and inside.

mod codes;
mod extensions;
mod fields;
mod heights;
mod rows;

use super::header::good_header;
use super::ordinary::subtitle_set;
use super::plan::{Block, Plan};
use super::sets::{comment_set, pieces, set, user_block};
use crate::dice::Dice;

pub(super) fn why_case(dice: &mut Dice) -> Plan {
    match dice.below(40) {
        0 | 1 => fields::gsi(dice),
        2..=8 => extensions::extensions(dice),
        9..=13 => fields::header(dice),
        14..=19 => codes::codes(dice),
        20..=25 => heights::heights(dice),
        _ => rows::rows(dice),
    }
}

/// Adds a set with these pieces of text, and other sets before and behind it.
fn add_set(dice: &mut Dice, plan: &mut Plan, position: u8, pieces: &[Vec<u8>]) {
    let sn = sets_before(dice, plan);
    let header = good_header(dice, sn, plan.rate);
    let mut blocks = set(dice, &header, position, pieces);
    add_users_inside(dice, &mut blocks);
    plan.blocks.extend(blocks);
    set_behind(dice, plan, sn + 1);
}

/// Adds good sets and user blocks, or none. Gives the SN of the next set.
fn sets_before(dice: &mut Dice, plan: &mut Plan) -> u16 {
    let count = dice.pick(&[0, 0, 0, 1, 1, 2]);
    for sn in 1..=count {
        let blocks = if dice.chance(30) { comment_set(dice, sn) } else { subtitle_set(dice, sn, plan, &[]) };
        plan.blocks.extend(blocks);
    }
    if dice.chance(20) {
        plan.blocks.push(user_block(dice));
    }
    count + 1
}

/// Adds a set whose faults, if it has any, come too late.
fn set_behind(dice: &mut Dice, plan: &mut Plan, sn: u16) {
    if dice.chance(20) {
        let faults: [&[u8]; 4] = [&[], &[13], &[14], &[15]];
        let faults = dice.pick(&faults);
        let blocks = subtitle_set(dice, sn, plan, faults);
        plan.blocks.extend(blocks);
    }
}

/// Puts user blocks between the blocks of a set.
pub(super) fn add_users_inside(dice: &mut Dice, blocks: &mut Vec<Block>) {
    if blocks.len() < 2 || dice.chance(35) {
        return;
    }
    for _ in 0..dice.between(1, 4) {
        let at = dice.between(1, blocks.len() - 1);
        let block = user_block(dice);
        blocks.insert(at, block);
    }
}

/// Cuts a text into pieces of at most 112 bytes, most often so that a block ends
/// near this place of it.
fn pieces_near(dice: &mut Dice, text: &[u8], at: usize) -> Vec<Vec<u8>> {
    let anywhere = [dice.between(0, text.len()), dice.between(0, text.len())];
    let cuts = match dice.below(8) {
        // It is the last byte of a block of 112, where so much stands before it.
        0..=2 if at >= 111 => vec![at - 111, at + 1],
        // In front of it, behind it, or both.
        0 | 3 => vec![at],
        1 | 4 => vec![at + 1],
        2 => vec![at, at + 1],
        5 => vec![at, at + 1, at + 2],
        6 => anywhere.to_vec(),
        _ => return pieces(dice, text),
    };
    let mut pieces = cut(text, cuts);
    if dice.chance(25) {
        let at = dice.between(0, pieces.len());
        pieces.insert(at, Vec::new());
    }
    pieces
}

/// The pieces between the cuts, and smaller ones where they are too long.
fn cut(text: &[u8], mut cuts: Vec<usize>) -> Vec<Vec<u8>> {
    cuts.push(text.len());
    cuts.sort_unstable();
    let mut pieces = Vec::new();
    let mut start = 0;
    for end in cuts.into_iter().map(|cut| cut.min(text.len())) {
        pieces.extend(text[start..end].chunks(112).map(<[u8]>::to_vec));
        start = end;
    }
    // A set has a block at least.
    if pieces.is_empty() {
        pieces.push(Vec::new());
    }
    pieces
}
