//! The blocks of sets, and user blocks.

use super::boxes::{END, START};
use super::header::Header;
use super::plan::{Block, Plan, CF, EBN, JC, LAST, SGN, SN, TCI, TCO, TEXT, USER_DATA, VP};
use super::switches::SWITCHES;
use crate::dice::Dice;

/// Cuts a text into pieces of at most 112 bytes, one for each block.
pub(super) fn pieces(dice: &mut Dice, text: &[u8]) -> Vec<Vec<u8>> {
    let mut pieces = Vec::new();
    let mut rest = text;
    let manner = dice.below(12);
    while !rest.is_empty() || pieces.is_empty() {
        let longest = rest.len().min(112);
        let length = match manner {
            // Anywhere, pieces without text among them.
            0 => dice.between(0, longest),
            // After an accent.
            1 | 2 => match rest[..longest].iter().position(|code| (0xC1..=0xCF).contains(code)) {
                Some(accent) => accent + 1,
                None => longest,
            },
            // After a row end or in a run of them.
            3 => match rest[..longest].iter().position(|&code| code == 0x8A) {
                Some(end) => end + 1,
                None => longest,
            },
            // Before a switch or a box code, which takes at least one code, and
            // after one.
            4 => match rest[..longest].iter().skip(1).position(is_switch_or_box) {
                Some(before) => before + 1,
                None => longest,
            },
            5 => match rest[..longest].iter().position(is_switch_or_box) {
                Some(code) => code + 1,
                None => longest,
            },
            _ => longest,
        };
        pieces.push(rest[..length].to_vec());
        rest = &rest[length..];
        // A set may have at most 241 blocks.
        if pieces.len() + rest.len() / 112 >= 200 {
            break;
        }
    }
    while !rest.is_empty() {
        let longest = rest.len().min(112);
        pieces.push(rest[..longest].to_vec());
        rest = &rest[longest..];
    }
    if dice.chance(4) {
        let at = dice.between(0, pieces.len());
        pieces.insert(at, Vec::new());
    }
    pieces
}

fn is_switch_or_box(code: &u8) -> bool {
    SWITCHES.contains(code) || matches!(*code, END | START)
}

/// The text field of a block: the piece, then 8Fh and what does not count.
pub(super) fn text_field(dice: &mut Dice, piece: &[u8]) -> [u8; 112] {
    let mut field = [0x8F; 112];
    field[..piece.len()].copy_from_slice(piece);
    if piece.len() < 111 {
        match dice.below(10) {
            0 => dice.fill(&mut field[piece.len() + 1..]),
            1 => field[piece.len() + 1..].fill(dice.pick(&[b'x', 0x20, 0x8A, 0x0D, 0x7F, 0x80, 0x82])),
            2 => field[111] = dice.pick(&[b'x', 0xC2, 0x00, 0x82]),
            _ => {}
        }
    }
    field
}

/// The blocks of a set.
pub(super) fn set(dice: &mut Dice, header: &Header, position: u8, pieces: &[Vec<u8>]) -> Vec<Block> {
    let mut blocks = Vec::with_capacity(pieces.len());
    for (number, piece) in pieces.iter().enumerate() {
        let mut block = [0; 128];
        let last = number + 1 == pieces.len();
        // "the remaining header bytes are read in the first only"
        if number > 0 && dice.chance(50) {
            dice.fill(&mut block[..TEXT]);
        } else {
            block[TCI..TCI + 4].copy_from_slice(&header.time_in);
            block[TCO..TCO + 4].copy_from_slice(&header.time_out);
            block[VP] = position;
            block[JC] = header.jc;
        }
        block[SGN] = header.sgn;
        block[SN..SN + 2].copy_from_slice(&header.sn.to_le_bytes());
        block[EBN] = if last { LAST } else { number as u8 };
        block[CF] = header.cf;
        block[TEXT..].copy_from_slice(&text_field(dice, piece));
        blocks.push(block);
    }
    blocks
}

/// A set of a comment: what a comment set is not tested for is wild.
pub(super) fn comment_set(dice: &mut Dice, sn: u16) -> Vec<Block> {
    let count = if dice.chance(70) { 1 } else { dice.between(2, 4) };
    comment_blocks(dice, sn, count)
}

pub(super) fn comment_blocks(dice: &mut Dice, sn: u16, count: usize) -> Vec<Block> {
    let sgn = dice.pick(&[0, 0, 7]);
    let mut blocks = Vec::with_capacity(count);
    for number in 0..count {
        let mut block = [0; 128];
        dice.fill(&mut block);
        if dice.chance(30) {
            block[TCI..TCI + 4].copy_from_slice(&[10, 0, 1, 99]);
        }
        block[SGN] = sgn;
        block[SN..SN + 2].copy_from_slice(&sn.to_le_bytes());
        block[EBN] = if number + 1 == count { LAST } else { number as u8 };
        block[CF] = 1;
        blocks.push(block);
    }
    blocks
}

/// A user block: everything else in it is wild.
pub(super) fn user_block(dice: &mut Dice) -> Block {
    let mut block = [0; 128];
    dice.fill(&mut block);
    block[EBN] = USER_DATA;
    block
}

/// Puts user blocks before, inside, between and after the sets.
pub(super) fn add_user_blocks(dice: &mut Dice, plan: &mut Plan) {
    if dice.chance(65) {
        return;
    }
    for _ in 0..dice.between(1, 3) {
        let at = match dice.below(4) {
            0 => 0,
            1 => plan.blocks.len(),
            _ => dice.between(0, plan.blocks.len()),
        };
        let block = user_block(dice);
        plan.blocks.insert(at, block);
    }
}
