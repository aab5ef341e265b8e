//! Short texts of any codes, and the largest sets.

use super::accents::any_pair;
use super::header::good_header;
use super::ordinary::subtitle_set;
use super::plan::{Plan, EBN};
use super::sets::{comment_blocks, pieces, set, user_block};
use super::switches::{OPEN_SOUP, SWITCHES};
use super::text::{good_position, text_of_rows, SOUP};
use crate::dice::Dice;
use crate::display::Display;

/// Short texts of codes that are picked with little care: every code, every
/// accent with every letter and 20h, and many controls.
pub(super) fn raw_text(dice: &mut Dice) -> Plan {
    let mut plan = Plan::new(dice);
    let header = good_header(dice, 1, plan.rate);
    let (soup, thin): (&[u8], &[u8]) = if plan.display.is_open() {
        (OPEN_SOUP, b"\x80\x81\x82\x83 AB\x8A\x8A\x8A\xA0")
    } else {
        (SOUP, b"\x0D\x0D\x01\x07\x1D\x1C\x0B AB\x8A\x8A\x8A\xA0")
    };
    let text: Vec<u8> = match dice.below(9) {
        // One code of all 256.
        0 => vec![dice.byte()],
        1 => vec![b'x', dice.byte(), b'y'],
        // An accent with a letter or 20h.
        2..=5 => any_pair(dice).to_vec(),
        // Controls in any order.
        6 => (0..dice.between(1, 12)).map(|_| dice.pick(soup)).collect(),
        7 => (0..dice.between(1, 30)).map(|_| dice.pick(thin)).collect(),
        _ => (0..dice.between(0, 4)).map(|_| dice.byte()).collect(),
    };
    let end = plan.display.end();
    let position = dice.pick(&[plan.display.first(), end / 2, end.saturating_sub(4), end - 1]);
    let pieces = pieces(dice, &text);
    let blocks = set(dice, &header, position, &pieces);
    plan.blocks.extend(blocks);
    plan
}

/// One set of 14 to 18 blocks, each full of text: the proved converter has less
/// room for the text of a set in files of up to 16 blocks.
pub(super) fn full(dice: &mut Dice) -> Plan {
    let display = dice.pick(&[Display::Teletext, Display::Open { rows: 16 }, Display::Open { rows: 99 }]);
    let mut plan = Plan::of(dice, display);
    let count = dice.between(14, 18);
    if dice.chance(10) {
        plan.blocks = comment_blocks(dice, 1, count);
    } else {
        // Rows of 64 accents with letters or spaces, and a last one; in open
        // subtitles also a switch before every cell.
        let mut cell = [0xC2, dice.pick(b"eq ")];
        if display.is_open() && dice.chance(50) {
            cell = [dice.pick(SWITCHES), dice.pick(b"e ")];
        }
        let row = [cell.repeat(64), vec![0x8A]].concat();
        let mut text: Vec<u8> = row.into_iter().cycle().take(112 * count).collect();
        // No accent is cut off at the end.
        let last = text.len() - 1;
        text[last] = dice.pick(b"xx\x08");
        if text[last - 1] == 0xC2 {
            text[last - 1] = b'x';
        }
        let header = good_header(dice, 1, plan.rate);
        let pieces: Vec<Vec<u8>> = text.chunks(112).map(<[u8]>::to_vec).collect();
        let position = dice.pick(&[display.first(), 1, 2, display.end() - 1]);
        plan.blocks = set(dice, &header, position, &pieces);
    }
    if dice.chance(30) {
        let at = dice.between(0, plan.blocks.len());
        let block = user_block(dice);
        plan.blocks.insert(at, block);
    }
    plan
}

/// Sets of 241 blocks, the most there can be, and of one more.
pub(super) fn giant(dice: &mut Dice) -> Plan {
    let mut plan = Plan::new(dice);
    let sn = dice.pick(&[1, 300]);
    let mut blocks = if dice.chance(25) {
        comment_blocks(dice, sn, 241)
    } else {
        let rows = dice.between(1, 11.min(usize::from(plan.display.end())));
        let double = !plan.display.is_open() && dice.chance(50);
        let text = text_of_rows(dice, plan.display, rows, double);
        let position = good_position(dice, plan.display, text.lines());
        let bytes = text.joined(plan.mode);
        let header = good_header(dice, sn, plan.rate);
        // The text in 241 pieces, most of them short.
        let mut pieces: Vec<Vec<u8>> = vec![Vec::new(); 241];
        let start = dice.between(0, 200);
        for (at, &byte) in bytes.iter().enumerate() {
            pieces[(start + at / 8).min(240)].push(byte);
        }
        for piece in &mut pieces {
            piece.truncate(112);
        }
        set(dice, &header, position, &pieces)
    };
    let fault = dice.below(8);
    match fault {
        // A 242nd block, F0h after EFh.
        0 | 1 => {
            let mut block = blocks[239];
            block[EBN] = dice.pick(&[0xF0, 0xF0, 0x00, 0xEF, 0xF1]);
            blocks.insert(240, block);
        }
        // Open at the end.
        2 => {
            blocks.pop();
        }
        // A gap.
        3 => {
            let at = dice.between(0, 239);
            blocks.remove(at);
        }
        _ => {}
    }
    plan.blocks = blocks;
    if dice.chance(50) {
        for _ in 0..dice.between(1, 5) {
            let at = dice.between(0, plan.blocks.len());
            let block = user_block(dice);
            plan.blocks.insert(at, block);
        }
    }
    if dice.chance(50) {
        let sn = dice.pick(&[sn, sn + 1, sn + 1, sn + 1]);
        let after = subtitle_set(dice, sn, &plan, &[]);
        plan.blocks.extend(after);
    }
    plan
}
