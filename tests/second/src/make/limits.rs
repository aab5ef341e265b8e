//! Samples for the lines of "Both sides of each line".

use super::header::good_header;
use super::plan::{End, Plan, TEXT};
use super::sets::{add_user_blocks, comment_set, pieces, set};
use super::switches::OPEN_SOUP;
use super::text::{row_of, Text, SOUP};
use crate::dice::Dice;
use crate::display::Display;

pub(super) fn paper_case(dice: &mut Dice) -> Plan {
    // Most lines hold of open subtitles, too; their screen has a row 20.
    let display = match dice.below(5) {
        0 | 1 => Display::Open { rows: dice.pick(&[24, 24, 30, 99]) },
        _ => Display::Teletext,
    };
    let open = display.is_open();
    let mut plan = Plan::of(dice, display);
    // 1,023 bytes, 1,024 with TNB 00000, 1,025.
    let case = dice.below(20);
    if case == 0 {
        plan.end = match dice.below(3) {
            0 => End::Cut(1023),
            1 => End::Longer(1),
            _ => End::Whole,
        };
        return plan;
    }
    let mut header = good_header(dice, 1, plan.rate);
    let mut position = 20;
    let mut text: Vec<u8> = b"Hi".to_vec();
    match case {
        // TNB 00002, one block; five digits that are right and wrong.
        1 => plan.count = Some(dice.pick(&[*b"00001", *b"00002", *b"00000", *b"    1"])),
        // Frame 24 and 25 at 25, 29 and 30 at 30.
        2 => {
            header.time_in = [10, 0, 1, dice.pick(&[24, 25, 29, 30])];
            header.time_out = [10, 0, 3, dice.pick(&[0, 24, 25, 29, 30])];
        }
        // Each field of both times on both sides of its limit.
        3 => {
            let rate = plan.rate;
            let limits = [24, 60, 60, rate];
            let field = dice.below(4);
            header.time_in = [0, 0, 0, 0];
            header.time_out = [23, 59, 59, rate - 1];
            header.time_out[field] = limits[field] - 1 + dice.byte_between(0, 1);
            if dice.chance(30) {
                header.time_in = [23, 59, 59, rate - 1];
                header.time_in[field] -= dice.byte_between(0, 1);
            }
        }
        // TCO equal to TCI, or one apart in one field.
        4 => {
            header.time_in = [10, 10, 10, 10];
            header.time_out = [10, 10, 10, 10];
            for _ in 0..dice.between(0, 2) {
                let field = dice.below(4);
                header.time_out[field] = dice.byte_between(9, 11);
            }
        }
        // A second set with the same SN, or next to it.
        5 => {
            let first: u16 = dice.pick(&[0, 1, 255, 256, 511, 65534]);
            let second =
                dice.pick(&[first, first + 1, first.saturating_sub(1), 256, 255, first.swap_bytes()]);
            header.sn = first;
            if dice.chance(20) {
                header.cf = 1;
            }
            let blocks = set(dice, &header, 20, &[b"A".to_vec()]);
            plan.blocks.extend(blocks);
            header.sn = second;
            header.cf = if dice.chance(20) { 1 } else { 0 };
            text = b"B".to_vec();
        }
        // VP, rows and height: what just fits and just does not.
        6 | 7 => {
            let end = display.end();
            position = dice.pick(&[0, 1, end - 4, end - 3, end - 2, end - 1, end]);
            let double = !open && dice.chance(50);
            let room = usize::from(end - position) / if double { 2 } else { 1 };
            let rows = dice.between(room.saturating_sub(1).max(1), room + 1);
            let mut rows = Text { rows: vec![b"x".to_vec(); rows], double };
            if double {
                rows.rows[0] = b"\x0Dx".to_vec();
            }
            text = rows.joined(plan.mode);
        }
        // An accent last in a block, its letter first in the next.
        8 | 9 => {
            let blank =
                if open { dice.pick(&[0x20, 0x20, 0x80]) } else { dice.pick(&[0x20, 0x0B, 0x0B, 0x0A]) };
            let mut first = vec![blank; dice.pick(&[0, 50, 111])];
            if first.len() > 60 {
                first[55] = 0x8A;
            }
            first.push(dice.pick(&[0xC2, 0xC2, 0xC8, 0xC9, 0xCF]));
            let mut rest = vec![vec![dice.pick(b"eeeeaoqE \x80\x83\x8A\x01\xC2")]];
            if dice.chance(30) {
                rest.insert(0, Vec::new());
            }
            rest.insert(0, first);
            let blocks = set(dice, &header, 20, &rest);
            plan.blocks.extend(blocks);
            add_user_blocks(dice, &mut plan);
            return plan;
        }
        // C2h, 20h, and other accents before all sorts of codes.
        10 => {
            let accent = dice.byte_between(0xC0, 0xCF);
            let next = if dice.chance(60) { dice.byte_between(0x41, 0x7A) } else { dice.byte() };
            text = vec![b'x', accent, next];
            if dice.chance(20) {
                text.pop();
            }
        }
        // 63, 64 and 65 cells.
        11 | 12 => {
            let cells = dice.pick(&[63, 64, 64, 65, 65, 66]);
            text = row_of(dice, display, cells);
            if dice.chance(50) {
                text.splice(0..0, *b"x\x8A");
            }
            if dice.chance(30) {
                text.extend(b"\x8Ax");
            }
        }
        // Runs of 8Ah in double height, and where there is no height.
        13 | 14 => {
            let rows: [&[u8]; 5] = if open {
                [b"B", b"", b"\x80B", b"\x81\x82B", b"B\x83"]
            } else {
                [b"B", b"", b"\x0DB", b"\x0B\x0D\x0DB", b"B\x0D"]
            };
            text = if !open && dice.chance(80) { b"\x0DA".to_vec() } else { b"A".to_vec() };
            for _ in 0..dice.between(1, 3) {
                text.resize(text.len() + dice.pick(&[1, 2, 2, 2, 3, 4, 4]), 0x8A);
                text.extend(dice.pick(&rows));
            }
            position = dice.pick(&[1, 8, 16, 20]);
        }
        // The printed spans and their neighbours.
        15 | 16 => {
            let (printed, soup): ([&[u8]; 4], &[u8]) = if open {
                ([b"\x80A\x81 \x82B", b"\x80A\x81 \x80B", b"\x82 A \x83 ", b"A\x82\x80 \x83B"], OPEN_SOUP)
            } else {
                ([b"\x01A\x02\x03B", b"\x01A\x07 \x01B", b"\x01\x1D\x07A", b"\x0D\x0B\x0BHi\x03you"], SOUP)
            };
            text = dice.pick(&printed).to_vec();
            for _ in 0..dice.between(0, 2) {
                let at = dice.below(text.len());
                text[at] = dice.pick(soup);
            }
        }
        // A comment set with a wild header.
        17 => {
            let blocks = comment_set(dice, 1);
            plan.blocks.extend(blocks);
            header.sn = dice.pick(&[1, 2, 2]);
        }
        // 8Fh in odd places.
        18 => {
            let at = dice.pick(&[0, 1, 56, 111]);
            let mut blocks = set(dice, &header, position, &[b"A".to_vec(), b"B".to_vec()]);
            for block in &mut blocks {
                block[TEXT..].fill(b'x');
                block[TEXT + 50] = 0x8A;
                if dice.chance(70) {
                    block[TEXT + at] = 0x8F;
                }
            }
            plan.blocks.extend(blocks);
            return plan;
        }
        // All 112 bytes, with and without 8Fh at the end.
        _ => {
            text = vec![b'a'; dice.pick(&[110, 111, 112, 113])];
            text[dice.pick(&[46, 47, 48, 49, 63, 64])] = 0x8A;
        }
    }
    let pieces = pieces(dice, &text);
    let blocks = set(dice, &header, position, &pieces);
    plan.blocks.extend(blocks);
    if dice.chance(20) {
        add_user_blocks(dice, &mut plan);
    }
    plan
}
