//! Faults of the mode, the GSI and the headers: 1 to 12.

use super::header::frame;
use super::plan::{Block, End, Plan, CF, CS, EBN, JC, LAST, MNR, SGN, SN, TCI, TCO, VP};
use crate::assemble::{five_digits, time};
use crate::dice::Dice;

/// Spoils a plan so that refusal `fault`, 1 to 12, is likely.
pub(super) fn spoil(dice: &mut Dice, plan: &mut Plan, fault: u8) {
    match fault {
        1 => {
            let any = dice.roll();
            plan.mode = dice.pick(&[
                0,
                0,
                3,
                3,
                4,
                49,
                50,
                255,
                257,
                258,
                (1 << 32) + 1,
                (1 << 63) + 2,
                u64::MAX,
                any,
            ]);
        }
        2 => spoil_size(dice, plan),
        3 => spoil_disk_format(dice, plan),
        4 => {
            let any = dice.byte();
            plan.gsi[11] = dice.pick(&[b'3', b'3', b' ', b'/', 0x00, 0x01, 0x02, 0xB0, 0xB1, any]);
            // A file that says it is of the other kind.
            if dice.chance(25) {
                plan.gsi[11] = if plan.display.is_open() { dice.pick(b"12") } else { b'0' };
            }
        }
        5 => {
            let any = [dice.byte(), dice.byte()];
            let table = dice.pick(&[*b"01", *b"10", *b"0 ", *b" 0", *b"04", *b"OO", [0, 0], any]);
            plan.gsi[12..=13].copy_from_slice(&table);
        }
        6 => {
            // MNR, too; in a teletext file that changes nothing.
            let rows = dice.chance(if plan.display.is_open() { 60 } else { 15 });
            if rows {
                plan.gsi[MNR..MNR + 2].copy_from_slice(&any_rows(dice));
            }
            if !rows || dice.chance(20) {
                spoil_count(dice, plan);
            }
        }
        7 => spoil_extension(dice, plan),
        _ => spoil_header(dice, plan, fault),
    }
}

pub(super) fn spoil_size(dice: &mut Dice, plan: &mut Plan) {
    let length = 1024 + 128 * plan.blocks.len();
    plan.end = match dice.below(10) {
        0 => End::Cut(0),
        1 => End::Cut(1),
        2 => End::Cut(1023),
        3 => End::Cut(dice.below(1024)),
        4 => End::Cut(length - 1),
        5 => End::Cut(length - dice.between(1, 127)),
        6 => End::Longer(1),
        7 => End::Longer(127),
        // A whole block more or less: 6.
        8 => End::Longer(128),
        _ => End::Longer(dice.between(1, 300)),
    };
}

pub(super) fn spoil_disk_format(dice: &mut Dice, plan: &mut Plan) {
    if dice.chance(50) {
        let at = dice.between(3, 10);
        plan.gsi[at] = plan.gsi[at].wrapping_add(dice.pick(&[1, 255, 32, 128]));
        return;
    }
    let format = dice.pick(&[
        b"STL24.01",
        b"STL25.00",
        b"STL25.02",
        b"STL30.00",
        b"STL20.01",
        b"STL35.01",
        b"stl25.01",
        b"STL25,01",
        b"STL50.01",
        b" STL25.0",
        b"TL25.01 ",
        b"        ",
    ]);
    plan.gsi[3..=10].copy_from_slice(format);
}

pub(super) fn spoil_count(dice: &mut Dice, plan: &mut Plan) {
    let present = plan.blocks.len();
    let right = five_digits(present);
    let mut count = match dice.below(10) {
        0 => five_digits(present + 1),
        1 => five_digits(present.saturating_sub(1)),
        2 => five_digits(present + dice.pick(&[256, 10_000, 65_536])),
        3 => five_digits(dice.below(100_000)),
        // Digits with blanks before or after them.
        4 => format!("{present:>5}").into_bytes().try_into().unwrap_or(right),
        5 => format!("{present:<5}").into_bytes().try_into().unwrap_or(right),
        // Next to the digits in ASCII.
        6 => five_digits(present).map(|digit| if digit == b'0' { b'/' } else { digit }),
        7 => five_digits(present + 10).map(|digit| if digit == b'1' { b':' } else { digit }),
        // The number in five binary bytes.
        8 => five_digits(present).map(|digit| digit - b'0'),
        _ => right,
    };
    if dice.chance(15) {
        count[dice.below(5)] = dice.byte();
    }
    plan.count = Some(count);
}

/// An MNR of two bytes, most often a bad one.
pub(super) fn any_rows(dice: &mut Dice) -> [u8; 2] {
    let any = [dice.byte(), dice.byte()];
    let digit = dice.byte_between(b'0', b'9');
    let bad = dice.pick(&[b' ', b'/', b':', b'A', b'-', b'+', 0x00, 0x01, 0xB1, any[0]]);
    match dice.below(8) {
        0 | 1 => *b"00",
        2 => [digit, bad],
        3 => [bad, digit],
        4 => dice.pick(&[*b"1 ", *b" 1", *b"  ", *b"0 ", *b" 0", *b"0/", *b":0", *b"XX"]),
        // The number in binary.
        5 => dice.pick(&[[0, 1], [1, 0], [0, 99], [0, 0]]),
        6 => any,
        _ => dice.pick(&[*b"01", *b"09", *b"10", *b"90", *b"99"]),
    }
}

/// Aims at 7: wrong EBN in all ways, disagreement, and open sets.
pub(super) fn spoil_extension(dice: &mut Dice, plan: &mut Plan) {
    let texts: Vec<usize> = plan.blocks_of_sets().map(|(place, _)| place).collect();
    let later = plan.later_blocks();
    if texts.is_empty() {
        return;
    }
    let any = dice.pick(&texts);
    match dice.below(10) {
        // F0h to FDh.
        0 | 1 => plan.blocks[any][EBN] = dice.byte_between(0xF0, 0xFD),
        // Any number at any place.
        2 => plan.blocks[any][EBN] = dice.byte(),
        // A gap, a repeat, or a set that is opened twice.
        3 | 4 => {
            let block = &mut plan.blocks[any];
            block[EBN] = match block[EBN] {
                LAST => dice.pick(&[0x00, 0x01, 0x02]),
                number => dice.pick(&[number.wrapping_add(1), number.wrapping_sub(1), 0x00, 0xEF, LAST]),
            };
        }
        // The last set stays open: its closing block is missing, or does not
        // close it.
        5 | 6 => {
            let Some(&last) = texts.last() else { return };
            let before = texts.len().checked_sub(2).map(|at| plan.blocks[texts[at]][EBN]);
            match before {
                Some(number) if number < 0xEF && later.contains(&last) => {
                    if dice.chance(50) {
                        plan.blocks.remove(last);
                    } else {
                        plan.blocks[last][EBN] = number + 1;
                    }
                }
                _ => plan.blocks[last][EBN] = 0x00,
            }
        }
        // Disagreement in SGN, SN or CF.
        _ => {
            let Some(place) = (!later.is_empty()).then(|| dice.pick(&later)) else {
                // There is no later block, so make one.
                let mut block = plan.blocks[any];
                if block[EBN] == LAST {
                    plan.blocks[any][EBN] = 0x00;
                    disagree(dice, &mut block);
                    plan.blocks.insert(any + 1, block);
                }
                return;
            };
            disagree(dice, &mut plan.blocks[place]);
        }
    }
}

pub(super) fn disagree(dice: &mut Dice, block: &mut Block) {
    let at = dice.pick(&[SGN, SN, SN + 1, CF, CF]);
    block[at] = block[at].wrapping_add(dice.pick(&[1, 1, 255, 128]));
}

/// Aims at 8 to 12, in the first block of a set.
pub(super) fn spoil_header(dice: &mut Dice, plan: &mut Plan, fault: u8) {
    let firsts = plan.first_blocks();
    if firsts.is_empty() {
        return;
    }
    let mut number = dice.below(firsts.len());
    let place = firsts[number];
    match fault {
        8 => {
            let flag = dice.pick(&[0x02, 0x02, 0x03, 0x80, 0xFF]);
            let set = plan.set_of(place);
            set.into_iter().for_each(|place| plan.blocks[place][CF] = flag);
        }
        9 => {
            if firsts.len() == 1 {
                // A second set is needed.
                let Some(&last) = plan.set_of(place).last() else { return };
                let mut copy = plan.blocks[place];
                copy[EBN] = LAST;
                copy[CF] = dice.pick(&[0, 0, 1]);
                let sn = spoiled_number(dice, sn_of(&copy));
                copy[SN..SN + 2].copy_from_slice(&sn.to_le_bytes());
                plan.blocks.insert(last + 1, copy);
                return;
            }
            number = number.max(1);
            let sn = spoiled_number(dice, sn_of(&plan.blocks[firsts[number - 1]]));
            let set = plan.set_of(firsts[number]);
            for place in set {
                plan.blocks[place][SN..SN + 2].copy_from_slice(&sn.to_le_bytes());
            }
        }
        10 => plan.blocks[place][CS] = dice.pick(&[0x01, 0x02, 0x03, 0x04, 0x80, 0xFF]),
        11 => spoil_times(dice, &mut plan.blocks[place], plan.rate),
        _ => {
            let any = dice.byte();
            if dice.chance(60) {
                // On both sides of the screen; in open subtitles 0 is good.
                let (before, end) = (plan.display.first().saturating_sub(1), plan.display.end());
                plan.blocks[place][VP] = dice.pick(&[before, end, end, end, end + 1, 24, 255, any]);
            } else {
                plan.blocks[place][JC] = dice.pick(&[4, 4, 5, 0x80, 255, any]);
            }
        }
    }
}

pub(super) fn sn_of(block: &Block) -> u16 {
    u16::from_le_bytes([block[SN], block[SN + 1]])
}

/// Equal, lower, or only higher if the bytes are read the wrong way round.
pub(super) fn spoiled_number(dice: &mut Dice, before: u16) -> u16 {
    match dice.below(6) {
        0..=2 => before,
        3 => before.saturating_sub(1),
        4 => before.saturating_sub(256).saturating_add(1),
        _ => dice.between(0, usize::from(before)) as u16,
    }
}

/// Aims at 11: each limit, and TCO equal to TCI or before it.
pub(super) fn spoil_times(dice: &mut Dice, block: &mut Block, rate: u8) {
    let (time_in, time_out) = (TCI..TCI + 4, TCO..TCO + 4);
    match dice.below(8) {
        0 => block.copy_within(time_in, TCO),
        1 => {
            // One frame before TCI.
            let rate = usize::from(rate);
            let first = frame(&block[time_in], rate);
            block[time_out].copy_from_slice(&time(first.saturating_sub(1), rate));
        }
        2 => {
            // The other way round.
            let earlier: [u8; 4] = [block[TCI], block[TCI + 1], block[TCI + 2], block[TCI + 3]];
            block.copy_within(time_out, TCI);
            block[TCO..TCO + 4].copy_from_slice(&earlier);
        }
        _ => {
            let field = dice.below(4);
            let limit = [24, 60, 60, rate][field];
            let at = dice.pick(&[TCI, TCO]) + field;
            // Both sides of the limit; 29 for 25 frames.
            block[at] = dice.pick(&[limit - 1, limit, limit, limit + 1, 29.max(limit), 99, 255]);
        }
    }
}
