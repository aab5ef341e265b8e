//! Faults of sets: 7.

use super::{add_users_inside, set_behind, sets_before};
use crate::dice::Dice;
use crate::make::header::good_header;
use crate::make::plan::{Block, Plan, CF, EBN, SGN, SN};
use crate::make::sets::{comment_blocks, set, user_block};

pub(super) fn extensions(dice: &mut Dice) -> Plan {
    let mut plan = Plan::new(dice);
    let next = sets_before(dice, &mut plan);
    let sn = dice.pick(&[next, 255, 256, 0x1234]);
    let count = dice.between(2, 5);
    let mut blocks = any_set(dice, &plan, sn, count);
    let fault = dice.below(8);
    match fault {
        0 => blocks[0][EBN] = wrong_extension(dice, 0),
        1 | 2 => {
            let place = dice.between(1, count - 1);
            blocks[place][EBN] = wrong_extension(dice, place as u8);
        }
        3..=5 => {
            let place = dice.between(1, count - 1);
            disagree(dice, &mut blocks[place]);
            // "a wrong EBN before any disagreement"
            if dice.chance(25) {
                blocks[place][EBN] = wrong_extension(dice, place as u8);
            }
        }
        // A set open at the end of the file.
        _ => blocks.truncate(dice.between(1, count - 1)),
    }
    add_users_inside(dice, &mut blocks);
    plan.blocks.extend(blocks);
    if fault < 6 {
        set_behind(dice, &mut plan, sn + 1);
    } else if dice.chance(50) {
        for _ in 0..dice.between(1, 2) {
            plan.blocks.push(user_block(dice));
        }
    }
    plan
}

/// The blocks of a subtitle or of a comment.
fn any_set(dice: &mut Dice, plan: &Plan, sn: u16, count: usize) -> Vec<Block> {
    if dice.chance(30) {
        return comment_blocks(dice, sn, count);
    }
    let header = good_header(dice, sn, plan.rate);
    let position = plan.display.end() - 1;
    set(dice, &header, position, &vec![b"A".to_vec(); count])
}

/// An EBN that is wrong where this one, or FFh, would be right.
fn wrong_extension(dice: &mut Dice, right: u8) -> u8 {
    let wrong = match dice.below(4) {
        // A gap, a repeat, or a set that opens inside a set.
        0 => dice.pick(&[right + 1, right.wrapping_sub(1), 0x00]),
        1 => dice.byte_between(0xF0, 0xFD),
        2 => dice.pick(&[0xEF, 0xF0, 0xFD]),
        _ => dice.byte_between(0x00, 0xEF),
    };
    if wrong == right || wrong == 0xFF {
        0xEF
    } else {
        wrong
    }
}

/// Some of SGN, the bytes of SN and CF, each alone and with any of the others.
fn disagree(dice: &mut Dice, block: &mut Block) {
    let which = dice.between(1, 15);
    for (bit, at) in [SGN, SN, SN + 1, CF].into_iter().enumerate() {
        if which >> bit & 1 == 1 {
            block[at] = block[at].wrapping_add(dice.pick(&[1, 1, 255, 128]));
        }
    }
}
