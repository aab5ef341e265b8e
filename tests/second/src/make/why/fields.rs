//! Faults of fields: 5 and 6 in the GSI, 8 to 12 in the first block of a set.

use super::{add_users_inside, set_behind, sets_before};
use crate::dice::Dice;
use crate::make::header::good_header;
use crate::make::plan::{Block, Plan, CF, CS, JC, MNR, SN, TCI, TCO, VP};
use crate::make::sets::{set, user_block};
use crate::make::spoil::{any_rows, spoil_count, spoil_disk_format};

/// Wrong bytes at every place of a field, which is named by its first.
pub(super) fn gsi(dice: &mut Dice) -> Plan {
    let mut plan = if dice.chance(60) { Plan::open(dice) } else { Plan::new(dice) };
    if dice.chance(60) {
        plan.blocks.push(user_block(dice));
    }
    match dice.below(6) {
        0 => spoil_disk_format(dice, &mut plan),
        1 => plan.gsi[12..=13].copy_from_slice(dice.pick(&[b"0x", b"x0", b"01", b"10", b"xx"])),
        // TNB only, MNR only, or both.
        which => {
            if which != 3 {
                spoil_count(dice, &mut plan);
            }
            if which != 2 {
                plan.gsi[MNR..MNR + 2].copy_from_slice(&any_rows(dice));
            }
        }
    }
    plan
}

/// A fault in the first block of a set.
pub(super) fn header(dice: &mut Dice) -> Plan {
    let mut plan = Plan::new(dice);
    let sn = sets_before(dice, &mut plan);
    let header = good_header(dice, sn, plan.rate);
    let texts = vec![b"A".to_vec(); dice.pick(&[1, 1, 2, 3])];
    let position = plan.display.end() - 1;
    let mut blocks = set(dice, &header, position, &texts);
    let first = &mut blocks[0];
    match dice.below(7) {
        0..=2 => times(dice, first, plan.rate),
        3 | 4 => position_and_justification(dice, first, plan.display.end()),
        _ => several(dice, first, &plan),
    }
    let flag = first[CF];
    blocks.iter_mut().for_each(|block| block[CF] = flag);
    add_users_inside(dice, &mut blocks);
    plan.blocks.extend(blocks);
    set_behind(dice, &mut plan, sn + 1);
    plan
}

/// One of the eight bytes is the first out of range, or TCO is not after TCI.
fn times(dice: &mut Dice, block: &mut Block, rate: u8) {
    let limits = [24, 60, 60, rate, 24, 60, 60, rate];
    let place = dice.below(11);
    let Some(&limit) = limits.get(place) else {
        return out_of_order(dice, block);
    };
    block[TCI + place] = dice.pick(&[limit, limit, limit + 1, 99, 255]);
    // What stands behind it may be out of range, too.
    for (later, byte) in block[TCI..TCO + 4].iter_mut().enumerate().skip(place + 1) {
        if dice.chance(30) {
            *byte = limits[later] + dice.byte_between(0, 9);
        }
    }
    // Besides, TCO before TCI.
    if place > 4 && dice.chance(40) {
        (block[TCI], block[TCO]) = (23, 0);
    }
}

/// Both in range, TCO equal to TCI or before it, and sometimes after it.
fn out_of_order(dice: &mut Dice, block: &mut Block) {
    block.copy_within(TCI..TCI + 4, TCO);
    if dice.chance(70) {
        let place = TCO + dice.below(4);
        block[place] = block[place].saturating_sub(dice.byte_between(0, 2));
        // A later unit is higher.
        if place < TCO + 3 && dice.chance(50) {
            block[TCO + 3] = block[TCO + 3].max(dice.byte_between(0, 24));
        }
    }
}

/// VP, JC, or both, on both sides of the limits.
fn position_and_justification(dice: &mut Dice, block: &mut Block, end: u8) {
    let which = dice.below(3);
    if which != 0 {
        block[VP] = dice.pick(&[0, end - 1, end, end, end + 1, 255]);
    }
    if which != 1 {
        block[JC] = dice.pick(&[3, 4, 4, 5, 128, 255]);
    }
}

/// Several of 8 to 12 in one block: "in turn".
fn several(dice: &mut Dice, block: &mut Block, plan: &Plan) {
    if dice.chance(25) {
        block[CF] = dice.pick(&[2, 3, 255]);
    }
    if dice.chance(25) {
        block[SN..SN + 2].fill(0);
    }
    if dice.chance(50) {
        block[CS] = dice.byte_between(1, 4);
    }
    if dice.chance(50) {
        times(dice, block, plan.rate);
    }
    position_and_justification(dice, block, plan.display.end());
}
