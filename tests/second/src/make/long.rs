//! Long files: as many blocks as are asked for, and nothing wrong before the end.

use super::ordinary::subtitle_set;
use super::plan::{Block, End, Plan};
use super::sets::{comment_set, user_block};
use crate::assemble::{gsi, tti, Tti};
use crate::dice::Dice;
use crate::display::Display;

/// How a long file ends.
#[derive(PartialEq, Eq, Debug, Clone, Copy)]
pub enum Ending {
    Good,
    /// A code that is not listed, in the last block.
    BadCode,
    /// A bad JC in the last block.
    BadHeader,
    /// The last block opens a set.
    OpenSet,
    /// A byte more.
    ByteMore,
    /// 128 bytes more, and TNB without them.
    BlockMore,
}

impl Ending {
    pub const ALL: [Ending; 6] = [
        Ending::Good,
        Ending::BadCode,
        Ending::BadHeader,
        Ending::OpenSet,
        Ending::ByteMore,
        Ending::BlockMore,
    ];

    /// Number and place of the answer, with room enough. TNB cannot say that there
    /// are more than 99,999 blocks.
    pub fn answer(self, blocks: usize) -> (u64, u64) {
        let blocks = blocks as u64;
        match self {
            Ending::ByteMore => (2, 0),
            _ if blocks > 99_999 => (6, 0),
            Ending::BlockMore => (6, 0),
            Ending::Good => (0, 0),
            // Its set has two blocks.
            Ending::BadCode => (13, blocks - 2),
            Ending::BadHeader => (12, blocks - 1),
            Ending::OpenSet => (7, blocks),
        }
    }

    /// The last set; all fit on a screen of 24 lines.
    fn set(self) -> Vec<Tti> {
        match self {
            Ending::BadCode => vec![Tti { ebn: 0x00, ..tti(b"The") }, tti(b"end\x7F")],
            Ending::BadHeader => vec![Tti { jc: 4, ..tti(b"The end") }],
            Ending::OpenSet => vec![Tti { ebn: 0x00, ..tti(b"The end") }],
            _ => vec![tti(b"The end")],
        }
    }

    fn end(self) -> End {
        match self {
            Ending::ByteMore => End::Longer(1),
            Ending::BlockMore => End::Longer(128),
            _ => End::Whole,
        }
    }
}

/// A file of so many blocks, at least two, with this ending; otherwise good in
/// this break mode. TNB has the last five digits of the number.
pub fn long_file(seed: u64, mode: u64, blocks: usize, ending: Ending) -> Vec<u8> {
    let mut dice = Dice::new(seed);
    let display = dice.pick(&[Display::Teletext, Display::Open { rows: 24 }]);
    let mut plan = Plan::of(&mut dice, display);
    plan.mode = mode;
    let last = ending.set();
    let sn = fill(&mut dice, &mut plan, blocks - last.len());
    plan.blocks.extend(last.into_iter().map(|block| Tti { sn, ..block }.bytes()));
    plan.end = ending.end();
    plan.file(&mut dice)
}

/// Adds sets and user blocks up to so many blocks. Gives the next SN.
fn fill(dice: &mut Dice, plan: &mut Plan, blocks: usize) -> u16 {
    let mut sn = 0;
    while plan.blocks.len() < blocks {
        match next_set(dice, plan, sn) {
            Some(set) if plan.blocks.len() + set.len() <= blocks => {
                plan.blocks.extend(set);
                sn += 1;
            }
            _ => plan.blocks.push(user_block(dice)),
        }
    }
    sn
}

/// The set of this SN, a comment now and then, or none.
fn next_set(dice: &mut Dice, plan: &Plan, sn: u16) -> Option<Vec<Block>> {
    // SN has 16 bits, and the last one is for the ending: user blocks from here on.
    if sn == u16::MAX {
        return None;
    }
    match dice.below(20) {
        0 => None,
        1 => Some(comment_set(dice, sn)),
        _ => Some(subtitle_set(dice, sn, plan, &[])),
    }
}

/// A GSI that says `said` blocks, of which TNB has the last five digits, and the
/// pieces of a file with `present` user blocks: they can be written one by one.
pub fn user_blocks(said: usize, present: usize) -> impl Iterator<Item = Vec<u8>> {
    let user = Tti { ebn: 0xFE, ..tti(b"") }.bytes();
    let blocks = (0..present).map(move |_| user.to_vec());
    std::iter::once(gsi(25, said).to_vec()).chain(blocks)
}
