//! The plan of a file.

use crate::assemble::{five_digits, two_digits};
use crate::dice::Dice;
use crate::display::Display;

pub(super) type Block = [u8; 128];

pub(super) const SGN: usize = 0;
pub(super) const SN: usize = 1;
pub(super) const EBN: usize = 3;
pub(super) const CS: usize = 4;
pub(super) const TCI: usize = 5;
pub(super) const TCO: usize = 9;
pub(super) const VP: usize = 13;
pub(super) const JC: usize = 14;
pub(super) const CF: usize = 15;
pub(super) const TEXT: usize = 16;

/// MNR, two bytes of the GSI.
pub(super) const MNR: usize = 253;

pub(super) const USER_DATA: u8 = 0xFE;
pub(super) const LAST: u8 = 0xFF;

/// A file before it is put together.
pub(super) struct Plan {
    pub(super) mode: u64,
    pub(super) rate: u8,
    pub(super) display: Display,
    pub(super) gsi: [u8; 1024],
    pub(super) blocks: Vec<Block>,
    /// The TNB, if it is not the number of blocks.
    pub(super) count: Option<[u8; 5]>,
    /// What happens to the file's end.
    pub(super) end: End,
}

pub(super) enum End {
    Whole,
    /// Only so many bytes are left.
    Cut(usize),
    /// So many bytes follow.
    Longer(usize),
}

impl Plan {
    /// A good plan without blocks, of either kind.
    pub(super) fn new(dice: &mut Dice) -> Plan {
        // With the samples of `open` two in five of all are open.
        if dice.chance(36) {
            Plan::open(dice)
        } else {
            Plan::of(dice, Display::Teletext)
        }
    }

    /// A good plan of open subtitles on a screen of any size.
    pub(super) fn open(dice: &mut Dice) -> Plan {
        let rows = match dice.below(4) {
            0 => dice.pick(&[1, 1, 2, 98, 99, 99]),
            1 => dice.byte_between(1, 99),
            _ => dice.pick(&[9, 10, 11, 12, 15, 20, 23, 24, 25]),
        };
        Plan::of(dice, Display::Open { rows })
    }

    pub(super) fn of(dice: &mut Dice, display: Display) -> Plan {
        let mode = dice.pick(&[1, 2]);
        let rate = dice.pick(&[25, 25, 30]);
        let mut gsi = [0x20; 1024];
        // "The other GSI fields are not read."
        if dice.chance(40) {
            dice.fill(&mut gsi);
        }
        gsi[3..=10].copy_from_slice(if rate == 25 { b"STL25.01" } else { b"STL30.01" });
        gsi[12..=13].copy_from_slice(b"00");
        match display {
            Display::Teletext => {
                gsi[11] = dice.pick(b"12");
                // MNR "is read with DSC "0" only".
                if dice.chance(40) {
                    let rows = dice.pick(&[b"23", b"23", b"00", b"01", b"99", b"1 ", b"xy"]);
                    gsi[MNR..MNR + 2].copy_from_slice(rows);
                }
            }
            Display::Open { rows } => {
                gsi[11] = b'0';
                gsi[MNR..MNR + 2].copy_from_slice(&two_digits(rows));
            }
        }
        Plan { mode, rate, display, gsi, blocks: Vec::new(), count: None, end: End::Whole }
    }

    /// Puts the file together.
    pub(super) fn file(&mut self, dice: &mut Dice) -> Vec<u8> {
        let count = self.count.unwrap_or_else(|| five_digits(self.blocks.len()));
        self.gsi[238..=242].copy_from_slice(&count);
        let mut file = Vec::with_capacity(1024 + 128 * self.blocks.len() + 128);
        file.extend_from_slice(&self.gsi);
        self.blocks.iter().for_each(|block| file.extend_from_slice(block));
        match self.end {
            End::Whole => {}
            End::Cut(length) => file.truncate(length),
            End::Longer(more) => {
                let byte = dice.pick(&[0x00, 0x20, 0x8F, 0xFE]);
                file.resize(file.len() + more, byte);
            }
        }
        file
    }

    /// The places of the blocks that open a set. Asked, as the next, while the
    /// plan is still good in its EBN.
    pub(super) fn first_blocks(&self) -> Vec<usize> {
        self.blocks_of_sets().filter(|&(_, first)| first).map(|(place, _)| place).collect()
    }

    /// The places of the blocks that are not the first of their set.
    pub(super) fn later_blocks(&self) -> Vec<usize> {
        self.blocks_of_sets().filter(|&(_, first)| !first).map(|(place, _)| place).collect()
    }

    /// The places of the blocks that are no user blocks, and whether each opens
    /// a set.
    pub(super) fn blocks_of_sets(&self) -> impl Iterator<Item = (usize, bool)> + '_ {
        let mut open = false;
        let texts = self.blocks.iter().enumerate().filter(|(_, block)| block[EBN] != USER_DATA);
        texts.map(move |(place, block)| {
            let first = !open;
            open = block[EBN] != LAST;
            (place, first)
        })
    }

    /// The places of the blocks of the set that opens at `first`.
    pub(super) fn set_of(&self, first: usize) -> Vec<usize> {
        let mut places = Vec::new();
        for place in first..self.blocks.len() {
            match self.blocks[place][EBN] {
                USER_DATA => {}
                LAST => {
                    places.push(place);
                    break;
                }
                _ => places.push(place),
            }
        }
        places
    }
}
