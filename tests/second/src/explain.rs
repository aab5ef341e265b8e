//! Request 3, "Tell me why": which byte of the file breaks the rule.
//!
//! "Number and place are the converter's own", so they are asked of it; what is
//! looked for here is the offset. "Every rule before it in document 01's order
//! holds", so all that stands before the byte is good.

mod header;
mod text;

use crate::{answer, file, Answer};

/// "the rule's number, the block, the offset in the file of the byte (the first
/// of the field, code, accent pair, run or row) that breaks it, and that byte, if
/// any"
#[derive(PartialEq, Eq, Debug, Clone, Copy)]
pub struct Explanation {
    pub number: u64,
    /// The place of the answer.
    pub block: u64,
    pub offset: u64,
    pub byte: Option<u8>,
}

impl Explanation {
    /// Number, block, offset, 1 for a byte or 0 for none, and the byte or 0.
    pub fn numbers(&self) -> [u64; 5] {
        let there = u64::from(self.byte.is_some());
        [self.number, self.block, self.offset, there, self.byte.map_or(0, u64::from)]
    }
}

/// "A public function takes file, break mode and the buffer's length"
pub fn explain(file: &[u8], mode: u64, room: u64) -> Explanation {
    let Answer { number, place, .. } = answer(file, mode, room);
    let offset = offset(file, mode, number, place as usize);
    // At the file's length there is no byte.
    Explanation { number, block: place, offset: offset as u64, byte: file.get(offset).copied() }
}

/// The numbers are those of "What comes back".
fn offset(file: &[u8], mode: u64, number: u64, place: usize) -> usize {
    match number {
        // "DFC 3 to 10, DSC 11, CCT 12 to 13"
        3 => 3,
        4 => 11,
        5 => 12,
        6 => blocks_or_rows(file),
        7..=12 => header::offset(file, number, place),
        13..=15 => text::offset(file, mode, number, place),
        // "For 0, 1, 2, 16 and an open set the offset is the file's length."
        _ => file.len(),
    }
}

/// 6: "TNB 238 to 242"; "MNR (GSI bytes 253 to 254 ...) ... tested after TNB".
fn blocks_or_rows(file: &[u8]) -> usize {
    let (gsi, rest) = file.split_at(file::GSI_LENGTH);
    if file::number_of_blocks(gsi) != Some(rest.len() / file::BLOCK_LENGTH) {
        238
    } else {
        253
    }
}

/// Where the block begins. "Blocks count from 0."
fn start_of(place: usize) -> usize {
    file::GSI_LENGTH + place * file::BLOCK_LENGTH
}
