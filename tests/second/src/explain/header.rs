//! The byte of a block's header that breaks a rule, 7 to 12.

use super::start_of;
use crate::display::Display;
use crate::file::{self, BLOCK_LENGTH, FIRST_OF_SEVERAL, HIGHEST_EXTENSION, LAST_OF_SET, USER_DATA};

/// "SGN 0; SN 1 to 2, low byte first; EBN 3; CS 4; TCI 5 to 8 and TCO 9 to 12
/// ...; VP 13; JC 14; CF 15"
const SGN: usize = 0;
const SN: usize = 1;
const EBN: usize = 3;
const CS: usize = 4;
const TCI: usize = 5;
const TCO: usize = 9;
const VP: usize = 13;
const JC: usize = 14;
const CF: usize = 15;

/// The offset in the file.
pub fn offset(file: &[u8], number: u64, place: usize) -> usize {
    let start = start_of(place);
    // "an open set": its place is the block count, where no block stands.
    if start == file.len() {
        return file.len();
    }
    start + in_block(file, number, place)
}

/// The offset in the block.
fn in_block(file: &[u8], number: u64, place: usize) -> usize {
    let gsi = &file[..file::GSI_LENGTH];
    let block = block(file, place);
    match number {
        7 => in_set(file, place),
        8 => CF,
        9 => SN,
        10 => CS,
        11 => in_times(block, file::frame_rate(gsi).expect("DFC is good")),
        _ => in_position(block, file::display(gsi).expect("DSC and MNR are good")),
    }
}

/// The 128 bytes of a block.
fn block(file: &[u8], place: usize) -> &[u8] {
    &file[start_of(place)..][..BLOCK_LENGTH]
}

/// "in 7 a wrong EBN before any disagreement"
fn in_set(file: &[u8], place: usize) -> usize {
    match open_set(file, place) {
        Some((first, latest)) if may_follow(latest[EBN], block(file, place)[EBN]) => {
            disagreement(first, block(file, place))
        }
        // A block that opens a set has none to disagree with.
        _ => EBN,
    }
}

/// The first and the latest block of the set that is open before this block.
/// All blocks before it are good: FFh closes a set, and 00h opens one of several
/// blocks.
fn open_set(file: &[u8], place: usize) -> Option<(&[u8], &[u8])> {
    let before = (0..place).rev().map(|place| block(file, place));
    let mut before = before.filter(|block| block[EBN] != USER_DATA).peekable();
    let latest = *before.peek()?;
    if latest[EBN] == LAST_OF_SET {
        return None;
    }
    let first = before.find(|block| block[EBN] == FIRST_OF_SEVERAL)?;
    Some((first, latest))
}

/// "00h, 01h, and so on without a gap up to at most EFh, closed by FFh"
fn may_follow(latest: u8, ebn: u8) -> bool {
    ebn == LAST_OF_SET || (ebn <= HIGHEST_EXTENSION && ebn == latest + 1)
}

/// "All blocks of a set agree in SGN, SN and CF": the lowest that does not.
fn disagreement(first: &[u8], block: &[u8]) -> usize {
    if block[SGN] != first[SGN] {
        SGN
    } else if block[SN..=SN + 1] != first[SN..=SN + 1] {
        SN
    } else {
        CF
    }
}

/// 11: "a time out of range is named by its first byte out of range, TCO not
/// after TCI, both in range, by TCO"
fn in_times(block: &[u8], rate: u8) -> usize {
    // "Hours are 0 to 23, minutes and seconds 0 to 59, frames below the rate."
    let limits = [24, 60, 60, rate];
    let both = limits.iter().cycle();
    let out_of_range = block[TCI..TCO + 4].iter().zip(both).position(|(byte, limit)| byte >= limit);
    out_of_range.map_or(TCO, |at| TCI + at)
}

/// 12: "VP not 1 to 23, or JC above 03h"; with DSC "0" "VP outside is 12".
fn in_position(block: &[u8], display: Display) -> usize {
    if display.has_line(block[VP]) {
        JC
    } else {
        VP
    }
}
