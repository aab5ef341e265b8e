//! The order of the tests, and the answer.

use crate::display::Display;
use crate::document::{document, span_count, Subtitle};
use crate::file::{self, Block, Time};
use crate::text::{self, BreakMode};
use crate::{Answer, Reason};

/// Converts the file to a document in `out`.
///
/// "A refusal leaves the output buffer untouched; an acceptance leaves the
/// bytes after the document untouched."
pub fn convert(file: &[u8], mode: u64, out: &mut [u8]) -> Answer {
    let (answer, document) = answer_and_document(file, mode, out.len() as u64);
    out[..document.len()].copy_from_slice(document.as_bytes());
    answer
}

/// The answer for a buffer of `room` bytes, which nobody has to have.
pub fn answer(file: &[u8], mode: u64, room: u64) -> Answer {
    answer_and_document(file, mode, room).0
}

/// The answer, and what goes into the buffer: nothing after a refusal.
fn answer_and_document(file: &[u8], mode: u64, room: u64) -> (Answer, String) {
    let reading = match read(file, mode) {
        Ok(reading) => reading,
        Err(refusal) => return (refused(refusal), String::new()),
    };
    let document = document(reading.rate, &reading.subtitles);
    if document.len() as u64 > room {
        return (too_long_for_buffer(document.len()), String::new());
    }
    (accepted(&reading, document.len()), document)
}

/// "every other refusal has length and counts 0"
fn refused(refusal: Refusal) -> Answer {
    Answer { number: refusal.reason as u64, place: refusal.place as u64, ..Answer::default() }
}

/// "Refusal 16 gives the length needed and counts of 0"
fn too_long_for_buffer(needed: usize) -> Answer {
    Answer { number: Reason::Buffer as u64, length: needed as u64, ..Answer::default() }
}

/// "Accepted: length of the document; numbers of subtitle sets, comment sets,
/// continuation blocks (not the first of their set), user blocks, and spans
/// written."
fn accepted(reading: &Reading, length: usize) -> Answer {
    Answer {
        number: 0,
        place: 0,
        length: length as u64,
        subtitles: reading.subtitles.len() as u64,
        comments: reading.comments as u64,
        continuations: reading.continuations as u64,
        users: reading.users as u64,
        spans: span_count(&reading.subtitles) as u64,
    }
}

/// A refusal with its place: "Blocks count from 0."
struct Refusal {
    reason: Reason,
    place: usize,
}

/// A refusal with place 0, as those numbered 1 to 6 have it.
fn of_the_file(reason: Reason) -> Refusal {
    Refusal { reason, place: 0 }
}

/// All that the document and the answer need of a file that is not refused.
struct Reading {
    rate: u8,
    subtitles: Vec<Subtitle>,
    comments: usize,
    continuations: usize,
    users: usize,
}

/// "Order: 1 to 6; then blocks in file order"
fn read(file: &[u8], mode: u64) -> Result<Reading, Refusal> {
    let mode = BreakMode::from_number(mode).ok_or(of_the_file(Reason::BreakMode))?;
    let (gsi, rest) = file::parts(file).ok_or(of_the_file(Reason::Size))?;
    let rate = file::frame_rate(gsi).ok_or(of_the_file(Reason::DiskFormat))?;
    if !file::is_teletext(gsi) && !file::is_open(gsi) {
        return Err(of_the_file(Reason::DisplayStandard));
    }
    if !file::is_latin(gsi) {
        return Err(of_the_file(Reason::CharacterTable));
    }
    let present = rest.len() / file::BLOCK_LENGTH;
    if file::number_of_blocks(gsi) != Some(present) {
        return Err(of_the_file(Reason::BlockCount));
    }
    // "with DSC "0" a bad MNR is 6, tested after TNB"
    let display = file::display(gsi).ok_or(of_the_file(Reason::BlockCount))?;
    read_blocks(rest, &Setting { mode, rate, display })
}

/// What the caller and the GSI say about all blocks.
struct Setting {
    mode: BreakMode,
    rate: u8,
    display: Display,
}

/// A set that is not yet closed.
struct Set<'a> {
    /// Its first block: "the remaining header bytes are read in the first
    /// only".
    first: Block<'a>,
    /// The place of its first block.
    place: usize,
    /// The EBN of its latest block.
    extension: u8,
    /// Its text so far.
    text: Vec<u8>,
}

/// "blocks in file order, each tested for 7 and, if it opens a set, for 8 to
/// 12 in turn; when a set closes, its whole text for 13, then 14, then 15"
fn read_blocks(rest: &[u8], setting: &Setting) -> Result<Reading, Refusal> {
    let mut reading =
        Reading { rate: setting.rate, subtitles: Vec::new(), comments: 0, continuations: 0, users: 0 };
    let mut number_before = None;
    let mut open: Option<Set> = None;
    for (place, block) in file::blocks(rest).enumerate() {
        // "A block with EBN FEh is user data and is passed over, wherever it
        // stands."
        if block.extension() == file::USER_DATA {
            reading.users += 1;
            continue;
        }
        let set = match open.take() {
            None => {
                let set = open_set(block, place, number_before, setting)?;
                number_before = Some(block.number());
                set
            }
            Some(set) => {
                reading.continuations += 1;
                continue_set(set, block, place)?
            }
        };
        if set.extension == file::LAST_OF_SET {
            close_set(&set, setting, &mut reading)?;
        } else {
            open = Some(set);
        }
    }
    // Refusal 7: "a set open at the end of the file", at "the block count
    // where the file ended".
    if open.is_some() {
        return Err(Refusal { reason: Reason::Extension, place: rest.len() / file::BLOCK_LENGTH });
    }
    Ok(reading)
}

/// Opens a set with its first block.
fn open_set<'a>(
    first: Block<'a>,
    place: usize,
    number_before: Option<u16>,
    setting: &Setting,
) -> Result<Set<'a>, Refusal> {
    if !may_open(first.extension()) {
        return Err(Refusal { reason: Reason::Extension, place });
    }
    test_header(first, number_before, setting).map_err(|reason| Refusal { reason, place })?;
    Ok(Set { first, place, extension: first.extension(), text: text_of(first).to_vec() })
}

/// "a set is one block with EBN FFh, or blocks 00h, 01h, and so on"
fn may_open(extension: u8) -> bool {
    extension == file::FIRST_OF_SEVERAL || extension == file::LAST_OF_SET
}

/// A comment's text is not looked at.
fn text_of(block: Block<'_>) -> &[u8] {
    if is_comment(block) {
        &[]
    } else {
        block.text()
    }
}

/// Adds a further block to a set. "A set's text is, block after block, the
/// bytes before the first 8Fh, joined."
fn continue_set<'a>(mut set: Set<'a>, block: Block, place: usize) -> Result<Set<'a>, Refusal> {
    if !may_follow(set.extension, block.extension()) || !block.agrees_with(set.first) {
        return Err(Refusal { reason: Reason::Extension, place });
    }
    set.extension = block.extension();
    set.text.extend_from_slice(text_of(block));
    Ok(set)
}

/// "blocks 00h, 01h, and so on without a gap up to at most EFh, closed by
/// FFh"
fn may_follow(before: u8, extension: u8) -> bool {
    let next = before < file::HIGHEST_EXTENSION && extension == before + 1;
    next || extension == file::LAST_OF_SET
}

/// "if it opens a set, for 8 to 12 in turn"; "A comment set (CF 01h) is tested
/// for 7, 8 and 9 only."
fn test_header(first: Block, number_before: Option<u16>, setting: &Setting) -> Result<(), Reason> {
    if first.comment_flag() > 0x01 {
        return Err(Reason::CommentFlag);
    }
    if number_before.is_some_and(|before| first.number() <= before) {
        return Err(Reason::SubtitleNumber);
    }
    if is_comment(first) {
        return Ok(());
    }
    if first.cumulative() != 0x00 {
        return Err(Reason::Cumulative);
    }
    if !times_are_good(first.time_in(), first.time_out(), setting.rate) {
        return Err(Reason::Time);
    }
    if !position_is_good(first, setting.display) {
        return Err(Reason::Position);
    }
    Ok(())
}

/// "A comment set (CF 01h)"
fn is_comment(block: Block) -> bool {
    block.comment_flag() == 0x01
}

/// Not "a time out of range, or TCO not after TCI".
fn times_are_good(time_in: Time, time_out: Time, rate: u8) -> bool {
    time_in.in_range(rate) && time_out.in_range(rate) && time_out > time_in
}

/// Not "VP not 1 to 23, or JC above 03h"; in open subtitles "VP is 0 up to MNR
/// less 1".
fn position_is_good(block: Block, display: Display) -> bool {
    display.has_line(block.vertical_position()) && block.justification() <= 0x03
}

/// "when a set closes, its whole text for 13, then 14, then 15", at the "set's
/// first block".
fn close_set(set: &Set, setting: &Setting, reading: &mut Reading) -> Result<(), Refusal> {
    let first = set.first;
    if is_comment(first) {
        reading.comments += 1;
        return Ok(());
    }
    let text = text::read(&set.text, setting.display, setting.mode, first.vertical_position())
        .map_err(|reason| Refusal { reason, place: set.place })?;
    reading.subtitles.push(Subtitle {
        number: first.number(),
        justification: first.justification(),
        begin: first.time_in(),
        end: first.time_out(),
        text,
    });
    Ok(())
}
