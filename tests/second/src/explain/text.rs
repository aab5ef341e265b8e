//! The byte of a set's text that breaks a rule, 13 to 15.

use super::start_of;
use crate::characters::{accented, is_accent, latin};
use crate::display::Display;
use crate::file::{self, BLOCK_LENGTH, END_OF_TEXT, LAST_OF_SET, USER_DATA};

/// "8Ah ends a row"
const ROW_END: u8 = 0x8A;

/// "0Dh (double height)"
const DOUBLE_HEIGHT: u8 = 0x0D;

/// "A row has at most 64 cells, controls included."
const MOST_CELLS: usize = 64;

/// A byte of a set's text, and its offset in the file.
#[derive(Clone, Copy)]
struct Code {
    byte: u8,
    offset: usize,
}

/// The offset in the file. The place is the "set's first block".
pub fn offset(file: &[u8], mode: u64, number: u64, place: usize) -> usize {
    let display = file::display(&file[..file::GSI_LENGTH]).expect("DSC and MNR are good");
    let text = text_of_set(file, place);
    let found = match number {
        13 => not_listed(&text, display),
        14 => height_or_break(&text, mode),
        _ => row_that_does_not_fit(&text, mode, display, file[start_of(place) + 13]),
    };
    found.expect("the converter's rule fails in this text")
}

/// "A set's text is, block after block, the bytes before the first 8Fh (all 112
/// if there is none), joined." User blocks are "passed over".
fn text_of_set(file: &[u8], place: usize) -> Vec<Code> {
    let mut text = Vec::new();
    for start in (start_of(place)..file.len()).step_by(BLOCK_LENGTH) {
        let ebn = file[start + 3];
        if ebn == USER_DATA {
            continue;
        }
        let field = (start + 16..start + BLOCK_LENGTH).map(|offset| Code { byte: file[offset], offset });
        text.extend(field.take_while(|code| code.byte != END_OF_TEXT));
        if ebn == LAST_OF_SET {
            break;
        }
    }
    text
}

/// 13: the first code or accent pair that is not listed. A pair is named by its
/// accent.
fn not_listed(text: &[Code], display: Display) -> Option<usize> {
    let mut codes = text.iter();
    while let Some(code) = codes.next() {
        let listed = if is_accent(code.byte) {
            // It takes the code after it, whatever that is.
            codes.next().is_some_and(|next| accented(code.byte, next.byte).is_some())
        } else {
            is_listed(code.byte, display)
        };
        if !listed {
            return Some(code.offset);
        }
    }
    None
}

/// "20h to 7Eh and A0h to FFh are read by the Latin table"; "Controls allowed";
/// "Codes 80h and 81h switch italics on and off, 82h and 83h underline".
fn is_listed(byte: u8, display: Display) -> bool {
    match (byte, display) {
        (ROW_END, _) => true,
        (0x00..=0x07 | 0x0A | 0x0B | DOUBLE_HEIGHT | 0x1C | 0x1D, Display::Teletext) => true,
        (0x80..=0x83, Display::Open { .. }) => true,
        _ => latin(byte).is_some(),
    }
}

/// "A subtitle is double height if 0Dh stands in its first row". In open
/// subtitles no 0Dh is listed, so their height is single.
fn is_double(text: &[Code]) -> bool {
    text.iter().take_while(|code| code.byte != ROW_END).any(|code| code.byte == DOUBLE_HEIGHT)
}

/// "in break mode 2 and double height ... (each pair there ends one row)"
fn each_pair_ends_one_row(text: &[Code], mode: u64) -> bool {
    mode == 2 && is_double(text)
}

/// 14: "Within a rule the lowest offset counts".
fn height_or_break(text: &[Code], mode: u64) -> Option<usize> {
    let run = if each_pair_ends_one_row(text, mode) { odd_run(text) } else { None };
    misplaced_height(text).into_iter().chain(run).min()
}

/// "0Dh after a code of 20h or above in its row; 0Dh in a later row of a
/// single-height subtitle", whose first row has none.
///
/// Rows end at every 8Ah here. Between pairs they would be others only behind an
/// odd run, which has a lower offset.
fn misplaced_height(text: &[Code]) -> Option<usize> {
    let double = is_double(text);
    let mut after_character = false;
    for code in text {
        match code.byte {
            ROW_END => after_character = false,
            DOUBLE_HEIGHT if after_character || !double => return Some(code.offset),
            0x20..=0xFF => after_character = true,
            _ => {}
        }
    }
    None
}

/// "any maximal run of 8Ah of odd length": the first of its bytes.
fn odd_run(text: &[Code]) -> Option<usize> {
    let mut runs = text.chunk_by(|left, right| (left.byte == ROW_END) == (right.byte == ROW_END));
    let odd = runs.find(|run| run[0].byte == ROW_END && run.len() % 2 == 1)?;
    Some(odd[0].offset)
}

/// 15: the first row that is too long or has "a line past the last". Rows have
/// ascending offsets, so it is the lowest.
fn row_that_does_not_fit(text: &[Code], mode: u64, display: Display, position: u8) -> Option<usize> {
    let height = if is_double(text) { 2 } else { 1 };
    let rows = rows(text, if each_pair_ends_one_row(text, mode) { 2 } else { 1 });
    let mut end = usize::from(position);
    for row in rows {
        // "a double row covers two lines"
        end += height;
        if cell_count(row.codes) > MOST_CELLS || end > usize::from(display.end()) {
            return row.offset();
        }
    }
    None
}

/// A row of a text.
struct Row<'a> {
    codes: &'a [Code],
    /// Where the break before it starts; the first row has none.
    break_before: Option<usize>,
}

impl Row<'_> {
    /// Its first byte, or "a row without bytes by the start of the break before
    /// it".
    fn offset(&self) -> Option<usize> {
        self.codes.first().map(|code| code.offset).or(self.break_before)
    }
}

/// The rows of a text in which so many 8Ah end a row: one, or two where all runs
/// are even, since 14 comes before 15.
fn rows(text: &[Code], break_length: usize) -> Vec<Row<'_>> {
    let mut rows = Vec::new();
    let (mut rest, mut break_before) = (text, None);
    while let Some(end) = rest.iter().position(|code| code.byte == ROW_END) {
        rows.push(Row { codes: &rest[..end], break_before });
        break_before = Some(rest[end].offset);
        rest = &rest[end + break_length..];
    }
    rows.push(Row { codes: rest, break_before });
    rows
}

/// An accent and its letter, or 20h, are one cell, and switches "take no cell".
fn cell_count(row: &[Code]) -> usize {
    row.iter().filter(|code| !is_accent(code.byte) && !matches!(code.byte, 0x80..=0x83)).count()
}
