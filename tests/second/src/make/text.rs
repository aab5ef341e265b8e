//! Texts of good sets, and fragments that are refused.

use super::accents::{bad_pair, good_pair};
use super::boxes::{boxed_row, END, START};
use super::switches::open_row;
use crate::dice::Dice;
use crate::display::Display;

/// Codes that are characters, those which the table leaves empty and the
/// accents left out.
pub(super) fn good_character(dice: &mut Dice) -> u8 {
    loop {
        let code = match dice.below(3) {
            0 => dice.byte_between(0x20, 0x7E),
            1 => dice.byte_between(0xA0, 0xFF),
            _ => dice.byte_between(0x61, 0x7A),
        };
        if !matches!(code, 0xA6 | 0xA8 | 0xC0..=0xCF | 0xD8..=0xDB | 0xE5) {
            return code;
        }
    }
}

/// Fragments of text that are refused with 13, unless chance puts an accent
/// before them.
pub(super) fn bad_fragment(dice: &mut Dice, display: Display) -> Vec<u8> {
    let open = display.is_open();
    match dice.below(13) {
        // The codes of teletext in open subtitles, the switches in teletext.
        0 if open => vec![dice.byte_between(0x00, 0x1F)],
        1 if open => vec![dice.pick(b"\x00\x01\x07\x0A\x0B\x0D\x1C\x1D")],
        2 if !open => vec![dice.byte_between(0x80, 0x83)],
        0 => vec![dice.pick(&[0x08, 0x09, 0x0C, 0x0E, 0x0F, 0x1B, 0x1E, 0x1F])],
        1 => vec![dice.byte_between(0x0E, 0x1B)],
        2 | 3 => vec![dice.pick(&[0x7F, 0x84, 0x84, 0x85, 0x85, 0x86, 0x89, 0x8B, 0x8E, 0x90, 0x9F])],
        4 => vec![dice.byte_between(0x90, 0x9F)],
        5 | 6 => vec![dice.pick(&[0xA6, 0xA8, 0xC0, 0xD8, 0xD9, 0xDA, 0xDB, 0xE5])],
        7..=9 => bad_pair(dice).to_vec(),
        // A letter or a space that would do for the accent.
        _ => [&bad_pair(dice)[..], dice.pick(&[b"e", b"q", b" "])].concat(),
    }
}

/// Codes that make rows of many colours, and boxes.
pub(super) const SOUP: &[u8] =
    b"\x00\x01\x02\x03\x04\x05\x06\x07\x01\x07\x0A\x0B\x1C\x1D\x1D\x1C   ABab\xA0&";

/// Fewer colours, so that spans meet again.
pub(super) const THIN_SOUP: &[u8] = b"\x01\x01\x07\x07\x1D\x1C  AB\xA0\x0B";

/// A row of at most 60 cells, which leaves room for what is put in later.
pub(super) fn good_row(dice: &mut Dice, display: Display) -> Vec<u8> {
    let length = match dice.below(40) {
        0 => 0,
        1..=2 => 60,
        3..=7 => dice.between(20, 60),
        8..=12 => dice.between(0, 3),
        _ => dice.between(2, 14),
    };
    row_of(dice, display, length)
}

/// A row of exactly so many cells.
pub(super) fn row_of(dice: &mut Dice, display: Display, length: usize) -> Vec<u8> {
    match display {
        Display::Teletext => teletext_row(dice, length),
        Display::Open { .. } => open_row(dice, length),
    }
}

fn teletext_row(dice: &mut Dice, length: usize) -> Vec<u8> {
    let flavour = dice.below(11);
    if flavour >= 8 {
        return boxed_row(dice, length);
    }
    let mut row = Vec::with_capacity(length + 8);
    for cell in 0..length {
        match flavour {
            // Words between boxes, as files in use have them.
            0 | 1 => match cell {
                0 | 1 => row.push(0x0B),
                _ if cell + 2 >= length => row.push(0x0A),
                _ if dice.chance(15) => row.push(dice.pick(b" \x01\x03\x06\x07")),
                _ => row.push(dice.byte_between(b'a', b'z')),
            },
            2 | 3 => row.push(dice.pick(SOUP)),
            4 => row.push(dice.pick(THIN_SOUP)),
            5 => row.push(good_character(dice)),
            6 if dice.chance(50) => row.extend(good_pair(dice)),
            6 => row.push(dice.pick(b"<>&'\" aeiou")),
            // Colour on background, blanks of all sorts at the ends.
            _ => match cell {
                0 => row.push(dice.byte_between(0, 7)),
                1 => row.push(0x1D),
                2 => row.push(dice.byte_between(0, 7)),
                _ if cell + 3 >= length => row.push(dice.pick(b" \x07\x1C\x0A\x1D\xA0x")),
                _ => row.push(dice.byte_between(b'A', b'Z')),
            },
        }
    }
    // Boxes hide what stands outside them, so most rows of many colours have
    // none.
    if flavour > 1 && dice.chance(60) {
        row.iter_mut().filter(|code| matches!(**code, END | START)).for_each(|code| *code = b' ');
    }
    row
}

/// The rows of a good text.
pub(super) struct Text {
    pub(super) rows: Vec<Vec<u8>>,
    pub(super) double: bool,
}

impl Text {
    pub(super) fn lines(&self) -> usize {
        self.rows.len() * if self.double { 2 } else { 1 }
    }

    /// The rows joined by the row ends of the break mode.
    pub(super) fn joined(&self, mode: u64) -> Vec<u8> {
        let end: &[u8] = if self.double && mode == 2 { b"\x8A\x8A" } else { b"\x8A" };
        self.rows.join(end)
    }
}

pub(super) fn good_text(dice: &mut Dice, display: Display) -> Text {
    let double = !display.is_open() && dice.chance(50);
    let lines = usize::from(display.end() - display.first());
    let most = lines / if double { 2 } else { 1 };
    let rows = match dice.below(60) {
        0 => most,
        1 | 2 => dice.between(1, most),
        3..=10 => 3,
        11..=25 => 2,
        _ => 1,
    };
    text_of_rows(dice, display, rows.min(most), double)
}

pub(super) fn text_of_rows(dice: &mut Dice, display: Display, count: usize, double: bool) -> Text {
    let mut rows: Vec<Vec<u8>> = (0..count).map(|_| good_row(dice, display)).collect();
    for row in rows.iter_mut() {
        // Rows of exactly 63 and 64 cells, controls included.
        if dice.chance(2) {
            let length = dice.pick(&[63, 64]);
            *row = row_of(dice, display, length - usize::from(double));
        }
    }
    if double {
        for (number, row) in rows.iter_mut().enumerate() {
            // In the first row always, in a later one perhaps, and not always
            // as the first code.
            if number > 0 && dice.chance(50) {
                continue;
            }
            let controls = row.iter().take_while(|&&code| code < 0x20).count();
            let at = if dice.chance(70) { 0 } else { dice.between(0, controls) };
            row.insert(at, 0x0D);
        }
    }
    Text { rows, double }
}

/// The highest VP at which the text fits, or a lower one.
pub(super) fn good_position(dice: &mut Dice, display: Display, lines: usize) -> u8 {
    let first = usize::from(display.first());
    let highest = usize::from(display.end()) - lines;
    let position = match dice.below(4) {
        0 => highest,
        1 => dice.between(first, highest),
        2 => dice.pick(&[first, first + 1, 20, 22]).min(highest),
        _ => dice.between(highest.saturating_sub(4).max(first), highest),
    };
    position as u8
}
