//! Where the bytes of the file stand: the GSI and the TTI blocks.

use crate::display::Display;

/// "GSI, 1,024 bytes"
pub const GSI_LENGTH: usize = 1024;

/// "TTI, 128 bytes each"
pub const BLOCK_LENGTH: usize = 128;

/// "A block with EBN FEh is user data"
pub const USER_DATA: u8 = 0xFE;

/// A set is "closed by FFh".
pub const LAST_OF_SET: u8 = 0xFF;

/// "blocks 00h, 01h, and so on without a gap"
pub const FIRST_OF_SEVERAL: u8 = 0x00;

/// "up to at most EFh"
pub const HIGHEST_EXTENSION: u8 = 0xEF;

/// "the bytes before the first 8Fh"
pub const END_OF_TEXT: u8 = 0x8F;

/// Refusal 2: "under 1,024 bytes, or the rest no multiple of 128". Gives the
/// GSI and the rest.
pub fn parts(file: &[u8]) -> Option<(&[u8], &[u8])> {
    if file.len() < GSI_LENGTH {
        return None;
    }
    let (gsi, rest) = file.split_at(GSI_LENGTH);
    if rest.len() % BLOCK_LENGTH != 0 {
        return None;
    }
    Some((gsi, rest))
}

/// "DFC is the eight bytes STL25.01 or STL30.01, giving 25 or 30 frames."
pub fn frame_rate(gsi: &[u8]) -> Option<u8> {
    match &gsi[3..=10] {
        b"STL25.01" => Some(25),
        b"STL30.01" => Some(30),
        _ => None,
    }
}

/// "Teletext files (DSC "1" or "2")"
pub fn is_teletext(gsi: &[u8]) -> bool {
    matches!(gsi[11], b'1' | b'2')
}

/// Open subtitles: "files with DSC "0""
pub fn is_open(gsi: &[u8]) -> bool {
    gsi[11] == b'0'
}

/// "Latin table (CCT "00")"
pub fn is_latin(gsi: &[u8]) -> bool {
    &gsi[12..=13] == b"00"
}

/// "TNB 238 to 242 (five ASCII digits)"
pub fn number_of_blocks(gsi: &[u8]) -> Option<usize> {
    number(&gsi[238..=242])
}

/// The display of a file whose DSC is good. "MNR is read with DSC "0" only."
pub fn display(gsi: &[u8]) -> Option<Display> {
    if is_open(gsi) {
        rows_of_screen(gsi).map(|rows| Display::Open { rows })
    } else {
        Some(Display::Teletext)
    }
}

/// "MNR (GSI bytes 253 to 254, two ASCII digits, 01 to 99)"
fn rows_of_screen(gsi: &[u8]) -> Option<u8> {
    match number(&gsi[253..=254])? {
        0 => None,
        rows => Some(rows as u8),
    }
}

/// A number in ASCII digits, none if another byte is among them.
fn number(digits: &[u8]) -> Option<usize> {
    if !digits.iter().all(u8::is_ascii_digit) {
        return None;
    }
    Some(digits.iter().fold(0, |number, digit| 10 * number + usize::from(digit - b'0')))
}

/// The blocks of the file, in file order.
pub fn blocks(rest: &[u8]) -> impl Iterator<Item = Block<'_>> {
    rest.chunks_exact(BLOCK_LENGTH).map(Block)
}

/// One TTI block of 128 bytes.
#[derive(Clone, Copy)]
pub struct Block<'a>(&'a [u8]);

impl<'a> Block<'a> {
    /// "SGN 0"
    pub fn group(self) -> u8 {
        self.0[0]
    }

    /// "SN 1 to 2, low byte first"
    pub fn number(self) -> u16 {
        u16::from_le_bytes([self.0[1], self.0[2]])
    }

    /// "EBN 3"
    pub fn extension(self) -> u8 {
        self.0[3]
    }

    /// "CS 4"
    pub fn cumulative(self) -> u8 {
        self.0[4]
    }

    /// "TCI 5 to 8"
    pub fn time_in(self) -> Time {
        self.time(5)
    }

    /// "TCO 9 to 12"
    pub fn time_out(self) -> Time {
        self.time(9)
    }

    /// "hours, minutes, seconds, frames, one binary byte each"
    fn time(self, at: usize) -> Time {
        Time { hours: self.0[at], minutes: self.0[at + 1], seconds: self.0[at + 2], frames: self.0[at + 3] }
    }

    /// "VP 13"
    pub fn vertical_position(self) -> u8 {
        self.0[13]
    }

    /// "JC 14"
    pub fn justification(self) -> u8 {
        self.0[14]
    }

    /// "CF 15"
    pub fn comment_flag(self) -> u8 {
        self.0[15]
    }

    /// "text 16 to 127", of which "the bytes before the first 8Fh (all 112 if
    /// there is none)" count.
    pub fn text(self) -> &'a [u8] {
        let field = &self.0[16..=127];
        let end = field.iter().position(|&byte| byte == END_OF_TEXT);
        &field[..end.unwrap_or(field.len())]
    }

    /// "All blocks of a set agree in SGN, SN and CF"
    pub fn agrees_with(self, other: Block<'_>) -> bool {
        self.group() == other.group()
            && self.number() == other.number()
            && self.comment_flag() == other.comment_flag()
    }
}

/// A time; the derived order is that of time, because the greater unit stands
/// first.
#[derive(PartialEq, Eq, PartialOrd, Ord, Debug, Clone, Copy)]
pub struct Time {
    pub hours: u8,
    pub minutes: u8,
    pub seconds: u8,
    pub frames: u8,
}

impl Time {
    /// "Hours are 0 to 23, minutes and seconds 0 to 59, frames below the
    /// rate."
    pub fn in_range(self, rate: u8) -> bool {
        self.hours <= 23 && self.minutes <= 59 && self.seconds <= 59 && self.frames < rate
    }
}
