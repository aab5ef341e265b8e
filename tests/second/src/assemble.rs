//! Files put together field by field, for the tests, the cases, the sample and
//! the speed test.

use crate::file::{BLOCK_LENGTH, END_OF_TEXT, GSI_LENGTH};

/// A GSI for teletext and the Latin table; what is not read is 20h.
pub fn gsi(rate: u8, blocks: usize) -> [u8; GSI_LENGTH] {
    let mut gsi = [0x20; GSI_LENGTH];
    gsi[3..=10].copy_from_slice(if rate == 25 { b"STL25.01" } else { b"STL30.01" });
    gsi[11] = b'1';
    gsi[12..=13].copy_from_slice(b"00");
    gsi[238..=242].copy_from_slice(&five_digits(blocks));
    gsi
}

/// The same for open subtitles, with a screen of so many rows.
pub fn open_gsi(rate: u8, rows: u8, blocks: usize) -> [u8; GSI_LENGTH] {
    let mut gsi = gsi(rate, blocks);
    gsi[11] = b'0';
    gsi[253..=254].copy_from_slice(&two_digits(rows));
    gsi
}

/// The fields of a block.
#[derive(Clone)]
pub struct Tti {
    pub sgn: u8,
    pub sn: u16,
    pub ebn: u8,
    pub cs: u8,
    pub tci: [u8; 4],
    pub tco: [u8; 4],
    pub vp: u8,
    pub jc: u8,
    pub cf: u8,
    pub text: Vec<u8>,
}

/// The block of the printed example, with this text.
pub fn tti(text: &[u8]) -> Tti {
    Tti {
        sgn: 0,
        sn: 1,
        ebn: 0xFF,
        cs: 0,
        tci: [10, 0, 1, 2],
        tco: [10, 0, 3, 4],
        vp: 20,
        jc: 2,
        cf: 0,
        text: text.to_vec(),
    }
}

impl Tti {
    /// The 128 bytes; a text of under 112 bytes is filled up with 8Fh.
    pub fn bytes(&self) -> [u8; BLOCK_LENGTH] {
        let mut block = [END_OF_TEXT; BLOCK_LENGTH];
        block[0] = self.sgn;
        block[1..=2].copy_from_slice(&self.sn.to_le_bytes());
        block[3] = self.ebn;
        block[4] = self.cs;
        block[5..=8].copy_from_slice(&self.tci);
        block[9..=12].copy_from_slice(&self.tco);
        block[13] = self.vp;
        block[14] = self.jc;
        block[15] = self.cf;
        block[16..16 + self.text.len()].copy_from_slice(&self.text);
        block
    }
}

/// The file of these blocks.
pub fn file(rate: u8, blocks: &[Tti]) -> Vec<u8> {
    with_blocks(&gsi(rate, blocks.len()), blocks)
}

/// The file of these blocks, open subtitles on a screen of so many rows.
pub fn open_file(rate: u8, rows: u8, blocks: &[Tti]) -> Vec<u8> {
    with_blocks(&open_gsi(rate, rows, blocks.len()), blocks)
}

/// The GSI and the blocks.
pub fn with_blocks(gsi: &[u8], blocks: &[Tti]) -> Vec<u8> {
    let mut file = gsi.to_vec();
    blocks.iter().for_each(|block| file.extend(block.bytes()));
    file
}

/// The number as TNB has it.
pub fn five_digits(number: usize) -> [u8; 5] {
    let mut digits = [0; 5];
    let mut rest = number;
    for digit in digits.iter_mut().rev() {
        *digit = b'0' + (rest % 10) as u8;
        rest /= 10;
    }
    digits
}

/// The number as MNR has it.
pub fn two_digits(number: u8) -> [u8; 2] {
    [b'0' + number / 10 % 10, b'0' + number % 10]
}

/// The time of a frame, counted from 0 at midnight.
pub fn time(frame: usize, rate: usize) -> [u8; 4] {
    let seconds = frame / rate;
    [(seconds / 3600) as u8, (seconds / 60 % 60) as u8, (seconds % 60) as u8, (frame % rate) as u8]
}
