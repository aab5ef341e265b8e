//! Writes a sample to standard output: samples/sample.stl, and with `open`
//! samples/open.stl. Both break modes give the same document, because no
//! double-height text has a row end.

use second::assemble::{gsi, open_gsi, time, tti, with_blocks, Tti};
use std::io::{self, Write};

fn main() -> io::Result<()> {
    let file = match std::env::args().nth(1).as_deref() {
        None => teletext(),
        Some("open") => open(),
        Some(_) => return Err(io::Error::other("usage: make_sample [open]")),
    };
    io::stdout().lock().write_all(&file)
}

/// A comment set and seven subtitles, one for each thing that a first look
/// should show.
fn teletext() -> Vec<u8> {
    let blocks = blocks();
    let mut gsi = gsi(25, blocks.len());
    fill(&mut gsi, "Harbour lights", "00008", "10000500");
    put(&mut gsi, 253, "23"); // MNR: rows
    with_blocks(&gsi, &blocks)
}

/// Open subtitles of a film, on a screen of eleven rows.
fn open() -> Vec<u8> {
    let blocks = open_blocks();
    let mut gsi = open_gsi(25, 11, blocks.len());
    fill(&mut gsi, "The night ferry", "00007", "10000100");
    with_blocks(&gsi, &blocks)
}

/// The converter reads DFC, DSC, CCT, TNB and, of open subtitles, MNR only; the
/// other fields are here because files in use have them.
fn fill(gsi: &mut [u8], title: &str, sets: &str, first: &str) {
    put(gsi, 0, "850"); // CPN: code page of this GSI
    put(gsi, 14, "09"); // LC: English
    put(gsi, 16, title); // OPT: title of the programme
    put(gsi, 224, "200101"); // CD: made
    put(gsi, 230, "200102"); // RD: revised
    put(gsi, 236, "01"); // RN
    put(gsi, 243, sets); // TNS: sets
    put(gsi, 248, "001"); // TNG: groups
    put(gsi, 251, "40"); // MNC: characters in a row
    put(gsi, 255, "1"); // TCS: time code may be used
    put(gsi, 256, "10000000"); // TCP: start of the programme
    put(gsi, 264, first); // TCF: first time in of a subtitle
    put(gsi, 272, "11"); // TND and DSN: one disk, the first
    put(gsi, 274, "GBR"); // CO: country
}

fn put(gsi: &mut [u8], at: usize, text: &str) {
    gsi[at..at + text.len()].copy_from_slice(text.as_bytes());
}

fn blocks() -> Vec<Tti> {
    let mut blocks = vec![
        // A comment set: it is counted and gives no paragraph.
        Tti { cf: 1, ..tti(b"Spelling checked. Songs stand on blue.") },
        // One row, single height, accents: C2h e gives one letter.
        Tti { vp: 23, ..tti(b"Welcome to the Caf\xC2e de l'\xC3Ile.") },
        // Two rows, a colour for each speaker; the colour code is a blank cell.
        Tti { vp: 21, jc: 1, ..tti(b"\x03Is the ferry late?\x8A\x06Only by a minute.") },
        // Double height, boxes, a word in yellow; the slug behind the end box is
        // not shown.
        Tti { vp: 20, ..tti(b"\x0D\x0B\x0BLand\x03ahoy!\x0A\x0A\x07Reel 2") },
        // A song: white on blue, U+266A at both ends.
        Tti { vp: 22, ..tti(b"\x04\x1D\x07\xD5 O\xC1u vont les bateaux? \xD5 \x1C") },
        // Letters of several languages.
        Tti { vp: 21, ..tti(b"Gr\xC8u\xFBe aus G\xC8oteborg,\x8A\xE8\xC2od\xC2z and Plze\xCFn!") },
        // Signs that a document has to escape.
        Tti { vp: 20, jc: 3, ..tti(b"\x0DFish & chips < \xA35") },
    ];
    number(&mut blocks);
    blocks.extend(in_two_blocks(8));
    blocks
}

/// Numbers from 1, one every four seconds from 10:00:01:00, each for three
/// seconds.
fn number(blocks: &mut [Tti]) {
    for (number, block) in blocks.iter_mut().enumerate() {
        block.sn = number as u16 + 1;
        let first = (36_001 + 4 * number) * 25;
        (block.tci, block.tco) = (time(first, 25), time(first + 75, 25));
    }
}

/// A set of two blocks. The accent is the last code of the first block and its
/// letter the first of the second: still one letter.
fn in_two_blocks(sn: u16) -> [Tti; 2] {
    let both = Tti { sn, tci: [10, 0, 29, 0], tco: [10, 0, 32, 0], vp: 21, ..tti(b"") };
    let first =
        Tti { ebn: 0x00, text: b"Good night, good night,\x8Aand \xC1a bient\xC3".to_vec(), ..both.clone() };
    [first, Tti { text: b"ot!".to_vec(), ..both }]
}

fn open_blocks() -> Vec<Tti> {
    let mut blocks = vec![
        // A voice in italics, which hold over the row end.
        Tti { vp: 9, ..tti(b"\x80That winter the ferry\x8Astill ran at night.\x81") },
        // A word in italics: the blank after it goes with its span.
        Tti { vp: 10, ..tti(b"You were \x80here\x81 all the time, Ren\xC2e?") },
        // Two speakers, at the left.
        Tti { vp: 9, jc: 1, ..tti(b"- Did she leave a name?\x8A- Only a letter.") },
        // A sign at the top, underlined, the spaces too.
        Tti { vp: 0, ..tti(b"\x82 CAF\xC2E DE L'\xC3ILE \x83") },
        // A voice from the right; the italics end with the subtitle.
        Tti { vp: 10, jc: 3, ..tti(b"\x80Last call for \x82Pier 4\x83 & 5.") },
        // Upright again.
        Tti { vp: 9, jc: 3, ..tti(b"Run, Chlo\xC8e!\x8AThey won't wait.") },
    ];
    number(&mut blocks);
    blocks.extend(over_a_block_end(7));
    blocks
}

/// A set of two blocks with a switch at the end of the first: it holds in the
/// second.
fn over_a_block_end(sn: u16) -> [Tti; 2] {
    let both = Tti { sn, tci: [10, 0, 25, 0], tco: [10, 0, 28, 0], vp: 10, ..tti(b"") };
    let first = Tti { ebn: 0x00, text: b"Then \x80".to_vec(), ..both.clone() };
    [first, Tti { text: b"bon voyage\x81, my friend.".to_vec(), ..both }]
}
