//! Writes a file of every kind, `NAME.stl`, into a directory: `kinds DIR`. All
//! are accepted in break mode 1; their documents go through an XML parser.

use second::assemble::{file, open_file, tti, Tti};
use std::path::Path;
use std::{env, fs, io};

fn main() -> io::Result<()> {
    let directory = env::args().nth(1).ok_or(io::Error::other("usage: kinds DIR"))?;
    for (name, file) in kinds() {
        fs::write(Path::new(&directory).join(name).with_extension("stl"), file)?;
    }
    Ok(())
}

fn kinds() -> Vec<(&'static str, Vec<u8>)> {
    vec![
        ("empty", file(25, &[])),
        ("single-height", file(25, &[tti(b"One row")])),
        ("double-height", file(25, &[tti(b"\x0D\x0B\x0BHi\x03you\x0A\x0A")])),
        ("colours", file(25, &[colours()])),
        ("boxes", file(25, &boxes())),
        ("escapes", file(25, &[tti(b"\x0DTom & <Jerry> say \"it's ]]>\"")])),
        ("accents", file(25, &accents())),
        ("marks", file(25, &marks())),
        ("rows", file(25, &rows())),
        ("30-frames", file(30, &[Tti { tco: [10, 0, 3, 29], ..tti(b"Thirty") }])),
        ("open-empty", open_file(25, 99, &[])),
        ("open-looks", open_file(25, 23, &[tti(b"plain \x80italic\x82 both\x81 underlined\x83 plain")])),
        ("open-spaces", open_file(25, 11, &open_spaces())),
        ("open-rows", open_file(30, 99, &open_rows())),
    ]
}

/// Every colour as a word and as a background.
fn colours() -> Tti {
    let mut text = Vec::new();
    for code in 0..8 {
        text.extend([code, b'a', b'b']);
    }
    text.push(0x8A);
    for code in 0..8 {
        text.extend([code, 0x1D, 7 - code, b'c']);
    }
    tti(&text)
}

/// Text in front of a box, behind it and between two; a background that goes on
/// over the edges; rows that show nothing beside one without boxes.
fn boxes() -> [Tti; 2] {
    [
        tti(b"\x0Dslug\x0B\x0BIn\x0A<&>\x0Bboxes\x0A\x0Aslug"),
        Tti { sn: 2, ..tti(b"\x01\x1D\x07\x0B\x0BOn red\x0A\x0A\x8ANo box\x8ANothing\x0A\x8A\x0B") },
    ]
}

/// Accents, signs of the Latin table of one, two and three bytes in UTF-8, and
/// an accent whose letter stands in the next block.
fn accents() -> [Tti; 2] {
    let first = b"Fran\xCBcais \xC8u\xC4n\xCFz \xA4 \xA3 \xA9\xB9 \xD5 \xA0\xFF caf\xC2";
    [Tti { ebn: 0x00, ..tti(first) }, tti(b"e")]
}

/// Letters with combining marks, U+00A0 with each of the thirteen at both ends of a
/// row and in colours, signs that are escaped beside them, and an accent whose space
/// stands in the next block.
fn marks() -> [Tti; 3] {
    let spaces = b"\xC1 \xC2 \xC3 \xC4 \xC5 \xC6 \xC7 \x01\xC8 \x1D\xCA \xCB \x07\xCD \x1C\xCE \xCF ";
    let letters = b"\x0D\xC4i\xC2X \xCBb & <\xCFq> \xCEa\xCEb\xCDe\xCAo caf\xC2";
    [Tti { vp: 23, ..tti(spaces) }, Tti { sn: 2, ebn: 0x00, ..tti(letters) }, Tti { sn: 2, ..tti(b" \xC2e") }]
}

/// Four rows, one of them empty, with filler lines below; a subtitle that shows
/// nothing; one without filler lines; a comment set, which gives no paragraph.
fn rows() -> [Tti; 4] {
    [
        Tti { vp: 1, jc: 1, ..tti(b"First\x8ASecond\x8A\x8AFourth") },
        Tti { sn: 2, jc: 3, ..tti(b"") },
        Tti { sn: 3, jc: 0, vp: 23, ..tti(b"Last line") },
        Tti { sn: 4, cf: 1, ..tti(b"A comment") },
    ]
}

/// Underlined spaces at both ends and alone, blanks in italics, and signs that
/// are escaped.
fn open_spaces() -> [Tti; 3] {
    [
        Tti { vp: 0, ..tti(b" \x82 Hotel \x80& Bar \x83 ") },
        Tti { sn: 2, vp: 9, ..tti(b"\x82  \x83\x8A\x80  ") },
        Tti { sn: 3, vp: 10, jc: 3, ..tti(b"\x82a\x83 \x82<b>\x83 ]]> \x80\xC2e\xA0\xD5") },
    ]
}

/// Italics over row ends, empty rows among them, with many filler lines; an open
/// subtitle that shows nothing; one in the last row; a comment set.
fn open_rows() -> [Tti; 4] {
    [
        Tti { vp: 0, jc: 1, ..tti(b"\x80First\x8ASecond\x8A\x8A\x82Fourth\x81\x8AFifth") },
        Tti { sn: 2, vp: 50, jc: 0, ..tti(b"\x80\x82") },
        Tti { sn: 3, vp: 98, jc: 3, ..tti(b"Last row") },
        Tti { sn: 4, vp: 255, cf: 1, ..tti(b"\x01A comment") },
    ]
}
