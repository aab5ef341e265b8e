//! The cases that are run, as tests/CASES.md describes them.
//!
//! `cases` prints what the proved converter must print for them; `cases input`
//! writes the cases themselves, a header and a file each.

use second::assemble::{self, tti, Tti};
use second::convert;
use std::io::Write;

/// Longer than any document here.
const ROOMY: usize = 4096;

struct Case {
    name: &'static str,
    mode: u8,
    file: Vec<u8>,
    room: usize,
}

fn main() {
    let input = std::env::args().nth(1).is_some_and(|word| word == "input");
    for case in cases().into_iter().chain(open_cases()).chain(box_cases()).chain(accent_cases()) {
        if input {
            case.write();
        } else {
            case.run();
        }
    }
}

/// Document 01, "Both sides of each line", what is not marked P.
fn cases() -> Vec<Case> {
    let empty = assemble::file(25, &[]);
    let file = one_block(25, 24);
    let length = convert(&file, 1, &mut [0; ROOMY]).length as usize;
    vec![
        case("bytes-1023", empty[..1023].to_vec()),
        case("bytes-1024", empty.clone()),
        case("bytes-1025", [&empty[..], &[0x20]].concat()),
        case("frame-24-at-25", one_block(25, 24)),
        case("frame-25-at-25", one_block(25, 25)),
        case("frame-29-at-30", one_block(30, 29)),
        case("frame-30-at-30", one_block(30, 30)),
        Case { room: length, ..case("room-exact", file.clone()) },
        Case { room: length - 1, ..case("room-short", file) },
    ]
}

/// Document 02, request 1, both sides of each sentence.
fn open_cases() -> Vec<Case> {
    let plain = open(b"11", 5, b"A");
    let two_rows = b"A\x8AB";
    vec![
        case("dsc-0", plain.clone()),
        case("dsc-3", with(&plain, 11, b"3")),
        case("dsc-slash", with(&plain, 11, b"/")),
        case("open-vp-0", open(b"11", 0, b"A")),
        case("teletext-vp-0", teletext(0, b"A")),
        case("open-vp-last", open(b"11", 10, b"A")),
        case("open-vp-mnr", open(b"11", 11, b"A")),
        case("open-rows-to-mnr", open(b"11", 9, two_rows)),
        case("open-rows-past-mnr", open(b"11", 10, two_rows)),
        case("mnr-00", open(b"00", 0, b"A")),
        case("mnr-01", open(b"01", 0, b"A")),
        case("mnr-99", open(b"99", 98, b"A")),
        case("mnr-1-blank", open(b"1 ", 0, b"A")),
        case("mnr-blank-1", open(b" 1", 0, b"A")),
        case("mnr-00-teletext", with(&teletext(20, b"A"), 253, b"00")),
        case("mnr-letters-teletext", with(&teletext(20, b"A"), 253, b"XY")),
        case("mnr-00-bad-cct", with(&open(b"00", 0, b"A"), 12, b"01")),
        case("mnr-00-bad-tnb", with(&open(b"00", 0, b"A"), 238, b"00002")),
        case("mnr-11-bad-tnb", with(&plain, 238, b"00002")),
        case("open-cells-64", open(b"11", 10, &row_with_ten_switches(64))),
        case("open-cells-65", open(b"11", 10, &row_with_ten_switches(65))),
        Case { mode: 2, ..case("open-mode-2", open(b"11", 9, two_rows)) },
        Case { mode: 3, ..case("open-mode-3", plain.clone()) },
        case("spaces-plain", open(b"11", 10, b" A B ")),
        case("spaces-underlined", open(b"11", 10, b"\x82 A B \x83")),
        case("spaces-underlined-ends", open(b"11", 10, b"\x82 \x83A B\x82 \x83")),
        case("spaces-italic", open(b"11", 10, b"\x80 \x81A\x80 \x81B\x80 \x81")),
        case("switch-in-open", open(b"11", 10, b"A\x80B")),
        case("switch-in-teletext", teletext(20, b"A\x80B")),
        case("colour-in-teletext", teletext(20, b"A\x01B")),
        case("colour-in-open", open(b"11", 10, b"A\x01B")),
        case("code-84-in-open", open(b"11", 10, b"A\x84B")),
        case("accent-after-switch", open(b"11", 10, b"\x80\xC2e")),
        case("accent-before-switch", open(b"11", 10, b"\xC2\x80e")),
        case("italics-hold", two_subtitles(b"\x80A\x8AB")),
        case("italics-end", two_subtitles(b"\x80A\x81\x8AB")),
    ]
}

/// Document 02, request 2, both sides of each sentence.
fn box_cases() -> Vec<Case> {
    let boxed = |name, text: &[u8]| case(name, teletext(20, text));
    vec![
        // What is shown.
        boxed("box-none", b"AB"),
        boxed("box-start-first", b"\x0BAB"),
        boxed("box-whole-row", b"\x0BAB\x0A"),
        boxed("box-text-before", b"X\x0BAB\x0A"),
        boxed("box-text-after", b"\x0BAB\x0AX"),
        boxed("box-text-both", b"X\x0BAB\x0AX"),
        boxed("box-nbsp-both", b"\xA0\x0BAB\x0A\xA0"),
        boxed("box-two", b"X\x0BA\x0AX\x0BB\x0AX"),
        boxed("box-further-start", b"X\x0BA\x0BX\x0AX"),
        boxed("box-start-only", b"X\x0BAB"),
        boxed("box-start-last", b"AB\x0B"),
        boxed("box-end-only", b"AB\x0A"),
        boxed("box-end-only-on-red", b"\x01\x1DAB\x0A"),
        boxed("box-end-outside", b"\x0AX\x0BAB\x0A\x0A"),
        // The cells of the box codes, and what is set while hidden.
        boxed("box-start-on-red", b"\x01\x1D\x0BAB\x1C\x0A"),
        boxed("box-start-twice-on-red", b"\x01\x1D\x0B\x0BAB\x1C\x0A"),
        boxed("box-end-on-red", b"\x01\x1D\x0BAB\x0A"),
        boxed("box-end-twice-on-red", b"\x01\x1D\x0BAB\x0A\x0A"),
        boxed("box-two-on-red", b"\x01\x1D\x0BA\x0AX\x0BB\x0A"),
        boxed("box-black-between", b"\x01\x1D\x0BA\x0A\x1C\x0BB\x0A"),
        boxed("box-colour-before", b"\x01X\x0BAB\x0A"),
        boxed("box-colour-between", b"\x0BA\x0A\x01\x0BB\x0A"),
        boxed("box-colour-after", b"\x0BAB\x0A\x01X"),
        // The next row.
        boxed("box-next-row-none", b"X\x0BAB\x8ACD"),
        boxed("box-next-row-start", b"X\x0BAB\x8AX\x0BCD\x0AX"),
        boxed("box-next-row-end", b"X\x0BAB\x8ACD\x0A"),
        // "hidden codes are still tested"
        boxed("box-cells-64", &box_and_slug(64)),
        boxed("box-cells-65", &box_and_slug(65)),
        boxed("box-hidden-pair", b"\x0BAB\x0A\xC2e"),
        boxed("box-hidden-bad-pair", b"\x0BAB\x0A\xC21"),
        boxed("box-hidden-code-08", b"\x0BAB\x0A\x08"),
        boxed("box-hidden-code-09", b"\x09\x0BAB\x0A"),
        boxed("box-accent-before-start", b"\xC2\x0Be"),
        boxed("box-height-before", b"\x0D\x0BAB\x0AX"),
        boxed("box-height-in-end-only", b"\x0DX\x0A\x8AAB"),
        boxed("box-height-after-hidden", b"X\x0D\x0BAB\x0A"),
        boxed("box-height-hidden-later", b"\x0BAB\x8A\x0D\x0BCD"),
        case("box-in-open", open(b"11", 10, b"\x0BAB\x0A")),
    ]
}

/// Document 02, request 4, both sides of each sentence.
fn accent_cases() -> Vec<Case> {
    let teletext = |name, text: &[u8]| case(name, teletext(20, text));
    let open = |name, text: &[u8]| case(name, open(b"11", 10, text));
    let row_of = |pair: &[u8], cells| in_two_blocks(&pair.repeat(cells));
    vec![
        // One cell, of one or two code points.
        teletext("accent-composed", b"\xC2e"),
        teletext("accent-letter", b"\xC2X"),
        teletext("accent-space", b"\xC2 "),
        open("accent-letter-in-open", b"\xC2X"),
        open("accent-space-in-open", b"\xC2 "),
        teletext("accent-all-three", b"\xC2X\xC2 \xC2e"),
        teletext("accents-before-Q", b"\xC1Q\xC2Q\xC3Q\xC4Q\xC5Q\xC6Q\xC7Q\xC8Q\xCAQ\xCBQ\xCDQ\xCEQ\xCFQ"),
        teletext(
            "accents-before-space",
            b"\xC1 \xC2 \xC3 \xC4 \xC5 \xC6 \xC7 \xC8 \xCA \xCB \xCD \xCE \xCF ",
        ),
        // "no letter and no 20h", and nothing.
        teletext("accent-accent", b"\xC2\xC2"),
        teletext("accent-accent-letter", b"\xC2\xC2e"),
        teletext("accent-accent-space", b"\xC2\xC2 "),
        teletext("accent-row-end", b"\xC2\x8A"),
        teletext("accent-row-end-space", b"\xC2\x8A "),
        teletext("accent-last", b"A\xC2"),
        teletext("accent-last-in-block", &full_block()),
        teletext("accent-nbsp", b"\xC2\xA0"),
        teletext("accent-digit", b"\xC21"),
        teletext("accent-control", b"\xC2\x07 "),
        open("accent-switch-space", b"\xC2\x80 "),
        open("accent-last-in-open", b"A\xC2"),
        teletext("accent-c0-space", b"\xC0 "),
        teletext("accent-c9-space", b"\xC9 "),
        teletext("accent-cc-space", b"\xCC "),
        teletext("accent-cc-letter", b"\xCCX"),
        // No blank.
        teletext("mark-at-both-ends", b"\xC2 A\xC2 "),
        teletext("mark-between-blanks", b"  \xC2 A\xC2   "),
        teletext("mark-alone-in-row", b" \xC2  \x8A "),
        teletext("mark-colours", b"A\x01\xC2 \x07B"),
        teletext("mark-colours-letter", b"\x01\xC2 \x02\xC2X"),
        teletext("mark-on-red", b"\x01\x1D\xC2 \x1C\xC2 "),
        open("mark-italics", b"A\x80\xC2 \x81B"),
        open("mark-underlined", b"\x82\xC2 \x83\xC2 "),
        teletext("mark-hidden", b"\xC2 \x0BAB\x0A\xC2X"),
        teletext("mark-height", b"\xC2 \x0DA"),
        // Cells and blocks.
        case("mark-cells-64", row_of(b"\xC2 ", 64)),
        case("mark-cells-65", row_of(b"\xC2 ", 65)),
        case("mark-letters-64", row_of(b"\xC2X", 64)),
        case("mark-letters-65", row_of(b"\xC2X", 65)),
        case("mark-cells-64-cut", in_two_blocks(&[b"A", &b"\xC2 ".repeat(63)[..]].concat())),
        case("mark-cells-65-cut", in_two_blocks(&[b"A", &b"\xC2 ".repeat(64)[..]].concat())),
        case("mark-over-blocks", set(&[b"A\xC2", b" "])),
        case("mark-over-user-block", with_user_block(&[b"A\xC2", b" "])),
        case("mark-none-over-blocks", set(&[b"A\xC2", b""])),
        case("mark-none-over-user", with_user_block(&[b"A\xC2", b""])),
        case("mark-row-end-over-blocks", set(&[b"A\xC2", b"\x8A "])),
    ]
}

fn case(name: &'static str, file: Vec<u8>) -> Case {
    Case { name, mode: 1, file, room: ROOMY }
}

/// GSI and BLOCK(frame).
fn one_block(rate: u8, frame: u8) -> Vec<u8> {
    assemble::file(rate, &[Tti { tco: [10, 0, 3, frame], ..tti(&[0x41]) }])
}

/// GSI(25, 1) and SUBTITLE(1, vp, text).
fn teletext(vp: u8, text: &[u8]) -> Vec<u8> {
    assemble::file(25, &[Tti { vp, ..tti(text) }])
}

/// OPEN(rows, 1) and SUBTITLE(1, vp, text).
fn open(rows: &[u8; 2], vp: u8, text: &[u8]) -> Vec<u8> {
    with(&with(&teletext(vp, text), 11, b"0"), 253, rows)
}

/// The same file with other bytes from this offset.
fn with(file: &[u8], at: usize, bytes: &[u8]) -> Vec<u8> {
    let mut file = file.to_vec();
    file[at..at + bytes.len()].copy_from_slice(bytes);
    file
}

/// So many cells, and ten switches between them: one after every five cells.
fn row_with_ten_switches(cells: usize) -> Vec<u8> {
    let mut row = Vec::new();
    for switch in b"\x80\x82\x81\x83\x80\x82\x81\x83\x80\x81" {
        row.extend(b"AAAAA");
        row.push(*switch);
    }
    row.resize(10 + cells, b'A');
    row
}

/// SLUG(cells).
fn box_and_slug(cells: usize) -> Vec<u8> {
    let mut row = b"\x0BAB\x0A".to_vec();
    row.resize(cells, b'X');
    row
}

/// 112 bytes in four rows, the last an accent.
fn full_block() -> Vec<u8> {
    [b"A\x8AA\x8A", &[b'A'; 52][..], b"\x8A", &[b'A'; 54], b"\xC2"].concat()
}

/// SET(text, text).
fn set(texts: &[&[u8]; 2]) -> Vec<u8> {
    assemble::file(25, &blocks(texts))
}

/// SET(text, text) with a user block between.
fn with_user_block(texts: &[&[u8]; 2]) -> Vec<u8> {
    let [first, last] = blocks(texts);
    assemble::file(25, &[first, Tti { ebn: 0xFE, ..tti(b"e") }, last])
}

fn blocks(texts: &[&[u8]; 2]) -> [Tti; 2] {
    [Tti { ebn: 0x00, ..tti(texts[0]) }, tti(texts[1])]
}

/// SET of the first 112 bytes and the rest.
fn in_two_blocks(text: &[u8]) -> Vec<u8> {
    let (first, rest) = text.split_at(112);
    set(&[first, rest])
}

/// OPEN("11", 2), SUBTITLE(1, 9, text) and SUBTITLE(2, 10, 43h).
fn two_subtitles(text: &[u8]) -> Vec<u8> {
    assemble::open_file(25, 11, &[Tti { vp: 9, ..tti(text) }, Tti { sn: 2, vp: 10, ..tti(b"C") }])
}

impl Case {
    /// The name in 24 bytes; a longer one would not fit its place.
    fn name(&self) -> String {
        assert!(self.name.len() <= 24, "{}", self.name);
        format!("{:24}", self.name)
    }

    fn write(&self) {
        let mut header = self.name().into_bytes();
        header.push(self.mode);
        header.extend(three_bytes(self.room));
        header.extend(three_bytes(self.file.len()));
        header.push(b'\n');
        let mut out = std::io::stdout();
        out.write_all(&header).and_then(|()| out.write_all(&self.file)).expect("standard output");
    }

    fn run(&self) {
        let mut out = vec![0; self.room];
        let answer = convert(&self.file, u64::from(self.mode), &mut out);
        let numbers = answer.numbers().map(|number| number.to_string());
        println!("{}: {}", self.name(), numbers.join(" "));
        if answer.number == 0 {
            println!("{}", adler32(&out[..answer.length as usize]));
        }
    }
}

/// The low byte first.
fn three_bytes(number: usize) -> [u8; 3] {
    assert!(number <= 65_536, "more than the program takes");
    [number as u8, (number >> 8) as u8, (number >> 16) as u8]
}

/// RFC 1950: two sums modulo 65,521.
fn adler32(bytes: &[u8]) -> u32 {
    let (mut low, mut high) = (1, 0);
    for &byte in bytes {
        low = (low + u32::from(byte)) % 65_521;
        high = (high + low) % 65_521;
    }
    high * 65_536 + low
}
