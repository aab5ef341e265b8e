//! Writes refused files, `NUMBER-NAME.stl`, into a directory: `refused DIR`. The
//! number is that of break mode 1, or of mode 2 where the name says so, with a
//! buffer of 65,536 bytes; for 1 any other mode does.

use second::assemble::{file, open_file, time, tti, Tti};
use std::path::Path;
use std::{env, fs, io};

fn main() -> io::Result<()> {
    let directory = env::args().nth(1).ok_or(io::Error::other("usage: refused DIR"))?;
    let files = gsi().into_iter().chain(sets()).chain(headers()).chain(texts()).chain(rows());
    for (name, file) in files {
        fs::write(Path::new(&directory).join(name).with_extension("stl"), file)?;
    }
    Ok(())
}

type Named = (&'static str, Vec<u8>);

/// 2 to 6, and 16.
fn gsi() -> Vec<Named> {
    let good = file(25, &[tti(b"A")]);
    let open = open_file(25, 23, &[tti(b"A")]);
    let bad_rows = with(&open, 253, b"00");
    vec![
        ("02-short", good[..1023].to_vec()),
        ("02-one-more", [&good[..], b"x"].concat()),
        ("03-dfc", with(&good, 10, b"2")),
        ("04-dsc", with(&good, 11, b"3")),
        ("05-cct", with(&good, 13, b"1")),
        ("06-tnb", with(&good, 242, b"2")),
        ("06-tnb-mnr", with(&bad_rows, 238, b"x")),
        ("06-mnr", bad_rows),
        ("16-long-document", file(25, &long_document())),
    ]
}

/// The same file with other bytes from this offset.
fn with(file: &[u8], at: usize, bytes: &[u8]) -> Vec<u8> {
    let mut file = file.to_vec();
    file[at..at + bytes.len()].copy_from_slice(bytes);
    file
}

/// 400 blocks, each of which gives over 200 bytes of the document.
fn long_document() -> Vec<Tti> {
    let subtitle = |sn: u16| {
        let tci = time(30 * usize::from(sn), 25);
        let tco = time(30 * usize::from(sn) + 20, 25);
        Tti { sn, tci, tco, vp: 1, ..tti(b"Twenty-two filler lines") }
    };
    (0..400).map(subtitle).collect()
}

fn block(ebn: u8) -> Tti {
    Tti { ebn, ..tti(b"A") }
}

fn user() -> Tti {
    Tti { sgn: 9, sn: 7, cf: 9, ..block(0xFE) }
}

/// 7.
fn sets() -> Vec<Named> {
    let last = |bad: Tti| file(25, &[block(0), user(), bad]);
    vec![
        ("07-opening", file(25, &[user(), block(1)])),
        ("07-opening-f0", file(25, &[block(0xF0)])),
        ("07-gap", file(25, &[block(0), block(2)])),
        ("07-fd", file(25, &[block(0), block(0xFD)])),
        ("07-ebn-and-sgn", last(Tti { sgn: 1, ..block(0) })),
        ("07-sgn", last(Tti { sgn: 1, ..block(0xFF) })),
        ("07-sn-low", last(Tti { sn: 2, ..block(0xFF) })),
        ("07-sn-high", last(Tti { sn: 257, ..block(0xFF) })),
        ("07-cf", last(Tti { cf: 1, ..block(0xFF) })),
        ("07-sn-and-cf", last(Tti { sn: 3, cf: 1, ..block(0xFF) })),
        ("07-open", file(25, &[block(0)])),
        ("07-open-user", file(25, &[block(0), user()])),
    ]
}

/// 8 to 12.
fn headers() -> Vec<Named> {
    let good = || tti(b"A");
    let one = |bad: Tti| file(25, &[bad]);
    vec![
        ("08-cf", one(Tti { cf: 2, ..good() })),
        ("09-sn", file(25, &[good(), user(), good()])),
        ("10-cs", one(Tti { cs: 1, ..good() })),
        ("11-tci-hours", one(Tti { tci: [24, 60, 60, 25], ..good() })),
        ("11-tci-frames", one(Tti { tci: [10, 0, 1, 25], ..good() })),
        ("11-tco-minutes", one(Tti { tco: [9, 60, 0, 25], ..good() })),
        ("11-tco-equal", one(Tti { tco: [10, 0, 1, 2], ..good() })),
        ("12-vp", one(Tti { vp: 24, ..good() })),
        ("12-vp-jc", one(Tti { vp: 0, jc: 4, ..good() })),
        ("12-jc", one(Tti { jc: 4, ..good() })),
        ("12-open-vp", open_file(25, 20, &[good()])),
    ]
}

/// Blocks 00h, 01h and so on with these texts, the last one FFh, and a user block
/// behind the first.
fn set(vp: u8, texts: &[&[u8]]) -> Vec<Tti> {
    let last = texts.len() - 1;
    let ebn = |number| if number == last { 0xFF } else { number as u8 };
    let blocks = texts.iter().enumerate().map(|(number, text)| Tti { vp, ..tti_of(ebn(number), text) });
    let mut blocks: Vec<Tti> = blocks.collect();
    blocks.insert(1, user());
    blocks
}

fn tti_of(ebn: u8, text: &[u8]) -> Tti {
    Tti { ebn, ..tti(text) }
}

/// 13 and 14.
fn texts() -> Vec<Named> {
    let text = |texts: &[&[u8]]| file(25, &set(8, texts));
    vec![
        ("13-code", text(&[b"A\x7F"])),
        ("13-later-block", text(&[b"A\x8F\x7F", b"", b"B\x08"])),
        ("13-pair-over-blocks", text(&[b"A\xC2", b"1"])),
        ("13-nbsp-over-blocks", text(&[b"A\xC2", b"\xA0"])),
        ("13-lone-accent", text(&[b"A\xC2", b""])),
        ("13-accent-before-accent", text(&[b"\xC2 \xC2q\xC2e", b"A\xC2\xC2 "])),
        ("13-accent-before-row-end", text(&[b"\xC2 \xC2", b"\x8A "])),
        ("13-c9", text(&[b"A\xC9e"])),
        ("13-cc-space", text(&[b"A\xCC "])),
        ("13-open", open_file(25, 23, &set(8, &[b"\x80A\x01"]))),
        ("13-accent-before-switch", open_file(25, 23, &set(8, &[b"\xC2 A\xC2", b"\x81 "]))),
        ("14-after-character", text(&[b"A", b" \x0D"])),
        ("14-later-row", text(&[b"A\x8A", b"\x0DB"])),
        ("14-run-of-3-mode-2", text(&[b"\x0DA\x8A\x8AB\x8A", b"\x8A\x8A\x0D"])),
        ("14-run-at-end-mode-2", text(&[b"\x0DA\x8A"])),
    ]
}

/// 15.
fn rows() -> Vec<Named> {
    let text = |vp, texts: &[&[u8]]| file(25, &set(vp, texts));
    let long = [b'x'; 65];
    vec![
        ("15-long", text(8, &[b"A\x8A", &long[..40], &long[40..]])),
        ("15-past", text(22, &[b"A\x8AB\x8A", b"C\x8AD"])),
        ("15-empty", text(22, &[b"A\x8A", b"\x8A\x8AB"])),
        ("15-double", text(23, &[b"\x01\x0DA"])),
        ("15-empty-pair-mode-2", text(22, &[b"\x0DA\x8A", b"\x8A"])),
        ("15-open", open_file(25, 9, &set(8, &[b"A\x8A", b"\x80B"]))),
    ]
}
