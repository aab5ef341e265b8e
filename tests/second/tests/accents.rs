//! The sentences of request 4, accents without a ready-made letter.

mod common;

use common::{assert_refused, inside, run, ROOM};
use second::assemble::{file, open_file, tti, Tti};

/// The codes of the thirteen accents, and their marks.
const ACCENTS: [(u8, &str); 13] = [
    (0xC1, "\u{300}"),
    (0xC2, "\u{301}"),
    (0xC3, "\u{302}"),
    (0xC4, "\u{303}"),
    (0xC5, "\u{304}"),
    (0xC6, "\u{306}"),
    (0xC7, "\u{307}"),
    (0xC8, "\u{308}"),
    (0xCA, "\u{30A}"),
    (0xCB, "\u{327}"),
    (0xCD, "\u{30B}"),
    (0xCE, "\u{328}"),
    (0xCF, "\u{30C}"),
];

const BREAK: &str = "<tt:br/>";

fn span(look: u16, text: &str) -> String {
    format!("<tt:span style=\"s{look:03}\">{text}</tt:span>")
}

fn teletext(text: &[u8]) -> Vec<u8> {
    file(25, &[Tti { vp: 23, ..tti(text) }])
}

fn open(text: &[u8]) -> Vec<u8> {
    open_file(25, 1, &[Tti { vp: 0, ..tti(text) }])
}

/// One row of teletext without filler lines.
fn row(text: &[u8]) -> String {
    inside(&teletext(text), 1)
}

/// One row of open subtitles without filler lines.
fn open_row(text: &[u8]) -> String {
    inside(&open(text), 2)
}

/// Blocks 00h, 01h and so on with these texts, the last one FFh.
fn set(texts: &[&[u8]]) -> Vec<Tti> {
    let last = texts.len() - 1;
    let ebn = |number| if number == last { 0xFF } else { number as u8 };
    texts.iter().enumerate().map(|(number, text)| Tti { ebn: ebn(number), vp: 22, ..tti(text) }).collect()
}

fn user() -> Tti {
    Tti { ebn: 0xFE, ..tti(&[b'e'; 112]) }
}

/// "where no composed letter exists, the letter followed by the combining mark"
#[test]
fn letters_with_marks() {
    for (accent, mark) in ACCENTS {
        // No accent has a composed Q or q.
        for letter in ["Q", "q"] {
            let expected = span(7, &format!("{letter}{mark}"));
            assert_eq!(row(&[accent, letter.as_bytes()[0]]), expected);
            assert_eq!(open_row(&[accent, letter.as_bytes()[0]]), expected);
        }
    }
    assert_eq!(row(b"\xC2X"), span(7, "X\u{301}"));
    assert_eq!(row(b"\xCDA\xCAO\xCBB"), span(7, "A\u{30B}O\u{30A}B\u{327}"));
    // Composed where there is one, also between the others.
    assert_eq!(row(b"\xC2e\xC2b\xC2 \xC2e"), span(7, "\u{E9}b\u{301}\u{A0}\u{301}\u{E9}"));
    assert_eq!(row(b"e\xC2ee"), span(7, "e\u{E9}e"));
}

/// "An accent before 20h gives U+00A0 and the mark."
#[test]
fn spaces_with_marks() {
    for (accent, mark) in ACCENTS {
        let expected = span(7, &format!("\u{A0}{mark}"));
        assert_eq!(row(&[accent, 0x20]), expected);
        assert_eq!(open_row(&[accent, 0x20]), expected);
    }
}

/// The bytes of the document: both code points in UTF-8, the length and the count
/// of spans with them.
#[test]
fn bytes_of_the_document() {
    let plain = run(&teletext(b"\xA0"), 1, ROOM);
    let marked = run(&teletext(b"\xCE "), 1, ROOM);
    assert_eq!((marked.0.length, marked.0.spans), (plain.0.length + 2, 1));
    assert_eq!(marked.1.len() as u64, marked.0.length);
    let at = marked.1.find('\u{328}').unwrap();
    assert_eq!(&marked.1.as_bytes()[at - 2..at + 2], b"\xC2\xA0\xCC\xA8");
    let short = run(&teletext(b"\xCE "), 1, marked.0.length as usize - 1).0;
    assert_eq!((short.number, short.length), (16, marked.0.length));
}

/// "Either is one cell and no blank": not trimmed, and in a colour of its own.
#[test]
fn no_blank() {
    assert_eq!(row(b" \xC2 A\xC2  "), span(7, "\u{A0}\u{301}A\u{A0}\u{301}"));
    assert_eq!(row(b" \xC2  "), span(7, "\u{A0}\u{301}"));
    assert_eq!(row(b"\x01\xC2 \x02"), span(1, "\u{A0}\u{301}"));
    assert_eq!(row(b"A\x01\xC2 \x07B"), span(7, "A ") + &span(1, "\u{A0}\u{301} ") + &span(7, "B"));
    assert_eq!(row(b"\x01\xC2 \x02\xC2X"), span(1, "\u{A0}\u{301} ") + &span(2, "X\u{301}"));
    assert_eq!(row(b"\x01\x1D\xC2 \x1C\xC2 "), span(9, " \u{A0}\u{301}") + &span(1, " \u{A0}\u{301}"));
    // Blanks beside it go with it.
    assert_eq!(row(b"\x01\xC2 \x07 \x01\xC2 "), span(1, "\u{A0}\u{301}   \u{A0}\u{301}"));
    assert_eq!(open_row(b" \x80\xC2 \x81 \xC2 "), span(263, "\u{A0}\u{301} ") + &span(7, "\u{A0}\u{301}"));
    assert_eq!(open_row(b"\x82\xC2 \x83\xC2 "), span(135, "\u{A0}\u{301}") + &span(7, "\u{A0}\u{301}"));
    assert_eq!(inside(&file(25, &[Tti { vp: 22, ..tti(b"\x0D\xC2 ") }]), 1), span(71, "\u{A0}\u{301}"));
}

/// "counts once among the 64"
#[test]
fn cells_in_a_row() {
    for pair in [b"\xC2 ", b"\xC2X", b"\xC2e"] {
        let of = |cells: usize| {
            let text = pair.repeat(cells);
            let (first, rest) = text.split_at(111);
            file(25, &set(&[first, rest]))
        };
        assert_eq!(run(&of(64), 1, ROOM).0.number, 0);
        assert_refused(&of(65), 1, 15, 0);
    }
}

/// "one of the thirteen accents now gives 13 only before what is no letter and no
/// 20h, or before nothing"; C0h, C9h and CCh stay 13.
#[test]
fn refused() {
    for accent in 0xC0..=0xCF {
        let listed = ACCENTS.iter().any(|&(code, _)| code == accent);
        for next in 0x00..=0xFFu8 {
            let good = listed && (next == 0x20 || next.is_ascii_alphabetic());
            for file in [teletext(&[accent, next]), open(&[accent, next])] {
                if good {
                    assert_eq!(run(&file, 1, ROOM).0.number, 0, "{accent:02X} {next:02X}");
                } else {
                    assert_refused(&file, 1, 13, 0);
                }
            }
        }
        assert_refused(&teletext(&[accent]), 1, 13, 0);
        assert_refused(&open(&[accent]), 1, 13, 0);
    }
    // The second accent takes no part in a pair.
    assert_refused(&teletext(b"\xC2\xC2 "), 1, 13, 0);
    assert_refused(&teletext(b"\xC2\x8A "), 1, 13, 0);
    assert_refused(&open(b"\xC2\x80 "), 1, 13, 0);
    // A pair has taken its space: the next accent is behind it.
    assert_refused(&teletext(b"\xC2 \xC2"), 1, 13, 0);
}

/// Over a block's end, with a block without text and a user block between.
#[test]
fn block_ends() {
    let mut full = [b'x'; 112];
    full[55] = 0x8A;
    full[111] = 0xC2;
    let shown = |blocks: &[Tti]| inside(&file(25, blocks), 1);
    for (next, expected) in [(b" ", "\u{A0}\u{301}"), (b"X", "X\u{301}"), (b"e", "\u{E9}")] {
        let mut blocks = set(&[b"A\xC2", next]);
        assert_eq!(shown(&blocks), span(7, &format!("A{expected}")) + BREAK);
        blocks.insert(1, user());
        assert_eq!(shown(&blocks), span(7, &format!("A{expected}")) + BREAK);
        let mut blocks = set(&[&full, b"", next]);
        let rows = span(7, &"x".repeat(55)) + BREAK + &span(7, &format!("{}{expected}", "x".repeat(55)));
        assert_eq!(shown(&blocks), rows);
        blocks.insert(1, user());
        blocks.insert(3, user());
        assert_eq!(shown(&blocks), rows);
    }
    // Nothing follows: 13, whatever the user block holds.
    let mut blocks = set(&[b"A\xC2", b""]);
    assert_refused(&file(25, &blocks), 1, 13, 0);
    blocks.insert(1, user());
    assert_refused(&file(25, &blocks), 1, 13, 0);
    // 8Fh ends the text before the space.
    assert_refused(&teletext(b"A\xC2\x8F "), 1, 13, 0);
}

/// Hidden pairs become blanks, and are tested as before.
#[test]
fn outside_a_box() {
    let plain = span(7, "Hi");
    assert_eq!(row(b"\xC2 \x0BHi\x0A\xC2 "), plain);
    assert_eq!(row(b"\xC2X\x0BHi\x0A\xC2X"), plain);
    assert_eq!(row(b"\x0B\xC2 Hi\xC2 \x0A\xC2 "), span(7, "\u{A0}\u{301}Hi\u{A0}\u{301}"));
    assert_refused(&teletext(b"\x0BHi\x0A\xC2\x0B "), 1, 13, 0);
}

/// "0Dh after a code of 20h or above in its row"
#[test]
fn heights() {
    assert_refused(&file(25, &[tti(b"\xC2 \x0DA")]), 1, 14, 0);
    assert_refused(&file(25, &[tti(b"\xC2X\x0DA")]), 1, 14, 0);
}
