//! The sentences of request 2, text after the end box.

mod common;

use common::{assert_refused, inside, paragraphs, run, ROOM};
use second::assemble::{file, open_file, tti, Tti};

const BREAK: &str = "<tt:br/>";

fn one(vp: u8, text: &[u8]) -> Vec<u8> {
    file(25, &[Tti { vp, ..tti(text) }])
}

/// A subtitle of one row in the last line, so without filler lines.
fn row(text: &[u8]) -> String {
    inside(&one(23, text), 1)
}

/// The rows of a subtitle of single height that ends in the last line.
fn rows(text: &[u8]) -> Vec<String> {
    let count = text.split(|&code| code == 0x8A).count();
    let shown = inside(&one(24 - count as u8, text), 1);
    shown.split(BREAK).map(String::from).collect()
}

/// A subtitle of one row in double height without filler lines; without a row
/// end both break modes agree.
fn double_row(text: &[u8]) -> String {
    let shown = inside(&one(22, text), 1);
    assert_eq!(inside(&one(22, text), 2), shown);
    shown
}

fn refused(text: &[u8], number: u64) {
    assert_refused(&one(10, text), 1, number, 0);
}

fn span(look: u16, text: &str) -> String {
    format!("<tt:span style=\"s{look:03}\">{text}</tt:span>")
}

/// White on black, and on red.
const WHITE: u16 = 7;
const ON_RED: u16 = 8 + 7;

/// "a cell is shown only after a 0Bh, up to and with the next 0Ah of that row,
/// or to its end"; "Hidden cells become blanks on black, so those at the row's
/// ends fall away."
#[test]
fn text_outside() {
    let plain = span(WHITE, "Hi");
    for text in [
        &b"Hi"[..],
        b"\x0BHi",
        b"\x0BHi\x0A",
        b"slug\x0BHi",
        b"slug\x0BHi\x0A",
        b"\x0BHi\x0Aslug",
        b"slug\x0BHi\x0Aslug",
        b"\xA0 \x0BHi\x0A \xA0",
        b"\xC2e\x0B\x0BHi\x0A\x0A\xC2e",
        b"<&\x0BHi\x0A&>",
    ] {
        assert_eq!(row(text), plain, "{text:02X?}");
    }
    // What is shown keeps its blanks inside, and U+00A0 at its ends.
    assert_eq!(row(b"x\x0B H  i \x0Ax"), span(WHITE, "H  i"));
    assert_eq!(row(b"x\x0B\xA0Hi\xA0\x0Ax"), span(WHITE, "\u{A0}Hi\u{A0}"));
    assert_eq!(row(b"\xC2e\x0B\xC2e\xC2o\x0A\xC2u"), span(WHITE, "\u{E9}\u{F3}"));
}

/// "It concerns teletext rows that hold at least one 0Ah or 0Bh": a colour that
/// only a row without them shows.
#[test]
fn rows_without_boxes() {
    assert_eq!(row(b" \x01\x1D\x07Hi "), span(ON_RED, "  Hi "));
    assert_eq!(row(b"\x0A \x01\x1D\x07Hi "), "");
    assert_eq!(row(b" \x01\x1D\x07Hi \x0B"), "");
    assert_eq!(row(b"\x0B \x01\x1D\x07Hi "), span(ON_RED, "  Hi "));
}

/// "up to and with the next 0Ah": the cell of the closing 0Ah is shown, that of
/// another after it is not.
#[test]
fn closing_code() {
    assert_eq!(row(b"\x0B\x01\x1D\x07Hi\x0A"), span(ON_RED, "  Hi "));
    assert_eq!(row(b"\x0B\x01\x1D\x07Hi\x0A\x0A \xA0"), span(ON_RED, "  Hi "));
    assert_eq!(row(b"\x0B\x01\x1D\x07Hi\x1C\x0A"), span(ON_RED, "  Hi"));
    // Nothing else in the box.
    assert_eq!(row(b"\x01\x1D\x0B\x0A"), span(ON_RED, " "));
}

/// "only after a 0Bh": the cell of the opening 0Bh is hidden, and the cells
/// before it, also on a colour.
#[test]
fn opening_code() {
    assert_eq!(row(b"\x01\x1D\x07\x0BHi\x1C"), span(ON_RED, "Hi"));
    assert_eq!(row(b"\x01\x1D\x07  \x0BHi\x0A"), span(ON_RED, "Hi "));
    assert_eq!(row(b"\x01\x1D\x07\x0B"), "");
    assert_eq!(row(b"\x01\x1D\xA0\x0B "), span(ON_RED, " "));
}

/// "a further 0Bh inside changes nothing"
#[test]
fn further_opening_codes() {
    assert_eq!(row(b"\x01\x1D\x07\x0B\x0BHi\x0A\x0A"), span(ON_RED, " Hi "));
    assert_eq!(row(b"\x01\x1D\x07\x0B\x0B\x0BHi\x0A"), span(ON_RED, "  Hi "));
    // The example of 004, 4.4.7.1: blue on yellow.
    assert_eq!(row(b"\x03\x1D\x04\x0B\x0BBlue\x0A\x0A"), span(3 * 8 + 4, " Blue "));
    assert_eq!(row(b"\x0BHi\x0Byou\x0Aslug"), span(WHITE, "Hi you"));
    assert_eq!(row(b"\x0BHi\x0A\x0Byou\x0B!"), span(WHITE, "Hi  you !"));
    // One 0Ah ends the box, however many opened it.
    assert_eq!(row(b"\x0B\x0B\x0BHi\x0Aslug"), span(WHITE, "Hi"));
}

/// A 0Ah where no box is open is hidden and changes nothing; without any 0Bh
/// the row is hidden whole.
#[test]
fn closing_code_outside() {
    assert_eq!(row(b"\x01\x1D\x07\x0A\x0BHi\x1C"), span(ON_RED, "Hi"));
    assert_eq!(row(b"\x0A\x0A\x0BHi\x0A\x0A\x0A"), span(WHITE, "Hi"));
    assert_eq!(row(b"slug\x0Aslug\x0BHi"), span(WHITE, "Hi"));
    for text in [&b"\x0A"[..], b"\x0A\x0A", b"Hi\x0A", b"\x0AHi", b"\x01\x1DHi \x0A\xA0", b"\xC2e\x0Axy\x0A"]
    {
        assert_eq!(row(text), "", "{text:02X?}");
    }
}

/// "or to its end"
#[test]
fn opening_code_only() {
    assert_eq!(row(b"slug\x0BHi "), span(WHITE, "Hi"));
    assert_eq!(row(b"slug\x0B\x01\x1D\x07Hi "), span(ON_RED, "  Hi "));
    assert_eq!(row(b"slug\x0B"), "");
    assert_eq!(row(b"\x0B\x0B"), "");
}

/// A second 0Bh after a 0Ah opens a second box; the cells between are blanks on
/// black, and inside the shown range they stay.
#[test]
fn second_box() {
    assert_eq!(row(b"\x0BHi\x0Aslug\x0Byou\x0A"), span(WHITE, "Hi      you"));
    assert_eq!(row(b"x\x0BHi\x0Ax\x0By\x0Ax\x0Bz\x0Ax"), span(WHITE, "Hi   y   z"));
    assert_eq!(row(b"\x0BHi\x0A\x0A\x0B\x0Byou"), span(WHITE, "Hi    you"));
    // Their background is black, whatever holds there.
    assert_eq!(
        row(b"\x01\x1D\x07\x0BHi\x0Aslug\x0Byou\x0A"),
        span(ON_RED, "Hi ") + &span(WHITE, "     ") + &span(ON_RED, "you ")
    );
    // A gap of black blanks goes with what follows on black.
    assert_eq!(
        row(b"\x01\x1D\x07\x0BHi\x0A\x02slug\x1C\x0Byou"),
        span(ON_RED, "Hi ") + &span(2, "       you")
    );
    // An empty box shows its closing 0Ah only, which falls away on black.
    assert_eq!(row(b"\x0BHi\x0Aslug\x0B\x0A"), span(WHITE, "Hi"));
    assert_eq!(row(b"\x0B\x0Aslug\x0BHi"), span(WHITE, "Hi"));
}

/// "Hidden codes still act on what follows": colours, 1Ch and 1Dh.
#[test]
fn hidden_colours() {
    assert_eq!(row(b"\x01\x0BHi"), span(1, "Hi"));
    assert_eq!(row(b"\x01slug\x02\x0BHi"), span(2, "Hi"));
    assert_eq!(row(b"\x0BHi\x0A\x02\x0Byou"), span(WHITE, "Hi   ") + &span(2, "you"));
    assert_eq!(row(b"\x0BHi\x0A\x02slug\x07\x0Byou"), span(WHITE, "Hi        you"));
    assert_eq!(row(b"\x04\x1D\x0BHi"), span(4 * 8 + 4, "Hi"));
    assert_eq!(row(b"\x04\x1D\x1C\x0BHi"), span(4, "Hi"));
    assert_eq!(row(b"\x04\x1D\x07\x0BHi\x0A\x1C\x0Byou"), span(39, "Hi ") + &span(WHITE, "  you"));
    assert_eq!(row(b"\x0BHi\x0A\x04\x1D\x0Byou"), span(WHITE, "Hi    ") + &span(36, "you"));
    // A colour that is set inside holds in the next box.
    assert_eq!(row(b"\x0B\x03Hi\x0Aslug\x0Byou"), span(3, "Hi      you"));
    // A hidden 1Dh takes the colour that a hidden code has set.
    assert_eq!(row(b"x\x05x\x1Dx\x07x\x0BHi"), span(5 * 8 + 7, "Hi"));
}

/// Hidden text has no span and no style.
#[test]
fn counts_and_styles() {
    let styles = |text: &[u8]| {
        let (answer, document) = run(&one(20, text), 1, ROOM);
        let lines = document.lines().filter(|line| line.starts_with("<tt:style xml:id=\"s"));
        let names: Vec<String> = lines.map(|line| line[19..22].to_string()).collect();
        assert_eq!(answer.length, document.len() as u64);
        (answer.spans, names)
    };
    assert_eq!(styles(b"\x0BHi\x0A\x01slug\x02slug"), (1, vec!["007".into()]));
    assert_eq!(styles(b"\x01slug\x0A"), (0, vec![]));
    assert_eq!(styles(b"\x01\x1D\x0BA\x0A\x02x\x0BB"), (3, vec!["007".into(), "009".into(), "010".into()]));
    // The document is the one of the text that is shown.
    assert_eq!(run(&one(20, b"\x06x\x0BHi\x0Ax"), 1, ROOM), run(&one(20, b"\x06Hi"), 1, ROOM));
}

/// 0Dh makes the subtitle double height, hidden or not, and hidden blanks are
/// of its height.
#[test]
fn double_height() {
    for text in [&b"\x0D\x0BHi\x0Aslug"[..], b"\x0B\x0DHi\x0A", b"\x0A\x0D\x0BHi", b"\x0B\x0A\x0D\x0BHi"] {
        assert_eq!(double_row(text), span(64 + WHITE, "Hi"), "{text:02X?}");
    }
    assert_eq!(
        double_row(b"\x0D\x01\x1D\x0BA\x0Ax\x0BB\x0A"),
        span(64 + 9, "A ") + &span(64 + WHITE, "  ") + &span(64 + 9, "B ")
    );
    // A first row that shows nothing gives its height to the next.
    assert_eq!(inside(&one(20, b"\x0Dslug\x0A\x8AHi"), 1), BREAK.to_string() + &span(64 + WHITE, "Hi"));
    assert_eq!(
        inside(&one(20, b"\x0Dslug\x0A\x8A\x8A\x0D\x0BHi\x0Aslug"), 2),
        BREAK.to_string() + &span(64 + WHITE, "Hi")
    );
}

/// "hidden codes are still tested": 13.
#[test]
fn hidden_codes_not_listed() {
    let listed = |code: u8| matches!(code, 0x00..=0x07 | 0x0A | 0x0B | 0x0D | 0x1C | 0x1D);
    let bad = (0x00..=0x1F).filter(|&code| !listed(code)).chain(0x7F..=0x89).chain(0x8B..=0x8E);
    for code in bad.chain(0x90..=0x9F).chain([0xA6, 0xA8, 0xC0, 0xC9, 0xCC, 0xD8, 0xE5]) {
        refused(&[code, 0x0B, b'A', 0x0A], 13);
        refused(&[0x0B, b'A', 0x0A, code], 13);
        refused(&[0x0B, b'A', 0x0A, code, 0x0B, b'B'], 13);
        refused(&[b'A', code, 0x0A], 13);
    }
    refused(b"\x0BA\x0A\xC21", 13);
    refused(b"\xC2\xA0\x0BA", 13);
    refused(b"\x0BA\x0A\xC2", 13);
}

/// Accents before box codes have no letter, hidden or not.
#[test]
fn accents_before_boxes() {
    for text in [&b"\xC2\x0Be"[..], b"\xC2\x0Ae", b"\x0B\xC2\x0Ae", b"\x0BA\x0A\xC2\x0Be", b"\x0B\xC2\x0Be"] {
        refused(text, 13);
    }
    assert_eq!(row(b"\xC2e\x0B\xC2e\x0A\xC2e"), span(WHITE, "\u{E9}"));
}

/// "hidden codes are still tested": 14.
#[test]
fn hidden_heights() {
    refused(b"slug\x0D\x0BHi", 14);
    refused(b"\x0D \x0D\x0BHi", 14);
    refused(b"slug\x0B\x0DHi", 14);
    refused(b"\x0BHi\x0A\x0D", 14);
    refused(b"slug\x0A\x0D", 14);
    refused(b"\xC2e\x0D\x0A", 14);
    // In a later row of a single-height subtitle.
    refused(b"Hi\x8A\x0D\x0Byou", 14);
    refused(b"\x0BHi\x8A\x0D\x0A", 14);
    // A lone row end in break mode 2, between rows that show nothing.
    assert_refused(&one(10, b"\x0D\x0A\x8Aslug\x0A"), 2, 14, 0);
    assert_eq!(inside(&one(20, b"\x0D\x0A\x8A\x8Aslug\x0A"), 2), BREAK);
}

/// "hidden codes are still tested": 15. Hidden cells count among the 64, and rows
/// that show nothing cover their lines.
#[test]
fn hidden_cells_and_rows() {
    let with = |cells: usize, code: u8| {
        let mut text = b"\x0BHi\x0A".to_vec();
        text.resize(cells, code);
        text
    };
    for code in [b'x', b' ', 0xA0, 0x0A, 0x07, 0x1D] {
        assert_eq!(row(&with(64, code)), span(WHITE, "Hi"));
        refused(&with(65, code), 15);
    }
    let mut before = vec![b'x'; 62];
    before.extend(b"\x0BA");
    assert_eq!(row(&before), span(WHITE, "A"));
    before.push(b'B');
    refused(&before, 15);
    refused(&[0x0A; 65], 15);
    // Accent and letter are one cell.
    let blocks = |pairs: usize| {
        let rest = b"\xC2e".repeat(pairs - 50);
        let first = [&b"\x0BHi\x0A"[..], &b"\xC2e".repeat(50)].concat();
        file(25, &[Tti { ebn: 0x00, vp: 23, ..tti(&first) }, tti(&rest)])
    };
    assert_eq!(inside(&blocks(60), 1), span(WHITE, "Hi"));
    assert_refused(&blocks(61), 1, 15, 0);
    // Lines.
    assert_eq!(inside(&one(22, b"x\x0A\x8Ax\x0A"), 1), BREAK);
    assert_refused(&one(23, b"x\x0A\x8Ax\x0A"), 1, 15, 0);
    assert_refused(&one(23, b"\x0D\x0A"), 1, 15, 0);
}

/// "its whole text for 13, then 14, then 15", over hidden codes.
#[test]
fn order() {
    let mut text = b"\x0BHi\x0A".to_vec();
    text.resize(65, b'x');
    refused(&text, 15);
    text.push(0x0D);
    refused(&text, 14);
    text.push(0x08);
    refused(&text, 13);
}

/// "of that row": boxes of a row do not touch another.
#[test]
fn other_rows() {
    let shown = |words: &[&str]| -> Vec<String> {
        let span = |word: &&str| if word.is_empty() { String::new() } else { span(WHITE, word) };
        words.iter().map(span).collect()
    };
    // A row without boxes beside rows with boxes.
    assert_eq!(rows(b"Hi\x8A\x0Byou\x0Aslug\x8Athere"), shown(&["Hi", "you", "there"]));
    assert_eq!(rows(b"x\x0BHi\x0Ax\x8A you \x8Ax\x0Bthere"), shown(&["Hi", "you", "there"]));
    // A box that ends with its row does not go on in the next.
    assert_eq!(rows(b"\x0BHi\x8Ayou"), shown(&["Hi", "you"]));
    assert_eq!(rows(b"\x0BHi\x8Ayou\x0A"), shown(&["Hi", ""]));
    assert_eq!(rows(b"\x0BHi\x8Aslug\x0Byou\x0A"), shown(&["Hi", "you"]));
    assert_eq!(rows(b"\x0BHi\x8A\x0Aslug\x8A\x0Byou"), shown(&["Hi", "", "you"]));
    assert_eq!(rows(b"slug\x0A\x8A\x8Aslug\x0B\x8AHi"), shown(&["", "", "", "Hi"]));
    // A row ends before the first 0Ah or 0Bh of the next.
    assert_eq!(rows(b"Hi\x8A\x0A"), shown(&["Hi", ""]));
    assert_eq!(rows(b"Hi\x8A\x0B"), shown(&["Hi", ""]));
    assert_eq!(rows(b"\x0A\x8AHi"), shown(&["", "Hi"]));
    // In the next subtitle neither.
    let blocks = [Tti { vp: 23, ..tti(b"\x0BHi") }, Tti { sn: 2, vp: 23, ..tti(b"you") }];
    let (answer, document) = run(&file(25, &blocks), 1, ROOM);
    assert_eq!((answer.number, answer.spans), (0, 2));
    assert!(paragraphs(&document)[1].ends_with(&(span(WHITE, "you") + "</tt:p>")));
}

/// A row goes over block ends, and so does a box.
#[test]
fn block_ends() {
    let block = |ebn, text: &[u8]| Tti { ebn, vp: 23, ..tti(text) };
    let user = || block(0xFE, b"\x0Aslug\x0B");
    let blocks = [block(0, b"slug\x0B"), user(), block(1, b"Hi"), block(2, b"\x0A"), block(0xFF, b"slug")];
    assert_eq!(inside(&file(25, &blocks), 1), span(WHITE, "Hi"));
    let blocks = [user(), block(0, b"slug"), block(0xFF, b"slug\x0A"), user()];
    assert_eq!(inside(&file(25, &blocks), 1), "");
    // What stands after 8Fh is no text.
    assert_eq!(row(b"Hi\x8F\x0A"), span(WHITE, "Hi"));
}

/// Open subtitles refuse 0Ah and 0Bh as before.
#[test]
fn open_subtitles() {
    for text in [&b"\x0BHi\x0A"[..], b"\x0BHi", b"Hi\x0A", b"\x0A", b"\x0B", b"Hi\x8A\x0B", b"\x80Hi\x0A"] {
        assert_refused(&open_file(25, 11, &[Tti { vp: 0, ..tti(text) }]), 1, 13, 0);
    }
}
