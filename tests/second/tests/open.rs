//! The sentences of request 1, open subtitles.

mod common;

use common::{assert_refused, inside, paragraphs, run, ROOM};
use second::assemble::{file, open_file, tti, Tti};
use second::Answer;

/// A file of one subtitle on a screen of so many rows.
fn one(rows: u8, vp: u8, text: &[u8]) -> Vec<u8> {
    open_file(25, rows, &[Tti { vp, ..tti(text) }])
}

/// A subtitle of one row on a screen of one, so without filler lines.
fn row(text: &[u8]) -> String {
    let plain = inside(&one(1, 0, text), 1);
    // "either break mode reads as 1"
    assert_eq!(inside(&one(1, 0, text), 2), plain);
    plain
}

fn span(look: u16, text: &str) -> String {
    format!("<tt:span style=\"s{look:03}\">{text}</tt:span>")
}

const BREAK: &str = "<tt:br/>";

/// The same file with another MNR.
fn with_rows(file: &[u8], rows: [u8; 2]) -> Vec<u8> {
    with_bytes(file, 253, &rows)
}

fn with_bytes(file: &[u8], at: usize, bytes: &[u8]) -> Vec<u8> {
    let mut file = file.to_vec();
    file[at..at + bytes.len()].copy_from_slice(bytes);
    file
}

#[test]
fn whole_document() {
    let blocks = [Tti { vp: 9, ..tti(b"\x80Who \x82is\x83\x8Athere?\x81") }];
    let (answer, document) = run(&open_file(25, 12, &blocks), 1, ROOM);
    let expected = Answer { length: document.len() as u64, subtitles: 1, spans: 3, ..Answer::default() };
    assert_eq!(answer, expected);
    let styles: Vec<&str> = document.lines().filter(|line| line.contains("xml:id=\"s")).take(2).collect();
    let style = |name: &str, decoration: &str| {
        format!(
            "<tt:style xml:id=\"{name}\" tts:color=\"#ffffff\" tts:backgroundColor=\"#000000\" \
             tts:fontSize=\"1c 1c\" tts:fontStyle=\"italic\" tts:textDecoration=\"{decoration}\"/>"
        )
    };
    assert_eq!(styles, [style("s263", "none"), style("s391", "underline")]);
    let paragraph = format!(
        "<tt:p xml:id=\"sub1\" style=\"alignCentre\" begin=\"10:00:01:02\" end=\"10:00:03:04\">\
         {}{}<tt:br/>{}<tt:br/></tt:p>",
        span(263, "Who "),
        span(391, "is"),
        span(263, "there?")
    );
    assert_eq!(paragraphs(&document), [paragraph]);
    // All else is the document of a teletext file without its s-styles and
    // paragraphs.
    let rest = |document: &str| -> Vec<String> {
        let lines = document.lines().filter(|line| !line.contains("xml:id=\"s"));
        lines.map(String::from).collect()
    };
    assert_eq!(rest(&document), rest(&run(&file(25, &[tti(b"A")]), 1, ROOM).1));
}

/// "In every file each s-style line then ends with tts:fontStyle (normal,
/// italic) and tts:textDecoration (none, underline)."
#[test]
fn style_lines() {
    let styles = |file: &[u8]| -> Vec<String> {
        let document = run(file, 1, ROOM).1;
        let lines = document.lines().filter(|line| line.starts_with("<tt:style xml:id=\"s"));
        lines.map(|line| line[18..22].to_string() + line.split("tts:fontSize=").nth(1).unwrap()).collect()
    };
    assert_eq!(
        styles(&one(1, 0, b"A\x80B\x82C\x81D")),
        [
            "s007\"1c 1c\" tts:fontStyle=\"normal\" tts:textDecoration=\"none\"/>",
            "s135\"1c 1c\" tts:fontStyle=\"normal\" tts:textDecoration=\"underline\"/>",
            "s263\"1c 1c\" tts:fontStyle=\"italic\" tts:textDecoration=\"none\"/>",
            "s391\"1c 1c\" tts:fontStyle=\"italic\" tts:textDecoration=\"underline\"/>",
        ]
    );
    assert_eq!(
        styles(&file(25, &[tti(b"\x0D\x01A")])),
        ["s065\"1c 2c\" tts:fontStyle=\"normal\" tts:textDecoration=\"none\"/>"]
    );
}

/// "MNR (GSI bytes 253 to 254, two ASCII digits, 01 to 99)"; "with DSC "0" a bad
/// MNR is 6".
#[test]
fn rows_of_the_screen() {
    let good = one(1, 0, b"A");
    for tens in 0x00..=0xFF {
        for ones in 0x00..=0xFF {
            let file = with_rows(&good, [tens, ones]);
            let digits = tens.is_ascii_digit() && ones.is_ascii_digit();
            if !digits || [tens, ones] == *b"00" {
                assert_refused(&file, 1, 6, 0);
                continue;
            }
            let rows = 10 * usize::from(tens - b'0') + usize::from(ones - b'0');
            assert_eq!(inside(&file, 1), span(7, "A") + &BREAK.repeat(rows - 1));
        }
    }
}

/// MNR "is read with DSC "0" only".
#[test]
fn teletext_reads_no_rows() {
    for standard in *b"12" {
        let teletext = with_bytes(&file(25, &[tti(b"A")]), 11, &[standard]);
        let document = run(&teletext, 1, ROOM);
        assert_eq!(document.0.number, 0);
        for rows in [*b"00", *b"1 ", *b" 1", *b"01", *b"99", *b"xy", [0, 0], [255, 255]] {
            assert_eq!(run(&with_rows(&teletext, rows), 1, ROOM), document);
        }
    }
}

/// "VP is 0 up to MNR less 1, first row VP, so fillers are MNR less VP less
/// rows"; "VP outside is 12; rows past MNR are 15".
#[test]
fn vertical_position() {
    for rows in 1..=99 {
        for vp in 0..=255 {
            let file = one(rows, vp, b"A");
            if vp < rows {
                let fillers = usize::from(rows - vp) - 1;
                assert_eq!(inside(&file, 1), span(7, "A") + &BREAK.repeat(fillers));
            } else {
                assert_refused(&file, 1, 12, 0);
            }
        }
        for vp in [0, rows / 2, rows - 1] {
            let fits = usize::from(rows - vp);
            assert_eq!(inside(&one(rows, vp, &vec![0x8A; fits - 1]), 2), BREAK.repeat(fits - 1));
            assert_refused(&one(rows, vp, &vec![0x8A; fits]), 2, 15, 0);
        }
    }
    // JC is tested with VP, as before.
    assert_refused(&open_file(25, 1, &[Tti { vp: 0, jc: 4, ..tti(b"A") }]), 1, 12, 0);
    // In teletext VP 0 stays outside, and line 24 too.
    assert_refused(&file(25, &[Tti { vp: 0, ..tti(b"A") }]), 1, 12, 0);
    assert_refused(&file(25, &[Tti { vp: 24, ..tti(b"A") }]), 1, 12, 0);
}

/// "00h to 1Fh and 84h to 85h are not allowed there"
#[test]
fn codes() {
    for code in (0x00..=0x1F).chain([0x7F]).chain(0x84..=0x89).chain(0x8B..=0x8E).chain(0x90..=0x9F) {
        assert_refused(&one(1, 0, &[b'A', code]), 1, 13, 0);
    }
    for code in (0x80..=0x85).chain([0x0D]) {
        assert_refused(&one(1, 0, &[0xC2, code, b'e']), 1, 13, 0);
    }
    for code in 0x80..=0x85 {
        assert_refused(&file(25, &[tti(&[code, b'A'])]), 1, 13, 0);
    }
}

/// "they take no cell and hold across rows until switched or the subtitle
/// ends"
#[test]
fn switches() {
    assert_eq!(row(b"\x80A\x81B"), span(263, "A") + &span(7, "B"));
    assert_eq!(row(b"\x82A\x83B"), span(135, "A") + &span(7, "B"));
    assert_eq!(row(b"\x80\x82\x81A\x83B\x80\x80C"), span(135, "A") + &span(7, "B") + &span(263, "C"));
    let blocks = [
        Tti { vp: 0, ..tti(b"A\x80\x8AB\x82\x8A\x8AC") },
        Tti { sn: 2, vp: 3, ..tti(b"D\x80") },
        Tti { sn: 3, vp: 3, ..tti(b"E") },
    ];
    let (answer, document) = run(&open_file(25, 4, &blocks), 1, ROOM);
    assert_eq!((answer.number, answer.subtitles, answer.spans), (0, 3, 5));
    let shown = paragraphs(&document);
    let rows = [span(7, "A"), span(263, "B"), String::new(), span(391, "C")].join(BREAK);
    assert!(shown[0].ends_with(&format!(">{rows}</tt:p>")));
    assert!(shown[1].ends_with(&format!(">{}</tt:p>", span(7, "D"))));
    assert!(shown[2].ends_with(&format!(">{}</tt:p>", span(7, "E"))));
}

/// Switches at the end of a block, in a block of their own, and around a user
/// block.
#[test]
fn switches_over_block_ends() {
    let block = |ebn, text: &[u8]| Tti { ebn, vp: 0, ..tti(text) };
    let user = Tti { text: b"\x81\x83".to_vec(), ..block(0xFE, b"") };
    let blocks =
        [block(0, b"A\x80"), user, block(1, b""), block(2, &[0x82; 112]), block(0xFF, b"B\x81\x83C")];
    assert_eq!(inside(&open_file(25, 1, &blocks), 1), span(7, "A") + &span(391, "B") + &span(7, "C"));
}

/// 64 cells, switches not counted.
#[test]
fn cells_in_a_row() {
    let with = |cells: usize| {
        let mut text = b"\x80\x82".repeat(10);
        text.resize(20 + cells, b'A');
        text.push(0x81);
        text
    };
    assert_eq!(row(&with(64)), span(391, &"A".repeat(64)));
    assert_refused(&one(1, 0, &with(65)), 1, 15, 0);
}

/// "An underlined space is no blank. A span has one underline throughout; a
/// blank leaves italics and colour free, and a span of blanks only is white and
/// upright."
#[test]
fn blanks() {
    assert_eq!(row(b"  A "), span(7, "A"));
    assert_eq!(row(b" \x82  A \x83 "), span(135, "  A "));
    assert_eq!(row(b"\x80  \x81"), "");
    assert_eq!(row(b"\x82\x80  "), span(391, "  "));
    assert_eq!(row(b"A\x80 \x81 B"), span(7, "A  B"));
    assert_eq!(row(b"A\x82 \x83B"), span(7, "A") + &span(135, " ") + &span(7, "B"));
    assert_eq!(row(b"\x82A\x80 \x81B"), span(135, "A") + &span(391, " ") + &span(135, "B"));
    assert_eq!(row(b"\x80\x82A\x83 \x82B"), span(391, "A") + &span(7, " ") + &span(391, "B"));
    assert_eq!(row(b"\x82A\x83 \x80B"), span(135, "A") + &span(263, " B"));
    // U+00A0 is no blank, underlined or not.
    assert_eq!(row(b"A\x80\xA0\x81B"), span(7, "A") + &span(263, "\u{A0}") + &span(7, "B"));
}

/// "either break mode reads as 1"
#[test]
fn break_modes() {
    for text in [&b"A\x8AB"[..], b"A\x8A\x8AB", b"\x8A", b"\x80A\x8A\x8A\x8AB\x8A"] {
        let file = one(99, 0, text);
        assert_eq!(run(&file, 1, ROOM), run(&file, 2, ROOM));
    }
    for mode in [0, 3, 48, u64::MAX] {
        assert_refused(&one(1, 0, b"A"), mode, 1, 0);
    }
}

/// "4 for other DSC; with DSC "0" a bad MNR is 6, tested after TNB": each fault
/// hides those after it.
#[test]
fn order() {
    let mut file = one(11, 11, b"A\x01");
    file[3] = b'x';
    file[11] = b'3';
    file[12] = b'x';
    file[238] = b'x';
    file[253] = b'x';
    assert_refused(&file, 3, 1, 0);
    assert_refused(&file[..1151], 1, 2, 0);
    assert_refused(&file, 1, 3, 0);
    file[3] = b'S';
    assert_refused(&file, 1, 4, 0);
    file[11] = b'0';
    assert_refused(&file, 1, 5, 0);
    file[12] = b'0';
    assert_refused(&file, 1, 6, 0);
    file[238] = b'0';
    assert_refused(&file, 1, 6, 0);
    file[253] = b'1';
    let block = 1024;
    assert_refused(&file, 1, 12, 0);
    file[block + 13] = 10;
    assert_refused(&file, 1, 13, 0);
    file[block + 17] = 0x8A;
    assert_refused(&file, 1, 15, 0);
    file[block + 13] = 9;
    assert_eq!(run(&file, 1, 10).0.number, 16);
    assert_eq!(run(&file, 1, ROOM).0.number, 0);
    // A good MNR does not help against a bad TNB.
    file[242] = b'2';
    assert_refused(&file, 1, 6, 0);
}
