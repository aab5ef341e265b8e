//! The printed example of document 01, every case of "Both sides of each
//! line", and the places and counts of "What comes back".

mod common;

use common::{assert_refused, inside, paragraphs, run, ROOM};
use second::assemble::{self, tti, Tti};
use second::Answer;

const EXAMPLE: &str = include_str!("example.ttml");

fn file(blocks: &[Tti]) -> Vec<u8> {
    assemble::file(25, blocks)
}

fn example_file() -> Vec<u8> {
    file(&[tti(&[0x0D, 0x0B, 0x0B, 0x48, 0x69, 0x03, 0x79, 0x6F, 0x75, 0x8F])])
}

#[test]
fn printed_example() {
    let file = example_file();
    assert_eq!(file.len(), 1152);
    let (answer, document) = run(&file, 1, ROOM);
    assert_eq!(document, EXAMPLE);
    let expected = Answer { length: EXAMPLE.len() as u64, subtitles: 1, spans: 2, ..Answer::default() };
    assert_eq!(answer, expected);
}

#[test]
fn sizes() {
    let empty = file(&[]);
    assert_refused(&empty[..1023], 1, 2, 0);
    let (answer, document) = run(&empty, 1, ROOM);
    assert_eq!(answer, Answer { length: document.len() as u64, ..Answer::default() });
    assert!(paragraphs(&document).is_empty());
    let mut longer = empty.clone();
    longer.push(0);
    assert_refused(&longer, 1, 2, 0);
    assert_refused(&[], 1, 2, 0);
}

#[test]
fn count_of_blocks() {
    let mut one = example_file();
    one[242] = b'2';
    assert_refused(&one, 1, 6, 0);
    one[242] = b' ';
    assert_refused(&one, 1, 6, 0);
}

#[test]
fn frames() {
    let with = |rate, frame| {
        let mut block = tti(b"A");
        block.tci[3] = frame;
        assemble::file(rate, &[block])
    };
    assert_eq!(run(&with(25, 24), 1, ROOM).0.number, 0);
    assert_refused(&with(25, 25), 1, 11, 0);
    let (answer, document) = run(&with(30, 29), 1, ROOM);
    assert_eq!(answer.number, 0);
    assert!(document.contains(r#"ttp:frameRate="30" ttp:frameRateMultiplier="1 1""#));
    assert!(document.contains(r#"begin="10:00:01:29""#));
    assert_refused(&with(30, 30), 1, 11, 0);
}

#[test]
fn times() {
    let with = |tci, tco| file(&[Tti { tci, tco, ..tti(b"A") }]);
    assert_refused(&with([10, 0, 1, 2], [10, 0, 1, 2]), 1, 11, 0);
    assert_refused(&with([10, 0, 1, 2], [10, 0, 1, 1]), 1, 11, 0);
    assert_refused(&with([10, 0, 1, 2], [9, 59, 59, 24]), 1, 11, 0);
    assert_eq!(run(&with([9, 59, 59, 24], [10, 0, 0, 0]), 1, ROOM).0.number, 0);
    assert_eq!(run(&with([0, 0, 0, 0], [23, 59, 59, 24]), 1, ROOM).0.number, 0);
    for at in 0..4 {
        let mut tco = [23, 59, 59, 24];
        tco[at] += 1;
        assert_refused(&with([0, 0, 0, 0], tco), 1, 11, 0);
    }
}

#[test]
fn subtitle_numbers() {
    let with = |first, second| file(&[Tti { sn: first, ..tti(b"A") }, Tti { sn: second, ..tti(b"B") }]);
    assert_refused(&with(1, 1), 1, 9, 1);
    assert_refused(&with(256, 255), 1, 9, 1);
    let (answer, document) = run(&with(255, 256), 1, ROOM);
    assert_eq!((answer.number, answer.subtitles), (0, 2));
    assert!(document.contains(r#"xml:id="sub255""#) && document.contains(r#"xml:id="sub256""#));
    assert_eq!(run(&with(0, 65535), 1, ROOM).0.number, 0);
}

#[test]
fn vertical_position() {
    let with = |vp, text: &[u8]| file(&[Tti { vp, ..tti(text) }]);
    assert_eq!(inside(&with(23, b"A"), 1), r#"<tt:span style="s007">A</tt:span>"#);
    assert_eq!(inside(&with(22, b"A"), 1), r#"<tt:span style="s007">A</tt:span><tt:br/>"#);
    assert_eq!(inside(&with(22, b"\x0DA"), 1), r#"<tt:span style="s071">A</tt:span>"#);
    assert_refused(&with(23, b"\x0DA"), 1, 15, 0);
    assert_refused(&with(23, b"A\x8AB"), 1, 15, 0);
    assert_eq!(inside(&with(1, &[0x8A; 22]), 1), "<tt:br/>".repeat(22));
    assert_refused(&with(1, &[0x8A; 23]), 1, 15, 0);
    assert_eq!(inside(&with(23, b""), 1), "");
    assert_refused(&with(0, b"A"), 1, 12, 0);
    assert_refused(&with(24, b"A"), 1, 12, 0);
}

#[test]
fn justification() {
    for (jc, style) in [(0, "alignLeft"), (1, "alignLeft"), (2, "alignCentre"), (3, "alignRight")] {
        let (_, document) = run(&file(&[Tti { jc, ..tti(b"A") }]), 1, ROOM);
        assert!(paragraphs(&document)[0].contains(&format!("style=\"{style}\" begin=")));
    }
    assert_refused(&file(&[Tti { jc: 4, ..tti(b"A") }]), 1, 12, 0);
}

#[test]
fn accent_over_a_block_end() {
    let mut text = vec![b' '; 111];
    text.push(0xC2);
    // The first 112 bytes would be a row too long, so break it.
    text[60] = 0x8A;
    let first = Tti { ebn: 0x00, ..tti(&text) };
    let both = [first, tti(b"e")];
    assert!(inside(&file(&both), 1).contains(">\u{E9}</tt:span>"));
    // The accent as last byte before 8Fh.
    let both = [Tti { ebn: 0x00, ..tti(b"\xC2") }, tti(b"e")];
    let expected = "<tt:span style=\"s007\">\u{E9}</tt:span>".to_string() + &"<tt:br/>".repeat(3);
    assert_eq!(inside(&file(&both), 1), expected);
    assert_refused(
        &file(&both[..1].iter().map(|b| Tti { ebn: 0xFF, ..b.clone() }).collect::<Vec<_>>()),
        1,
        13,
        0,
    );
}

/// "the P case C2h, 20h turns from 13 to one cell"
#[test]
fn accent_without_letter() {
    let expected = "<tt:span style=\"s007\">\u{A0}\u{301}</tt:span>".to_string() + &"<tt:br/>".repeat(3);
    assert_eq!(inside(&file(&[tti(b"\xC2 ")]), 1), expected);
    assert_refused(&file(&[tti(b"\xC2\xA0")]), 1, 13, 0);
}

#[test]
fn cells_in_a_row() {
    assert_eq!(run(&file(&[tti(&[b'A'; 64])]), 1, ROOM).0.number, 0);
    assert_refused(&file(&[tti(&[b'A'; 65])]), 1, 15, 0);
    assert_eq!(run(&file(&[tti(&b"\xC2e".repeat(56))]), 1, ROOM).0.number, 0);
    // Controls and trimmed blanks count.
    assert_refused(&file(&[tti(&[0x0B; 65])]), 1, 15, 0);
}

#[test]
fn lone_break_in_double_height() {
    let block = [Tti { vp: 18, ..tti(b"\x0DA\x8AB") }];
    let row = |text| format!("<tt:span style=\"s071\">{text}</tt:span>");
    let expected = format!("{}<tt:br/>{}<tt:br/><tt:br/>", row("A"), row("B"));
    assert_eq!(inside(&file(&block), 1), expected);
    assert_refused(&file(&block), 2, 14, 0);
    let block = [Tti { vp: 18, ..tti(b"\x0DA\x8A\x8AB") }];
    assert_eq!(inside(&file(&block), 2), expected);
}

#[test]
fn spans() {
    let with = |text: &[u8]| inside(&file(&[Tti { vp: 23, ..tti(text) }]), 1);
    assert_eq!(
        with(&[0x01, 0x41, 0x02, 0x03, 0x42]),
        r#"<tt:span style="s001">A  </tt:span><tt:span style="s003">B</tt:span>"#
    );
    assert_eq!(with(&[0x01, 0x41, 0x07, 0x20, 0x01, 0x42]), r#"<tt:span style="s001">A   B</tt:span>"#);
    assert_eq!(with(&[0x01, 0x1D, 0x07, 0x41]), r#"<tt:span style="s015">  A</tt:span>"#);
    assert_eq!(with(b"<&>\""), r#"<tt:span style="s007">&lt;&amp;&gt;"</tt:span>"#);
}

#[test]
fn comments() {
    let mut comment = Tti { cf: 1, cs: 9, vp: 0, jc: 9, ..tti(&[0x7F; 112]) };
    comment.tci[3] = 99;
    let (answer, document) = run(&file(&[comment.clone()]), 1, ROOM);
    let expected = Answer { length: document.len() as u64, comments: 1, ..Answer::default() };
    assert_eq!(answer, expected);
    assert!(paragraphs(&document).is_empty());
    // The SN of a comment set counts for the next set.
    assert_refused(&file(&[comment.clone(), tti(b"A")]), 1, 9, 1);
    comment.cf = 2;
    assert_refused(&file(&[comment]), 1, 8, 0);
}

#[test]
fn buffers() {
    let file = example_file();
    let needed = EXAMPLE.len();
    let (answer, document) = run(&file, 1, needed);
    assert_eq!((answer.number, document.as_str()), (0, EXAMPLE));
    let (answer, _) = run(&file, 1, needed - 1);
    assert_eq!(answer, Answer { number: 16, length: needed as u64, ..Answer::default() });
    let (answer, _) = run(&file, 1, 0);
    assert_eq!(answer, Answer { number: 16, length: needed as u64, ..Answer::default() });
}

#[test]
fn modes_and_gsi_fields() {
    let good = example_file();
    for mode in [0, 3, 257, u64::MAX, (1 << 32) + 1] {
        assert_refused(&good, mode, 1, 0);
        assert_refused(&[], mode, 1, 0);
    }
    assert_eq!(run(&good, 2, ROOM).0.number, 0);
    let change = |at: usize, byte: u8| {
        let mut file = good.clone();
        file[at] = byte;
        file
    };
    for at in 3..=10 {
        assert_refused(&change(at, b'x'), 1, 3, 0);
    }
    assert_eq!(run(&change(11, b'2'), 1, ROOM).0.number, 0);
    for other in (0x00..=0xFF).filter(|other| !b"012".contains(other)) {
        assert_refused(&change(11, other), 1, 4, 0);
    }
    assert_refused(&change(12, b' '), 1, 5, 0);
    assert_refused(&change(13, b'1'), 1, 5, 0);
    // The other GSI fields are not read.
    for at in (0..3).chain(14..238).chain(243..1024) {
        assert_eq!(run(&change(at, 0xFF), 1, ROOM).1, EXAMPLE);
    }
}

#[test]
fn sets() {
    let block = |ebn, text: &[u8]| Tti { ebn, ..tti(text) };
    let user = || Tti { sgn: 9, sn: 7, cf: 9, cs: 9, ..block(0xFE, b"\x7F") };
    let row = |text| format!("<tt:span style=\"s007\">{text}</tt:span><tt:br/><tt:br/><tt:br/>");
    // User blocks before, inside and after a set.
    let good = [user(), block(0, b"A\x8Fx"), user(), block(1, b"\x8Fy"), block(0xFF, b"B"), user()];
    assert_eq!(inside(&file(&good), 1), row("AB"));
    let answer = run(&file(&good), 1, ROOM).0;
    assert_eq!(
        (answer.subtitles, answer.comments, answer.continuations, answer.users, answer.spans),
        (1, 0, 2, 3, 1)
    );
    // All 112 bytes count if there is no 8Fh.
    let mut long = vec![0x8A; 3];
    long.resize(62, b'a');
    long.push(0x8A);
    long.resize(112, b'b');
    let text = inside(&file(&[Tti { vp: 1, ..block(0, &long) }, tti(b"c")]), 1);
    assert!(text.contains(&format!(">{}c</tt:span>", "b".repeat(49))));
    // Open at the end: the block count.
    assert_refused(&file(&[block(0, b"A"), user()]), 1, 7, 2);
    assert_refused(&file(&[block(0, b"A"), block(1, b"A")]), 1, 7, 2);
    // Wrong EBN in all ways.
    for ebn in 0x01..=0xFD {
        assert_refused(&file(&[block(ebn, b"A"), block(0xFF, b"A")]), 1, 7, 0);
    }
    for ebn in (0x00..=0xFD).filter(|&ebn| ebn != 1) {
        assert_refused(&file(&[block(0, b"A"), block(ebn, b"A"), block(0xFF, b"A")]), 1, 7, 1);
    }
    // Disagreement.
    for bad in [
        Tti { sgn: 1, ..tti(b"A") },
        Tti { sn: 2, ..tti(b"A") },
        Tti { sn: 257, ..tti(b"A") },
        Tti { cf: 1, ..tti(b"A") },
    ] {
        assert_refused(&file(&[block(0, b"A"), user(), bad]), 1, 7, 2);
    }
    // The remaining header bytes are read in the first only.
    let wild = Tti { cs: 9, tci: [99; 4], tco: [0; 4], vp: 99, jc: 99, ..tti(b"B") };
    assert_eq!(inside(&file(&[block(0, b"A"), wild]), 1), row("AB"));
    // Text refusals stand at the set's first block, found when it closes.
    let bad = [user(), block(0, b"A"), user(), block(0xFF, b"\x7F")];
    assert_refused(&file(&bad), 1, 13, 1);
    let bad = [user(), block(0, b"\x7F"), block(2, b"")];
    assert_refused(&file(&bad), 1, 7, 2);
    // Header refusals come before those of a later block.
    let bad = [Tti { cs: 1, ..block(0, b"A") }, block(2, b"")];
    assert_refused(&file(&bad), 1, 10, 0);
}

#[test]
fn longest_set() {
    let mut blocks: Vec<Tti> = (0..=0xEF).map(|ebn| Tti { ebn, ..tti(b"") }).collect();
    assert_refused(&file(&blocks), 1, 7, 240);
    blocks.push(tti(b"A"));
    let answer = run(&file(&blocks), 1, ROOM).0;
    assert_eq!((answer.number, answer.subtitles, answer.continuations), (0, 1, 240));
    blocks.insert(240, Tti { ebn: 0xF0, ..tti(b"") });
    assert_refused(&file(&blocks), 1, 7, 240);
}

/// "Order: 1 to 6; then blocks in file order": each fault hides those after
/// it.
#[test]
fn order() {
    let bad = Tti { ebn: 0xF0, cf: 2, sn: 1, cs: 1, tci: [24; 4], vp: 0, ..tti(b"A\x0D\x7F") };
    let mut file = file(&[tti(b"A"), bad]);
    file[3] = b'x';
    file[11] = b'x';
    file[12] = b'x';
    file[238] = b'x';
    file.push(0);
    assert_refused(&file, 0, 1, 0);
    assert_refused(&file, 1, 2, 0);
    file.pop();
    assert_refused(&file, 1, 3, 0);
    file[3] = b'S';
    assert_refused(&file, 1, 4, 0);
    file[11] = b'1';
    assert_refused(&file, 1, 5, 0);
    file[12] = b'0';
    assert_refused(&file, 1, 6, 0);
    file[238] = b'0';
    let block = 1024 + 128;
    assert_refused(&file, 1, 7, 1);
    file[block + 3] = 0xFF;
    assert_refused(&file, 1, 8, 1);
    file[block + 15] = 0;
    assert_refused(&file, 1, 9, 1);
    file[block + 1] = 2;
    assert_refused(&file, 1, 10, 1);
    file[block + 4] = 0;
    assert_refused(&file, 1, 11, 1);
    file[block + 5..block + 9].copy_from_slice(&[1, 2, 3, 4]);
    assert_refused(&file, 1, 12, 1);
    file[block + 13] = 23;
    assert_refused(&file, 1, 13, 1);
    file[block + 18] = 0x8A;
    assert_refused(&file, 1, 14, 1);
    file[block + 17] = 0x0B;
    assert_refused(&file, 1, 15, 1);
    file[block + 13] = 22;
    let (answer, _) = run(&file, 1, 10);
    assert_eq!(answer.number, 16);
    assert_eq!(run(&file, 1, ROOM).0.number, 0);
}
