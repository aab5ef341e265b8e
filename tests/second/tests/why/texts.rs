//! Request 3, "Tell me why", worked out by hand: the numbers 13 to 15. The text
//! of block k begins at 1,024 + 128 k + 16: 1,040, 1,168, 1,296, 1,424.

use second::assemble::{file, open_file, tti, Tti};
use second::{explain, Explanation};

/// The named byte: its offset, and itself.
type Named = (u64, u8);

fn assert_named(file: &[u8], mode: u64, number: u64, block: u64, (offset, byte): Named) {
    let expected = Explanation { number, block, offset, byte: Some(byte) };
    assert_eq!(explain(file, mode, u64::MAX), expected);
}

fn assert_accepted(file: &[u8], mode: u64) {
    assert_eq!(explain(file, mode, u64::MAX).numbers(), [0, 0, file.len() as u64, 0, 0]);
}

/// Blocks 00h, 01h and so on with these texts, the last one FFh.
fn set(vp: u8, texts: &[&[u8]]) -> Vec<Tti> {
    let last = texts.len() - 1;
    let ebn = |number| if number == last { 0xFF } else { number as u8 };
    texts.iter().enumerate().map(|(number, text)| Tti { ebn: ebn(number), vp, ..tti(text) }).collect()
}

/// A user block full of what would be refused.
fn user() -> Tti {
    Tti { ebn: 0xFE, ..tti(&[0x7F; 112]) }
}

/// One block at VP 1, which has room for 23 lines.
fn one(text: &[u8]) -> Vec<u8> {
    file(25, &set(1, &[text]))
}

fn joined(parts: &[&[u8]]) -> Vec<u8> {
    parts.concat()
}

fn one_open(text: &[u8]) -> Vec<u8> {
    open_file(25, 99, &set(0, &[text]))
}

/// 13 in a single block, at this place of the text.
#[test]
fn codes() {
    let at = |text: &[u8], place: usize| {
        assert_named(&one(text), 1, 13, 0, (1040 + place as u64, text[place]));
        assert_named(&one(text), 2, 13, 0, (1040 + place as u64, text[place]));
    };
    for code in [0x08, 0x09, 0x0C, 0x0E, 0x1B, 0x1E, 0x1F, 0x7F, 0x80, 0x85, 0x8B, 0x9F, 0xA6, 0xC0, 0xE5] {
        at(&[code], 0);
        at(&[b'A', 0x8A, code, 0x7F], 2);
    }
    // 13 comes before 14 and 15, wherever these stand.
    at(b"A\x0D\x8A\x7F", 3);
    at(&joined(&[&[b'A'; 65][..], b"\x7F"]), 65);
}

/// "accent pair": named by its accent.
#[test]
fn pairs() {
    let at = |text: &[u8], place: usize| {
        assert_named(&one(text), 1, 13, 0, (1040 + place as u64, text[place]));
    };
    at(b"A\xC21", 1);
    at(b"A\xC2\xA0", 1);
    at(b"A\xC2\x8A", 1);
    at(b"A\xC2\x01e", 1);
    at(b"A\xC2\x80e", 1);
    for accent in [0xC0, 0xC9, 0xCC] {
        for next in *b"eq 1\xC2\x8A" {
            at(&[b'A', accent, next], 1);
        }
    }
    // An accent takes the code after it, whatever that is: a code not listed,
    // and an accent, which would have a letter.
    at(b"A\xC2\x7F", 1);
    at(b"A\xC2\xC2e", 1);
    // After pairs that are listed, of every kind.
    at(b"\xC2e\xC2x\xC2 \xC2!", 6);
    at(b"\xC2 \xC2\xC2 ", 2);
    assert_accepted(&one(b"\xC2e\xC2x\xC2 "), 1);
    // A lone accent at the end.
    at(b"A\xC2", 1);
    at(b"\xC2e\xC2", 2);
    at(b"\xC2", 0);
}

#[test]
fn codes_of_open_subtitles() {
    let at = |text: &[u8], place: usize| {
        assert_named(&one_open(text), 2, 13, 0, (1040 + place as u64, text[place]));
    };
    for code in (0x00..=0x1F).chain([0x7F, 0x84, 0x85, 0x9F, 0xA6]) {
        at(&[0x80, b'A', code], 2);
    }
    at(b"\x80A\x82\xC2\x81e", 3);
    at(b"\x80A\x82\xC2", 3);
    at(b"\x80A\x82\xC2 \xC2\x83 ", 5);
    assert_accepted(&one_open(b"\x80A\x8A\x82\xC2e\x83\xC2q\xC2 \x81"), 1);
}

/// The byte's own place in the file: blocks, user blocks between them and text
/// cut at 8Fh. The block is the set's first.
#[test]
fn codes_in_later_blocks() {
    // First, middle and last of three blocks.
    assert_named(&file(25, &set(1, &[b"A\x7F", b"B", b"C"])), 1, 13, 0, (1041, 0x7F));
    assert_named(&file(25, &set(1, &[b"A", b"B\x7F", b"C"])), 1, 13, 0, (1169, 0x7F));
    assert_named(&file(25, &set(1, &[b"A", b"B", b"CC\x7F"])), 1, 13, 0, (1298, 0x7F));
    // What stands behind an 8Fh does not count.
    assert_named(&file(25, &set(1, &[b"A\x8F\x7F\x7F", b"\x8F\x7F", b"B\x7F"])), 1, 13, 0, (1297, 0x7F));
    assert_accepted(&file(25, &set(1, &[b"A\x8F\x7F\x7F", b"\x8F\x7F", b"B"])), 1);
    // A user block between them, and one before.
    let mut blocks = set(1, &[b"A", b"\x7F"]);
    blocks.insert(1, user());
    assert_named(&file(25, &blocks), 1, 13, 0, (1296, 0x7F));
    blocks.insert(0, user());
    assert_named(&file(25, &blocks), 1, 13, 1, (1424, 0x7F));
    // The last byte of a block, and the first of the next.
    let mut full = [b'A'; 112];
    full[50] = 0x8A;
    assert_named(&file(25, &set(1, &[&full, b"\x7F"])), 1, 13, 0, (1168, 0x7F));
    full[111] = 0x7F;
    assert_named(&file(25, &set(1, &[&full, b"\x7F"])), 1, 13, 0, (1151, 0x7F));
    // Another set before, whose text is good, and one behind, whose text is not.
    let blocks = [tti(b"A"), Tti { sn: 2, ..tti(b"BC\x7F") }, Tti { sn: 3, ..tti(b"\x7F") }];
    assert_named(&file(25, &blocks), 1, 13, 1, (1170, 0x7F));
}

#[test]
fn pairs_over_block_ends() {
    // The accent is the last byte of its block.
    let mut full = [b'A'; 112];
    full[50] = 0x8A;
    full[111] = 0xC2;
    for next in [b"e", b"q", b" "] {
        assert_accepted(&file(25, &set(1, &[&full, next])), 1);
    }
    assert_named(&file(25, &set(1, &[&full, b"1"])), 1, 13, 0, (1151, 0xC2));
    assert_named(&file(25, &set(1, &[&full, b""])), 1, 13, 0, (1151, 0xC2));
    // It is the last before 8Fh; then a block without text and user blocks.
    let mut blocks = set(1, &[b"AB\xC8", b"", b"\xA0"]);
    assert_named(&file(25, &blocks), 1, 13, 0, (1042, 0xC8));
    blocks.insert(1, user());
    blocks.insert(3, user());
    assert_named(&file(25, &blocks), 1, 13, 0, (1042, 0xC8));
    // A pair that is listed hides no fault behind it.
    assert_named(&file(25, &set(1, &[b"A\xC2", b"e\x7F"])), 1, 13, 0, (1169, 0x7F));
    assert_named(&file(25, &set(1, &[b"A\xC2", b"e\xC2"])), 1, 13, 0, (1169, 0xC2));
    assert_named(&file(25, &set(1, &[b"A\xC2", b" \xC2", b"\x8A"])), 1, 13, 0, (1169, 0xC2));
}

/// 14: "0Dh after a code of 20h or above in its row".
#[test]
fn height_after_a_character() {
    for mode in [1, 2] {
        for text in [b"AB\x0D", b"A \x0D", b" \x01\x0D", b"A\xA0\x0D", b"\xC2e\x0D"] {
            assert_named(&one(text), mode, 14, 0, (1042, 0x0D));
        }
        // The first 0Dh is good, the third stands behind a fault.
        assert_named(&one(b"\x0DA\x0D\x0D"), mode, 14, 0, (1042, 0x0D));
        // In a later row of a double subtitle, where a 0Dh in front is good.
        assert_named(&one(b"\x0DA\x8A\x8A\x01\x0DB\x0D"), mode, 14, 0, (1047, 0x0D));
        // 14 comes before 15.
        assert_named(&one(&joined(&[&[b'A'; 70][..], b"\x0D"])), mode, 14, 0, (1110, 0x0D));
    }
}

/// 14: "0Dh in a later row of a single-height subtitle".
#[test]
fn height_in_a_later_row() {
    for mode in [1, 2] {
        assert_named(&one(b"A\x8A\x0DB"), mode, 14, 0, (1042, 0x0D));
        assert_named(&one(b"\x8A\x0D"), mode, 14, 0, (1041, 0x0D));
        assert_named(&one(b"A\x8A\x8A\x8AB\x8A\x01\x0DC\x0D"), mode, 14, 0, (1047, 0x0D));
        // Both at once.
        assert_named(&one(b"A\x8AB\x0D"), mode, 14, 0, (1043, 0x0D));
    }
    assert_named(&file(25, &set(1, &[b"A", b"\x8A", b"\x01", b"\x0D"])), 1, 14, 0, (1424, 0x0D));
}

/// 14: "in break mode 2 and double height, any maximal run of 8Ah of odd length".
#[test]
fn odd_runs() {
    for run in [1, 3, 5, 7] {
        let run = [0x8A; 7][..run].to_vec();
        // Right behind the 0Dh, in the middle, and at the end.
        let start = joined(&[b"\x0D", &run[..], b"A"]);
        let middle = joined(&[b"\x0DA", &run[..], b"B"]);
        let end = joined(&[b"\x0DAB", &run[..]]);
        for (text, place) in [(start, 1), (middle, 2), (end, 3)] {
            assert_named(&one(&text), 2, 14, 0, (1040 + place, 0x8A));
            assert_accepted(&one(&text), 1);
        }
        // A text that starts with a run is single, where runs may be odd.
        assert_accepted(&one(&joined(&[&run[..], b"A"])), 2);
    }
    // Even ones before it, and odd ones behind.
    assert_named(&one(b"\x0DA\x8A\x8AB\x8A\x8A\x8A\x8AC\x8A\x8A\x8AD\x8A"), 2, 14, 0, (1050, 0x8A));
    for even in [&b"\x0DA\x8A\x8AB"[..], b"\x0D\x8A\x8A\x8A\x8A", b"\x0DA"] {
        assert_accepted(&one(even), 2);
    }
    // Open subtitles: "either break mode reads as 1".
    assert_accepted(&one_open(b"A\x8AB\x8A\x8A\x8A"), 2);
}

#[test]
fn runs_over_block_ends() {
    // 8Ah, 8Ah 8Ah: the run of three begins in the first block.
    assert_named(&file(25, &set(1, &[b"\x0DA\x8A", b"\x8A\x8AB"])), 2, 14, 0, (1042, 0x8A));
    // Two, in two blocks: even.
    assert_accepted(&file(25, &set(1, &[b"\x0DA\x8A", b"\x8AB"])), 2);
    // The last byte of a block, then a user block and a block without text.
    let mut full = [0x01; 112];
    full[0] = 0x0D;
    full[111] = 0x8A;
    let mut blocks = set(1, &[&full, b"", b"\x8A\x8AB"]);
    blocks.insert(1, user());
    assert_named(&file(25, &blocks), 2, 14, 0, (1151, 0x8A));
    // It begins in the second block.
    assert_named(&file(25, &set(1, &[b"\x0DA", b"\x8A", b"\x8A", b"\x8A"])), 2, 14, 0, (1168, 0x8A));
}

/// "Within a rule the lowest offset counts".
#[test]
fn several_of_14() {
    // An odd run, then a 0Dh after a character.
    let text = b"\x0DA\x8AB\x0D";
    assert_named(&one(text), 2, 14, 0, (1042, 0x8A));
    assert_named(&one(text), 1, 14, 0, (1044, 0x0D));
    // The other way round.
    assert_named(&one(b"\x0DA\x0D\x8AB"), 2, 14, 0, (1042, 0x0D));
    // The 0Dh that makes the text double is a fault itself.
    assert_named(&one(b"A\x0D\x8AB"), 2, 14, 0, (1041, 0x0D));
    // Behind an odd run a 0Dh would be in the row of A if rows ended at pairs
    // only; the run is lower.
    assert_named(&one(b"\x0DA\x8A\x0DB"), 2, 14, 0, (1042, 0x8A));
    assert_accepted(&one(b"\x0DA\x8A\x0DB"), 1);
}

/// 15: "row too long", named by its first byte.
#[test]
fn rows_too_long() {
    let long = [b'A'; 65];
    for mode in [1, 2] {
        assert_named(&one(&long), mode, 15, 0, (1040, b'A'));
        assert_accepted(&one(&long[1..]), mode);
        assert_named(&one(&joined(&[b"B\x8A", &long[..]])), mode, 15, 0, (1042, b'A'));
        assert_named(&one(&joined(&[b"\x8A\x8A\x8A", &long[..], b"\x8AB"])), mode, 15, 0, (1043, b'A'));
        // In double height: its first byte is a control.
        assert_named(&one(&joined(&[b"\x01\x0D", &long[2..]])), mode, 15, 0, (1040, 0x01));
        let later = joined(&[b"\x0D\x8A\x8A\x0D", &long[1..]]);
        assert_named(&one(&later), mode, 15, 0, (1043, 0x0D));
    }
    // Pairs are one cell, and an accent can be the first byte.
    let pairs = b"\xC2e".repeat(65);
    let blocks = set(1, &[&pairs[..112], &pairs[112..]]);
    assert_named(&file(25, &blocks), 1, 15, 0, (1040, 0xC2));
    let blocks = set(1, &[&pairs[..112], &pairs[112..128]]);
    assert_accepted(&file(25, &blocks), 1);
    let pairs = b"\xCE ".repeat(65);
    assert_named(&file(25, &set(1, &[&pairs[..111], &pairs[111..]])), 1, 15, 0, (1040, 0xCE));
    assert_accepted(&file(25, &set(1, &[&pairs[..111], &pairs[111..128]])), 1);
    // Switches take no cell, but the first of them is the row's first byte.
    let row = joined(&[b"B\x8A\x80\x82", &long[..]]);
    assert_named(&one_open(&row), 1, 15, 0, (1042, 0x80));
    assert_accepted(&one_open(&row[..row.len() - 1]), 1);
}

/// The row begins in one block and is too long in a later one, or begins with
/// the first byte of a block.
#[test]
fn rows_too_long_over_block_ends() {
    let (half, rest) = ([b'A'; 30], [b'B'; 35]);
    let mut blocks = set(1, &[&joined(&[b"x\x8A", &half[..]]), &rest]);
    assert_named(&file(25, &blocks), 1, 15, 0, (1042, b'A'));
    blocks.insert(1, user());
    assert_named(&file(25, &blocks), 1, 15, 0, (1042, b'A'));
    let mut blocks = set(1, &[b"x\x8A", &[], &half, &rest]);
    assert_named(&file(25, &blocks), 1, 15, 0, (1296, b'A'));
    blocks.insert(1, user());
    assert_named(&file(25, &blocks), 1, 15, 0, (1424, b'A'));
}

/// 15: "rows that don't fit by the first with a line past the last".
#[test]
fn rows_past_the_last_line() {
    let at = |vp, text: &[u8], mode, place: usize| {
        assert_named(&file(25, &set(vp, &[text])), mode, 15, 0, (1040 + place as u64, text[place]));
    };
    for mode in [1, 2] {
        // Lines 22 and 23; the third row is past, the fourth, too.
        at(22, b"A\x8AB\x8ACC\x8ADD", mode, 4);
        at(23, b"A\x8AB", mode, 2);
        at(23, b"A\x8A\x01\x0BB", mode, 2);
        // A double row of two lines, of which the second is past.
        at(23, b"\x0DA", mode, 0);
        at(23, b"\x01\x02\x0DA", mode, 0);
        // Lines 20 to 23, then 24.
        at(20, b"\x0DA\x8A\x8AB\x8A\x8AC", mode, if mode == 1 { 4 } else { 7 });
    }
    // In mode 1 the second row is empty there; two rows fit.
    assert_accepted(&file(25, &set(20, &[b"\x0DA\x8AB"])), 1);
    at(21, b"\x0DA\x8ABB", 1, 3);
    at(21, b"\x0DA\x8A\x8ABB", 2, 4);
    // "rows past MNR are 15": rows 9 and 10 of 11.
    let open = |text: &[u8]| open_file(25, 11, &set(9, &[text]));
    assert_accepted(&open(b"A\x8AB"), 1);
    assert_named(&open(b"A\x8AB\x8A\x80C"), 2, 15, 0, (1044, 0x80));
    // A row of switches only has bytes.
    assert_named(&open(b"A\x8AB\x8A\x83\x8A"), 2, 15, 0, (1044, 0x83));
}

/// "a row without bytes by the start of the break before it"
#[test]
fn rows_without_bytes() {
    let at = |vp, text: &[u8], mode, place: usize| {
        assert_eq!(text[place], 0x8A);
        assert_named(&file(25, &set(vp, &[text])), mode, 15, 0, (1040 + place as u64, 0x8A));
    };
    for mode in [1, 2] {
        // At the end, one and several.
        at(23, b"A\x8A", mode, 1);
        at(23, b"A\x8A\x8A\x8A", mode, 1);
        at(22, b"A\x8A\x8A\x8A", mode, 2);
        at(21, b"A\x8A\x8A\x8A", mode, 3);
        // In the middle, with rows behind.
        at(23, b"A\x8A\x8AB", mode, 1);
        at(22, b"AA\x8A\x8A\x8AB", mode, 3);
        // At the start, where the first row fits always.
        at(23, b"\x8A", mode, 0);
        at(23, b"\x8A\x8AB", mode, 0);
        at(22, b"\x8A\x8A\x8AB", mode, 1);
        at(1, &[0x8A; 30], mode, 22);
    }
    // Behind empty rows one with bytes.
    assert_named(&file(25, &set(22, &[b"\x8A\x8AB"])), 1, 15, 0, (1042, b'B'));
    // Double height, mode 1: each 8Ah is a break. Lines 20 to 23.
    at(20, b"\x0DA\x8A\x8A", 1, 3);
    at(22, b"\x0DA\x8A\x8A", 1, 2);
    // Mode 2: the first of the pair.
    at(22, b"\x0DA\x8A\x8A", 2, 2);
    at(22, b"\x0DA\x8A\x8A\x8A\x8AB", 2, 2);
    at(20, b"\x0DA\x8A\x8A\x8A\x8A", 2, 4);
    at(20, b"\x0D\x8A\x8AB\x8A\x8A\x8A\x8A\x8A\x8A", 2, 4);
    // A row with bytes behind the first pair of a run.
    assert_named(&file(25, &set(20, &[b"\x0D\x8A\x8A\x8A\x8AB"])), 2, 15, 0, (1045, b'B'));
    // Open subtitles, rows 9 and 10 of 11.
    let open = open_file(25, 11, &set(9, &[b"A\x8AB\x8A\x8A"]));
    assert_named(&open, 1, 15, 0, (1043, 0x8A));
    assert_named(&open, 2, 15, 0, (1043, 0x8A));
}

/// A break over a block's end: in break mode 2 and double height it can start in
/// the block before.
#[test]
fn breaks_over_block_ends() {
    let mut blocks = set(22, &[b"\x0DA\x8A", b"\x8A"]);
    assert_named(&file(25, &blocks), 2, 15, 0, (1042, 0x8A));
    blocks.insert(1, user());
    assert_named(&file(25, &blocks), 2, 15, 0, (1042, 0x8A));
    // The row has a byte, in the last block.
    let mut blocks = set(22, &[b"\x0DA\x8A", b"\x8A", b"B"]);
    assert_named(&file(25, &blocks), 2, 15, 0, (1296, b'B'));
    blocks.insert(2, user());
    assert_named(&file(25, &blocks), 2, 15, 0, (1424, b'B'));
    // Mode 1: the break before the third row, lines 20 to 23 being full.
    assert_named(&file(25, &set(20, &[b"\x0DA\x8A", b"\x8A"])), 1, 15, 0, (1168, 0x8A));
    assert_named(&file(25, &set(23, &[b"A", b"\x8A", b""])), 1, 15, 0, (1168, 0x8A));
}

/// "Within a rule the lowest offset counts".
#[test]
fn several_of_15() {
    let long = [b'B'; 65];
    // Past the last line, then too long; too long, then past; both in one row.
    let row = joined(&[b"A\x8Ax\x8A", &long[..]]);
    assert_named(&file(25, &set(23, &[&row])), 1, 15, 0, (1042, b'x'));
    assert_named(&file(25, &set(22, &[&row])), 1, 15, 0, (1044, b'B'));
    assert_named(&file(25, &set(21, &[&row])), 1, 15, 0, (1044, b'B'));
    let row = joined(&[&long[..], b"\x8A\x8A"]);
    assert_named(&file(25, &set(23, &[&row])), 1, 15, 0, (1040, b'B'));
    // An empty row past the last line right before the long one.
    let row = joined(&[b"A\x8A\x8A", &long[..]]);
    assert_named(&file(25, &set(23, &[&row])), 1, 15, 0, (1041, 0x8A));
    assert_named(&file(25, &set(22, &[&row])), 1, 15, 0, (1043, b'B'));
}
