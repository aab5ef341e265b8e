//! Request 3, "Tell me why", worked out by hand: the numbers 0 to 12 and 16.
//! Block k begins at 1,024 + 128 k.

use second::assemble::{file, open_file, tti, Tti};
use second::{convert, explain, Explanation};

const ROOM: u64 = 65_536;

/// The first two blocks.
const FIRST: u64 = 1024;
const SECOND: u64 = 1152;

/// The named byte, which is the file's.
fn assert_named(file: &[u8], mode: u64, number: u64, block: u64, offset: u64) {
    let byte = Some(file[offset as usize]);
    assert_eq!(explain(file, mode, ROOM), Explanation { number, block, offset, byte });
}

/// "the offset is the file's length", where no byte stands.
fn assert_at_the_end(file: &[u8], mode: u64, room: u64, number: u64, block: u64) {
    let offset = file.len() as u64;
    assert_eq!(explain(file, mode, room), Explanation { number, block, offset, byte: None });
}

/// The same file with other bytes from this offset.
fn with(file: &[u8], at: usize, bytes: &[u8]) -> Vec<u8> {
    let mut file = file.to_vec();
    file[at..at + bytes.len()].copy_from_slice(bytes);
    file
}

fn plain() -> Vec<u8> {
    file(25, &[tti(b"A")])
}

fn block(ebn: u8) -> Tti {
    Tti { ebn, ..tti(b"A") }
}

/// A user block: what else it holds is not read.
fn user() -> Tti {
    Tti { sgn: 9, sn: 7, cf: 9, cs: 9, tci: [99; 4], ..block(0xFE) }
}

#[test]
fn five_numbers() {
    assert_eq!(explain(&with(&plain(), 11, b"9"), 1, ROOM).numbers(), [4, 0, 11, 1, 0x39]);
    assert_eq!(explain(&with(&plain(), 11, b"\0"), 1, ROOM).numbers(), [4, 0, 11, 1, 0]);
    assert_eq!(explain(&plain(), 1, ROOM).numbers(), [0, 0, 1152, 0, 0]);
    assert_eq!(explain(&[], 1, ROOM).numbers(), [2, 0, 0, 0, 0]);
}

#[test]
fn accepted() {
    assert_at_the_end(&plain(), 1, ROOM, 0, 0);
    assert_at_the_end(&plain(), 2, u64::MAX, 0, 0);
    assert_at_the_end(&file(25, &[]), 1, ROOM, 0, 0);
    assert_at_the_end(&file(25, &[user(), block(0), user(), block(0xFF)]), 1, ROOM, 0, 0);
}

#[test]
fn mode() {
    for mode in [0, 3, 49, 257, u64::MAX] {
        assert_at_the_end(&plain(), mode, ROOM, 1, 0);
        assert_at_the_end(&[], mode, 0, 1, 0);
    }
}

#[test]
fn size() {
    for length in [0, 1, 1023, 1025, 1151] {
        assert_at_the_end(&plain()[..length], 1, ROOM, 2, 0);
    }
    assert_at_the_end(&[plain(), vec![0; 127]].concat(), 1, ROOM, 2, 0);
}

/// The buffer's length counts, at whatever number.
#[test]
fn room() {
    let needed = convert(&plain(), 1, &mut [0; 65_536]).length;
    for room in [0, 1, needed - 1] {
        assert_at_the_end(&plain(), 1, room, 16, 0);
    }
    for room in [needed, needed + 1, 1 << 40, u64::MAX] {
        assert_at_the_end(&plain(), 1, room, 0, 0);
    }
    let refused = file(25, &[Tti { cs: 1, ..tti(b"A") }]);
    for room in [0, 1, needed, u64::MAX] {
        let expected = Explanation { number: 10, block: 0, offset: FIRST + 4, byte: Some(1) };
        assert_eq!(explain(&refused, 1, room), expected);
    }
}

/// "the first of the field", whichever of its bytes is wrong.
#[test]
fn gsi() {
    for at in 3..=10 {
        assert_named(&with(&plain(), at, b"x"), 1, 3, 0, 3);
    }
    assert_named(&with(&plain(), 11, b"3"), 1, 4, 0, 11);
    assert_named(&with(&plain(), 12, b"10"), 1, 5, 0, 12);
    assert_named(&with(&plain(), 12, b"01"), 1, 5, 0, 12);
    for tnb in [b"00002", b"00000", b"    1", b"0000 ", b"x0001", b"00011"] {
        assert_named(&with(&plain(), 238, tnb), 1, 6, 0, 238);
    }
}

/// "with DSC "0" a bad MNR is 6, tested after TNB"
#[test]
fn blocks_and_rows() {
    let open = open_file(25, 30, &[tti(b"A")]);
    assert_at_the_end(&open, 1, ROOM, 0, 0);
    for mnr in [b"00", b"x1", b"1x", b"  "] {
        let bad = with(&open, 253, mnr);
        assert_named(&bad, 1, 6, 0, 253);
        assert_named(&with(&bad, 238, b"00002"), 1, 6, 0, 238);
        assert_named(&with(&bad, 12, b"01"), 1, 5, 0, 12);
        // MNR is read with DSC "0" only.
        assert_at_the_end(&with(&bad, 11, b"1"), 1, ROOM, 0, 0);
    }
    assert_named(&with(&open, 238, b"0000x"), 1, 6, 0, 238);
}

#[test]
fn extension_of_a_block_that_opens_a_set() {
    for ebn in 0x01..=0xFD {
        assert_named(&file(25, &[block(ebn), block(0xFF)]), 1, 7, 0, FIRST + 3);
    }
    // After a set, and after user blocks: the block is the third.
    assert_named(&file(25, &[block(0xFF), user(), block(1)]), 1, 7, 2, 1280 + 3);
    // Its other fields are not compared with the set before.
    let other = Tti { sgn: 1, sn: 0, cf: 1, ..block(0xF0) };
    assert_named(&file(25, &[block(0xFF), other]), 1, 7, 1, SECOND + 3);
}

#[test]
fn extension_inside_a_set() {
    for ebn in (0x00..=0xFD).filter(|&ebn| ebn != 1) {
        assert_named(&file(25, &[block(0), block(ebn), block(0xFF)]), 1, 7, 1, SECOND + 3);
    }
    assert_named(&file(25, &[user(), block(0), user(), block(2), block(0xFF)]), 1, 7, 3, 1408 + 3);
    // F0h after EFh, the 241st block.
    let mut blocks: Vec<Tti> = (0..=0xF0).map(block).collect();
    blocks.push(block(0xFF));
    assert_named(&file(25, &blocks), 1, 7, 240, 1024 + 240 * 128 + 3);
    // In a comment set, too.
    let comment = |ebn| Tti { cf: 1, ..block(ebn) };
    assert_named(&file(25, &[comment(0), comment(0)]), 1, 7, 1, SECOND + 3);
}

#[test]
fn disagreement() {
    // The last block of a set, with one field or several that disagree.
    let last = |bad: Tti| file(25, &[user(), block(0), user(), bad]);
    let at = |bad: Tti, offset: u64| assert_named(&last(bad), 1, 7, 3, 1408 + offset);
    let good = block(0xFF);
    at(Tti { sgn: 1, ..good.clone() }, 0);
    at(Tti { sn: 2, ..good.clone() }, 1);
    // Only the high byte: the field is named by its first byte all the same.
    at(Tti { sn: 0x0101, ..good.clone() }, 1);
    at(Tti { cf: 1, ..good.clone() }, 15);
    at(Tti { cf: 2, ..good.clone() }, 15);
    at(Tti { sgn: 1, sn: 2, ..good.clone() }, 0);
    at(Tti { sgn: 1, cf: 1, ..good.clone() }, 0);
    at(Tti { sn: 2, cf: 1, ..good.clone() }, 1);
    at(Tti { sgn: 1, sn: 2, cf: 1, ..good.clone() }, 0);
    // "in 7 a wrong EBN before any disagreement", also where it is not lower.
    at(Tti { sgn: 1, ebn: 2, ..good.clone() }, 3);
    at(Tti { sn: 2, ebn: 0, ..good.clone() }, 3);
    at(Tti { sgn: 1, sn: 2, cf: 1, ebn: 0xFD, ..good.clone() }, 3);
    // In the block between the first and the last.
    let middle = [block(0), Tti { cf: 1, ..block(1) }, good];
    assert_named(&file(25, &middle), 1, 7, 1, SECOND + 15);
}

/// The comparison is with the set's first block, not with a block before it.
#[test]
fn disagreement_after_another_set() {
    let other = |ebn| Tti { sgn: 4, sn: 9, cf: 1, ..block(ebn) };
    let blocks = [block(0), block(1), block(0xFF), other(0), other(1), Tti { sn: 1, ..other(0xFF) }];
    assert_named(&file(25, &blocks), 1, 7, 5, 1024 + 5 * 128 + 1);
}

/// "For ... an open set the offset is the file's length."
#[test]
fn open_set() {
    assert_at_the_end(&file(25, &[block(0)]), 1, ROOM, 7, 1);
    assert_at_the_end(&file(25, &[block(0), block(1)]), 1, ROOM, 7, 2);
    assert_at_the_end(&file(25, &[block(0xFF), Tti { sn: 2, ..block(0) }, user(), user()]), 1, ROOM, 7, 4);
}

#[test]
fn comment_flag() {
    for cf in [2, 3, 255] {
        let bad = Tti { cf, sn: 2, ..tti(b"A") };
        assert_named(&file(25, &[block(0xFF), user(), bad.clone()]), 1, 8, 2, 1280 + 15);
        // 8 comes before all other rules of the header but 7.
        let worse = Tti { sn: 1, cs: 1, tci: [24; 4], vp: 0, jc: 9, ..bad };
        assert_named(&file(25, &[block(0xFF), user(), worse]), 1, 8, 2, 1280 + 15);
    }
}

#[test]
fn subtitle_number() {
    let numbers =
        |first, second| file(25, &[Tti { sn: first, ..tti(b"A") }, Tti { sn: second, ..tti(b"B") }]);
    assert_named(&numbers(1, 1), 1, 9, 1, SECOND + 1);
    // The high byte is too low: the field is named by its first byte.
    assert_named(&numbers(256, 255), 1, 9, 1, SECOND + 1);
    assert_named(&numbers(65535, 0), 1, 9, 1, SECOND + 1);
    // A comment set, which is tested for 9, too.
    let comment = Tti { cf: 1, cs: 1, ..tti(b"A") };
    assert_named(&file(25, &[block(0xFF), comment]), 1, 9, 1, SECOND + 1);
}

#[test]
fn cumulative() {
    let bad = Tti { cs: 1, tci: [24; 4], vp: 0, jc: 9, ..tti(b"A\x7F") };
    assert_named(&file(25, &[bad]), 1, 10, 0, FIRST + 4);
}

/// "a time out of range is named by its first byte out of range"
#[test]
fn times_out_of_range() {
    let times = |tci, tco| file(25, &[Tti { tci, tco, vp: 0, jc: 9, ..tti(b"A") }]);
    let good_in = [22, 58, 58, 23];
    let good_out = [23, 59, 59, 24];
    for at in 0..4 {
        let mut bad = good_in;
        bad[at] += 99;
        assert_named(&times(bad, good_out), 1, 11, 0, FIRST + 5 + at as u64);
        // TCO is out of range as well.
        assert_named(&times(bad, [99; 4]), 1, 11, 0, FIRST + 5 + at as u64);
        // And what follows in TCI.
        bad[at..].fill(99);
        assert_named(&times(bad, good_out), 1, 11, 0, FIRST + 5 + at as u64);
        // On the limit.
        let mut bad = good_out;
        bad[at] += 1;
        assert_named(&times(good_in, bad), 1, 11, 0, FIRST + 9 + at as u64);
        bad[at..].fill(255);
        assert_named(&times(good_in, bad), 1, 11, 0, FIRST + 9 + at as u64);
    }
    // Out of range, and before TCI: "both in range" does not hold.
    assert_named(&times(good_in, [10, 0, 60, 0]), 1, 11, 0, FIRST + 11);
    // Frame 25 at 25, and 30 at 30.
    let frames = |rate, frame| file(rate, &[Tti { tco: [10, 0, 3, frame], ..tti(b"A") }]);
    assert_named(&frames(25, 25), 1, 11, 0, FIRST + 12);
    assert_at_the_end(&frames(30, 25), 1, ROOM, 0, 0);
    assert_named(&frames(30, 30), 1, 11, 0, FIRST + 12);
}

/// "TCO not after TCI, both in range, by TCO"
#[test]
fn times_out_of_order() {
    let times = |tci, tco| file(25, &[block(0xFF), user(), Tti { sn: 2, tci, tco, ..tti(b"A") }]);
    let tci = [10, 10, 10, 10];
    for tco in [[10, 10, 10, 10], [10, 10, 10, 9], [10, 10, 9, 24], [10, 9, 59, 24], [9, 59, 59, 24], [0; 4]]
    {
        assert_named(&times(tci, tco), 1, 11, 2, 1280 + 9);
    }
    assert_at_the_end(&times(tci, [10, 10, 10, 11]), 1, ROOM, 0, 0);
}

#[test]
fn position_and_justification() {
    let teletext = |vp, jc| file(25, &[Tti { vp, jc, ..tti(b"A") }]);
    for vp in [0, 24, 255] {
        assert_named(&teletext(vp, 2), 1, 12, 0, FIRST + 13);
        assert_named(&teletext(vp, 4), 1, 12, 0, FIRST + 13);
    }
    for jc in [4, 255] {
        assert_named(&teletext(23, jc), 1, 12, 0, FIRST + 14);
    }
    let open = |vp, jc| open_file(25, 11, &[Tti { vp, jc, ..tti(b"A") }]);
    assert_at_the_end(&open(0, 2), 1, ROOM, 0, 0);
    for vp in [11, 12, 255] {
        assert_named(&open(vp, 2), 1, 12, 0, FIRST + 13);
        assert_named(&open(vp, 4), 1, 12, 0, FIRST + 13);
    }
    assert_named(&open(0, 4), 1, 12, 0, FIRST + 14);
}

/// A comment set "is tested for 7, 8 and 9 only", a user block for nothing.
#[test]
fn what_is_not_tested() {
    let comment = Tti { cf: 1, cs: 1, tci: [99; 4], vp: 0, jc: 9, ..tti(&[0x7F; 112]) };
    let bad = Tti { sn: 2, jc: 9, ..tti(b"A") };
    assert_named(&file(25, &[user(), comment, user(), bad]), 1, 12, 3, 1408 + 14);
}
