//! Request 5: the program `numbers`, the answer for a room, and long files.

use second::assemble::{file, tti, Tti};
use second::make::{long_file, sample, user_blocks, Ending};
use second::{answer, convert};
use std::io::Write;
use std::process::{Command, Stdio};

/// 2 to the 40.
const ROOM: u64 = 1 << 40;

/// What the program prints for this digit and file.
fn printed(digit: &[u8], file: &[u8]) -> String {
    let program =
        Command::new(env!("CARGO_BIN_EXE_numbers")).stdin(Stdio::piped()).stdout(Stdio::piped()).spawn();
    let mut program = program.unwrap();
    let mut to = program.stdin.take().unwrap();
    to.write_all(digit).unwrap();
    to.write_all(file).unwrap();
    drop(to);
    let output = program.wait_with_output().unwrap();
    assert!(output.status.success());
    String::from_utf8(output.stdout).unwrap()
}

/// The lines of a refusal.
fn refused(number: u64, place: u64) -> String {
    format!("{number}\n{place}\n{}", "0\n".repeat(6))
}

#[test]
fn eight_lines() {
    let good = file(25, &[tti(b"A"), Tti { ebn: 0xFE, ..tti(b"") }]);
    let length = convert(&good, 1, &mut []).length;
    assert_eq!(printed(b"1", &good), format!("0\n0\n{length}\n1\n0\n0\n1\n1\n"));
    assert_eq!(printed(b"2", &good), printed(b"1", &good));
    assert_eq!(printed(b"3", &good), refused(1, 0));
    assert_eq!(printed(b"\x01", &good), refused(1, 0));
    assert_eq!(printed(b"", &good), refused(1, 0));
    assert_eq!(printed(b"", b""), refused(1, 0));
    assert_eq!(printed(b"1", b""), refused(2, 0));
    let second_bad = file(25, &[tti(b"A"), Tti { sn: 2, ..tti(b"\x7F") }]);
    assert_eq!(printed(b"1", &second_bad), refused(13, 1));
}

/// There is no `too long`.
#[test]
fn at_any_length() {
    assert_eq!(printed(b"1", &[b'1'; 65_537]), refused(2, 0));
    assert_eq!(printed(b"1", &[b'1'; 65_536 + 128]), refused(3, 0));
    assert_eq!(printed(b"0", &[b'1'; 65_536 + 128]), refused(1, 0));
    let long = long_file(7, 1, 2_000, Ending::Good);
    let numbers = answer(&long, 1, ROOM).numbers();
    assert_eq!(numbers[0], 0);
    assert_eq!(printed(b"1", &long), numbers.map(|number| format!("{number}\n")).concat());
}

/// A room is a buffer that nobody has.
#[test]
fn answer_for_a_room() {
    for seed in 0..20_000 {
        let sample = sample(seed);
        let converted = convert(&sample.file, sample.mode, &mut vec![0; sample.room]);
        assert_eq!(answer(&sample.file, sample.mode, sample.room as u64), converted, "seed {seed}");
        let needed = convert(&sample.file, sample.mode, &mut []).length;
        let exactly = convert(&sample.file, sample.mode, &mut vec![0; needed as usize]);
        for room in [needed, needed + 1, ROOM, u64::MAX] {
            assert_eq!(answer(&sample.file, sample.mode, room), exactly, "seed {seed}");
        }
    }
}

/// Number and place, and the sum of the counts of one that is accepted.
fn assert_ending(mode: u64, blocks: usize, ending: Ending) {
    let answer = answer(&long_file(mode, mode, blocks, ending), mode, ROOM);
    assert_eq!((answer.number, answer.place), ending.answer(blocks), "mode {mode}, {blocks}, {ending:?}");
    if answer.number == 0 {
        let sum = answer.subtitles + answer.comments + answer.continuations + answer.users;
        assert_eq!(sum, blocks as u64);
    }
}

#[test]
fn endings() {
    for mode in [1, 2] {
        for blocks in [2, 3, 600, 2_000] {
            Ending::ALL.into_iter().for_each(|ending| assert_ending(mode, blocks, ending));
        }
    }
}

/// "TNB (five ASCII digits)"
#[test]
fn most_blocks() {
    for ending in Ending::ALL {
        assert_ending(1, 99_999, ending);
    }
    assert_ending(2, 99_999, Ending::Good);
    assert_ending(1, 100_000, Ending::Good);
}

/// A file as long as it can be is full of sets, and both kinds of file come.
#[test]
fn long_files_are_full_of_sets() {
    let long = long_file(1, 1, 99_999, Ending::Good);
    let answer = answer(&long, 1, ROOM);
    assert!(answer.subtitles > 20_000 && answer.comments > 1_000, "{answer:?}");
    assert!(answer.continuations > 50_000 && (1_000..5_000).contains(&answer.users), "{answer:?}");
    let kinds: Vec<u8> = (0..8).map(|seed| long_file(seed, 1, 2, Ending::Good)[11]).collect();
    assert!(kinds.contains(&b'0') && kinds.iter().any(|kind| b"12".contains(kind)));
}

#[test]
fn only_user_blocks() {
    let number = |said, present| {
        let file: Vec<u8> = user_blocks(said, present).flatten().collect();
        answer(&file, 1, ROOM).number
    };
    assert_eq!([number(0, 0), number(300, 300), number(99_999, 99_999)], [0; 3]);
    assert_eq!([number(299, 300), number(100_000, 100_000), number(99_999, 100_000)], [6; 3]);
}
