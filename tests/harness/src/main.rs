//! Compares the proved converter with the second one, what both say to "Tell me
//! why", and the answers of the proved check, which is fed in lumps: `harness [N]
//! [FIRST]`, every accent before every code and long files first, then N files
//! (200,000) from seed FIRST (0).
//!
//! Status 1 if any answer, any byte of a buffer or any reason differs, or if the
//! files are too much of one kind to say anything.

mod checks;
mod compare;
mod long;
mod lumps;
mod odd_checks;
mod pairs;
mod reasons;
mod store;

use compare::compare;
use second::make::{sample, Sample};
use std::process::ExitCode;

const FILES: u64 = 200_000;

/// Below this the tally is printed, but not judged: a single seed can be run
/// again by itself.
const ENOUGH_TO_JUDGE: u64 = 20_000;

/// Every so many files the odd arrays and the odd buffers are tried too.
const ODD_CALLS: u64 = 10;

/// Arrays for the five numbers of a reason: exact, and too short or too long.
const EXACT: usize = 5;
const ODD_LENGTHS: [usize; 3] = [0, 3, 9];

fn main() -> ExitCode {
    let Some((files, first)) = arguments() else {
        eprintln!("usage: harness [N] [FIRST]");
        return ExitCode::from(2);
    };
    let pairs = pairs::compare_all();
    pairs.print();
    let mut checks = checks::Tally::default();
    checks.try_pairs();
    long::try_long_files(&mut checks);
    let mut tally = [0u64; 17];
    let mut differences = 0u64;
    let mut first_difference = None;
    for seed in first..first + files {
        let sample = sample(seed);
        let (number, difference) = try_seed(&sample, seed);
        checks.try_seed(&sample.file, sample.mode, seed);
        tally[number as usize] += 1;
        if let Some(difference) = difference {
            differences += 1;
            first_difference.get_or_insert((seed, difference));
        }
    }
    print_tally(&tally, files);
    if let Some((seed, difference)) = first_difference {
        println!("first difference: seed {seed}, {difference}");
    }
    checks.print();
    let broad = files < ENOUGH_TO_JUDGE || is_broad(&tally, files);
    println!("harness: {files} files, {} accepted, {differences} differences", tally[0]);
    if broad && differences == 0 && pairs.differences == 0 && checks.differences == 0 {
        ExitCode::SUCCESS
    } else {
        ExitCode::FAILURE
    }
}

/// How many files, at least one, and the first seed.
fn arguments() -> Option<(u64, u64)> {
    let given: Result<Vec<u64>, _> = std::env::args().skip(1).map(|text| text.parse()).collect();
    let (files, first) = match given.ok()?[..] {
        [] => (FILES, 0),
        [files] => (files, 0),
        [files, first] => (files, first),
        _ => return None,
    };
    (files > 0 && first.checked_add(files).is_some()).then_some((files, first))
}

/// The number of the answer, and the first difference if there is one.
fn try_seed(sample: &Sample, seed: u64) -> (u64, Option<String>) {
    let (number, difference) = compare(sample, sample.room, 8, seed);
    let difference = difference.map(|difference| difference.to_string()).or_else(|| reason(sample, seed));
    if difference.is_some() || !seed.is_multiple_of(ODD_CALLS) {
        return (number, difference);
    }
    (number, odd_calls(sample, seed).or_else(|| odd_reasons(sample, seed)))
}

/// Arrays too short and too long, and an empty buffer.
fn odd_calls(sample: &Sample, seed: u64) -> Option<String> {
    let calls = [(sample.room, 0), (sample.room, 3), (sample.room, 11), (0, 8), (0, 0)];
    let mut differences =
        calls.into_iter().map(|(room, answer_len)| compare(sample, room, answer_len, !seed).1);
    differences.find_map(|difference| Some(difference?.to_string()))
}

/// The reason in an array that is long enough, and in one that is not, or is too
/// long.
fn reason(sample: &Sample, seed: u64) -> Option<String> {
    let odd = ODD_LENGTHS[seed as usize % ODD_LENGTHS.len()];
    let difference = reasons::compare(sample, sample.room as u64, &[EXACT, odd], seed)?;
    Some(difference.to_string())
}

/// All arrays, for a buffer that is empty, small, one byte too short, exactly long
/// enough, and huge.
fn odd_reasons(sample: &Sample, seed: u64) -> Option<String> {
    let needed = second::convert(&sample.file, sample.mode, &mut []).length;
    let rooms = [0, 1, 100, needed.saturating_sub(1), needed, needed + 1, 1 << 40, u64::MAX];
    let lengths = [ODD_LENGTHS[0], ODD_LENGTHS[1], EXACT, ODD_LENGTHS[2]];
    let mut differences = rooms.into_iter().map(|room| reasons::compare(sample, room, &lengths, !seed));
    differences.find_map(|difference| Some(difference?.to_string()))
}

fn print_tally(tally: &[u64; 17], files: u64) {
    for (number, count) in tally.iter().enumerate() {
        let name = if number == 0 { "accepted" } else { "refused" };
        println!("{name:>8} {number:>2}: {count:>9}  {:5.2} %", 100.0 * *count as f64 / files as f64);
    }
}

/// A third accepted, and every refusal at least once.
fn is_broad(tally: &[u64; 17], files: u64) -> bool {
    let mut broad = true;
    if 3 * tally[0] < files {
        println!("under a third of the files are accepted");
        broad = false;
    }
    for number in (1..=16).filter(|&number| tally[number] == 0) {
        println!("refusal {number} never occurred");
        broad = false;
    }
    broad
}
