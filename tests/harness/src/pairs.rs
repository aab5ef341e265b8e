//! Request 4: every accent before every code, at every place, in both kinds of file,
//! by both converters and both explainers.

use crate::compare::compare;
use crate::reasons;
use second::make::Sample;
use second::pairs::{all, Kind, Pair};

/// Longer than any document here.
const ROOM: usize = 4096;

const MODES: [u64; 2] = [1, 2];

/// The eight numbers of an answer, and the five of a reason.
const ANSWER: usize = 8;
const REASON: usize = 5;

#[derive(Default)]
pub struct Tally {
    pub files: u64,
    pub accepted: u64,
    pub differences: u64,
    /// The differences by the kind of the pair.
    by_kind: [u64; Kind::ALL.len()],
    first: Option<String>,
}

/// Compares all of them.
pub fn compare_all() -> Tally {
    let mut tally = Tally::default();
    for pair in all() {
        let (number, difference) = try_pair(pair, tally.files);
        tally.files += 1;
        tally.accepted += u64::from(number == 0);
        if let Some(difference) = difference {
            tally.add(pair, difference);
        }
    }
    tally
}

/// The number of the answer, and the first difference if there is one, in either
/// break mode.
fn try_pair(pair: Pair, pattern: u64) -> (u64, Option<String>) {
    let mut sample = Sample { mode: 0, file: pair.file(), room: ROOM };
    let mut number = 0;
    for mode in MODES {
        sample.mode = mode;
        let difference;
        (number, difference) = try_rooms(&sample, pattern);
        if difference.is_some() {
            return (number, difference);
        }
    }
    (number, None)
}

/// With a long buffer; and where the file is accepted, with one that is exactly long
/// enough, and with one byte less.
fn try_rooms(sample: &Sample, pattern: u64) -> (u64, Option<String>) {
    let needed = second::convert(&sample.file, sample.mode, &mut []).length as usize;
    let number = second::convert(&sample.file, sample.mode, &mut [0; ROOM]).number;
    let rooms: &[usize] = if number == 0 { &[ROOM, needed, needed - 1] } else { &[ROOM] };
    (number, rooms.iter().find_map(|&room| difference(sample, room, pattern)))
}

fn difference(sample: &Sample, room: usize, pattern: u64) -> Option<String> {
    if let (_, Some(difference)) = compare(sample, room, ANSWER, pattern) {
        return Some(difference.to_string());
    }
    Some(reasons::compare(sample, room as u64, &[REASON], pattern)?.to_string())
}

impl Tally {
    fn add(&mut self, pair: Pair, difference: String) {
        self.differences += 1;
        let kind = Kind::ALL.iter().position(|&kind| kind == pair.kind()).expect("all kinds are there");
        self.by_kind[kind] += 1;
        self.first.get_or_insert_with(|| format!("{pair:02X?}, {difference}"));
    }

    pub fn print(&self) {
        if let Some(first) = &self.first {
            println!("first difference of the pairs: {first}");
            for (kind, count) in Kind::ALL.iter().zip(self.by_kind) {
                println!("{kind:?}: {count} differences");
            }
        }
        let Tally { files, accepted, differences, .. } = self;
        println!("pairs: {files} files, {accepted} accepted, {differences} differences");
    }
}
