//! The proved explainer against the second one, with the same file and array.

use second::dice::Dice;
use second::make::Sample;
use std::fmt;

/// Numbers behind what is lent: nobody may touch them.
const GUARD: usize = 16;

/// What an explainer left behind, guards included.
#[derive(PartialEq, Eq)]
struct Outcome {
    returned: u64,
    reason: Vec<u64>,
}

/// Two outcomes that are not equal.
pub struct Difference {
    call: String,
    length: usize,
    proved: Outcome,
    second: Outcome,
}

/// Calls the proved explainer for a buffer of `room` bytes, with arrays of these
/// lengths. `pattern` is the seed of what stands in them before. Gives the first
/// difference if there is one.
pub fn compare(sample: &Sample, room: u64, lengths: &[usize], pattern: u64) -> Option<Difference> {
    let numbers = second::explain(&sample.file, sample.mode, room).numbers();
    lengths.iter().find_map(|&length| compare_with(sample, room, length, pattern, numbers))
}

fn compare_with(
    sample: &Sample,
    room: u64,
    length: usize,
    pattern: u64,
    numbers: [u64; 5],
) -> Option<Difference> {
    let mut dice = Dice::new(pattern);
    let before: Vec<u64> = (0..length + GUARD).map(|_| dice.roll()).collect();
    let proved = by_proved(sample, room, length, before.clone());
    let second = by_second(numbers, length, before);
    if proved == second {
        return None;
    }
    let (mode, bytes) = (sample.mode, sample.file.len());
    let call = format!("reason: mode {mode}, file of {bytes} bytes, room {room}, array of {length} numbers");
    Some(Difference { call, length, proved, second })
}

fn by_proved(sample: &Sample, room: u64, length: usize, mut reason: Vec<u64>) -> Outcome {
    let returned = harness::explain(&sample.file, sample.mode, room, &mut reason[..length]);
    Outcome { returned, reason }
}

/// "as many as there is room for"
fn by_second(numbers: [u64; 5], length: usize, mut reason: Vec<u64>) -> Outcome {
    let given = length.min(numbers.len());
    reason[..given].copy_from_slice(&numbers[..given]);
    Outcome { returned: numbers[0], reason }
}

impl fmt::Display for Difference {
    fn fmt(&self, to: &mut fmt::Formatter) -> fmt::Result {
        let Difference { call, length, proved, second } = self;
        writeln!(to, "{call}")?;
        writeln!(to, "  numbers: number block offset byte-or-none byte")?;
        writeln!(to, "  proved explainer: returned {}, {:?}", proved.returned, &proved.reason[..*length])?;
        write!(to, "  second explainer: returned {}, {:?}", second.returned, &second.reason[..*length])?;
        if proved.reason[*length..] != second.reason[*length..] {
            write!(to, "\n  the proved explainer wrote past the end of the array")?;
        }
        Ok(())
    }
}
