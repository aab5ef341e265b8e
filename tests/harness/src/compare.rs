//! One call of each converter with the same file, buffer and answer array.

use second::dice::Dice;
use second::make::Sample;
use std::fmt;

/// Bytes and numbers behind what is lent: nobody may touch them.
const GUARD: usize = 64;

/// What a converter left behind, guards included.
struct Outcome {
    returned: u64,
    answer: Vec<u64>,
    out: Vec<u8>,
}

/// Two outcomes that are not equal.
pub struct Difference {
    call: String,
    answer_len: usize,
    room: usize,
    proved: Outcome,
    second: Outcome,
}

/// Calls both with a buffer of `room` bytes and an array of `answer_len`
/// numbers. `pattern` is the seed of what stands in both before the calls: it
/// has to be there still wherever no document and no number is written.
///
/// Gives the number of the refusal, or 0, and the difference if there is one.
pub fn compare(sample: &Sample, room: usize, answer_len: usize, pattern: u64) -> (u64, Option<Difference>) {
    let before = filled(room, answer_len, pattern);
    let proved = by_proved(sample, room, answer_len, &before);
    let second = by_second(sample, room, answer_len, before);
    let number = second.returned;
    let equal =
        proved.returned == second.returned && proved.answer == second.answer && proved.out == second.out;
    if equal {
        return (number, None);
    }
    let call = format!(
        "mode {}, file of {} bytes, buffer of {room} bytes, array of {answer_len} numbers",
        sample.mode,
        sample.file.len()
    );
    (number, Some(Difference { call, answer_len, room, proved, second }))
}

/// Buffer, array and guards before the call.
fn filled(room: usize, answer_len: usize, pattern: u64) -> Outcome {
    let mut dice = Dice::new(pattern);
    let mut out = vec![0; room + GUARD];
    dice.fill(&mut out);
    let answer = (0..answer_len + GUARD).map(|_| dice.roll()).collect();
    Outcome { returned: 0, answer, out }
}

fn by_proved(sample: &Sample, room: usize, answer_len: usize, before: &Outcome) -> Outcome {
    let (mut out, mut answer) = (before.out.clone(), before.answer.clone());
    let returned = harness::convert(&sample.file, sample.mode, &mut out[..room], &mut answer[..answer_len]);
    Outcome { returned, answer, out }
}

/// The second converter has no array; its numbers are put where they belong.
fn by_second(sample: &Sample, room: usize, answer_len: usize, before: Outcome) -> Outcome {
    let Outcome { mut out, mut answer, .. } = before;
    let numbers = second::convert(&sample.file, sample.mode, &mut out[..room]).numbers();
    let given = answer_len.min(numbers.len());
    answer[..given].copy_from_slice(&numbers[..given]);
    Outcome { returned: numbers[0], answer, out }
}

impl fmt::Display for Difference {
    fn fmt(&self, to: &mut fmt::Formatter) -> fmt::Result {
        let (proved, second) = (&self.proved, &self.second);
        writeln!(to, "{}", self.call)?;
        writeln!(to, "  numbers: number place length subtitles comments continuations users spans")?;
        writeln!(
            to,
            "  proved converter: returned {}, {:?}",
            proved.returned,
            &proved.answer[..self.answer_len]
        )?;
        writeln!(
            to,
            "  second converter: returned {}, {:?}",
            second.returned,
            &second.answer[..self.answer_len]
        )?;
        if proved.answer[self.answer_len..] != second.answer[self.answer_len..] {
            writeln!(to, "  the proved converter wrote past the end of the array")?;
        }
        match first_difference(&proved.out, &second.out) {
            None => write!(to, "  the buffers are equal"),
            Some(at) => write!(
                to,
                "  first differing offset of the buffer: {at}{}, proved {:02X}h, second {:02X}h",
                if at < self.room { "" } else { " (past its end)" },
                proved.out[at],
                second.out[at]
            ),
        }
    }
}

fn first_difference(left: &[u8], right: &[u8]) -> Option<usize> {
    left.iter().zip(right).position(|(left, right)| left != right)
}
