//! Test files from a seed: good ones, ones at every limit of the rules, and
//! ones with faults. The same seed always gives the same sample.
//!
//! A sample is made in this order: a good file with chance in all that the
//! rules leave open; then, in some samples, one fault or several, each aimed at
//! one number of "What comes back" (they may hide one another, which tests the
//! order); last, the room of the buffer. Other samples stand for lines of the
//! papers, for the largest sets, for texts of any codes, or for one kind of fault
//! within a number. Files of many blocks are made apart from them.

mod accents;
mod boxes;
mod header;
mod limits;
mod long;
mod open;
mod ordinary;
mod plan;
mod sets;
mod spoil;
mod strange;
mod switches;
mod text;
mod why;

use crate::convert;
use crate::dice::Dice;
use accents::accent_case;
use boxes::box_case;
use limits::paper_case;
pub use long::{long_file, user_blocks, Ending};
use open::open_case;
use ordinary::ordinary;
use strange::{full, giant, raw_text};
use why::why_case;

/// One test: the break mode, the file, and the length of the output buffer.
#[derive(PartialEq, Eq, Debug, Clone)]
pub struct Sample {
    pub mode: u64,
    pub file: Vec<u8>,
    pub room: usize,
}

/// The sample of a seed.
pub fn sample(seed: u64) -> Sample {
    let mut dice = Dice::new(seed);
    let mut plan = match dice.below(600) {
        0..=1 => giant(&mut dice),
        2..=5 => full(&mut dice),
        6..=77 => paper_case(&mut dice),
        78..=137 => open_case(&mut dice),
        138..=161 => box_case(&mut dice),
        162..=209 => raw_text(&mut dice),
        210..=257 => accent_case(&mut dice),
        528..=599 => why_case(&mut dice),
        _ => ordinary(&mut dice),
    };
    let file = plan.file(&mut dice);
    let room = room(&mut dice, &file, plan.mode);
    Sample { mode: plan.mode, file, room }
}

/// Exactly long enough, one byte short, empty, or roomy.
fn room(dice: &mut Dice, file: &[u8], mode: u64) -> usize {
    // No document is empty, so an empty buffer asks for the length needed.
    let needed = convert(file, mode, &mut []).length as usize;
    if needed == 0 {
        return dice.pick(&[0, 1, 100, 2048, 4096]);
    }
    match dice.below(100) {
        0..=3 => needed - 1,
        4 => 0,
        5 => dice.below(needed),
        6..=30 => needed,
        31..=45 => needed + 1,
        46..=90 => needed + dice.between(1, 100),
        _ => needed + 4096,
    }
}

#[cfg(test)]
mod tests {
    use super::accents::{bad_pair, good_pair};
    use super::header::frame;
    use super::ordinary::with_faults;
    use super::text::{bad_fragment, row_of};
    use super::*;
    use crate::assemble::time;
    use crate::display::Display;
    use crate::text::{self, BreakMode};
    use crate::Reason;

    #[test]
    fn same_seed_same_sample() {
        for seed in 0..200 {
            assert_eq!(sample(seed), sample(seed));
        }
        assert_ne!(sample(1), sample(2));
    }

    const DISPLAYS: [Display; 2] = [Display::Teletext, Display::Open { rows: 99 }];

    #[test]
    fn bad_fragments_are_refused() {
        let mut dice = Dice::new(1);
        for display in DISPLAYS {
            for _ in 0..5000 {
                let fragment = bad_fragment(&mut dice, display);
                let read = text::read(&fragment, display, BreakMode::One, 1);
                assert_eq!(read, Err(Reason::Code), "{fragment:02X?}");
            }
        }
    }

    #[test]
    fn pairs_are_good_or_bad() {
        let mut dice = Dice::new(3);
        for display in DISPLAYS {
            for _ in 0..5000 {
                let pair = good_pair(&mut dice);
                assert!(text::read(&pair, display, BreakMode::Two, 1).is_ok(), "{pair:02X?}");
                let pair = bad_pair(&mut dice);
                let read = text::read(&pair, display, BreakMode::Two, 1);
                assert_eq!(read, Err(Reason::Code), "{pair:02X?}");
            }
        }
    }

    #[test]
    fn rows_have_so_many_cells() {
        let mut dice = Dice::new(2);
        for display in DISPLAYS {
            for _ in 0..5000 {
                let row = row_of(&mut dice, display, 64);
                assert!(text::read(&row, display, BreakMode::Two, 1).is_ok(), "{row:02X?}");
                let row = row_of(&mut dice, display, 65);
                let read = text::read(&row, display, BreakMode::Two, 1);
                assert_eq!(read, Err(Reason::RowsDoNotFit), "{row:02X?}");
            }
        }
    }

    #[test]
    fn plans_without_faults_are_accepted() {
        for seed in 0..5000 {
            let mut dice = Dice::new(seed);
            let mut plan = with_faults(&mut dice, vec![]);
            let file = plan.file(&mut dice);
            assert_eq!(convert(&file, plan.mode, &mut []).number, 16, "seed {seed}");
        }
    }

    #[test]
    fn frames_and_times() {
        for rate in [25, 30] {
            for number in [0, 1, rate - 1, rate, 60 * rate, 3600 * rate - 1, 24 * 3600 * rate - 1] {
                assert_eq!(frame(&time(number, rate), rate), number);
            }
        }
        assert_eq!(time(24 * 3600 * 30 - 1, 30), [23, 59, 59, 29]);
    }
}
