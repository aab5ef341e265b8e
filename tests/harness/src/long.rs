//! Request 5: files that are longer than the converting program takes.

use crate::checks::Tally;
use second::dice::Dice;
use second::make::{long_file, user_blocks, Ending};

/// So many of each ending.
const OF_EACH_ENDING: usize = 2;

/// How many blocks TNB says, and how many there are. Who counts them only up to
/// 99,999, or modulo a power of two or of ten, would take some of these.
const OTHER_COUNTS: [(usize, usize); 6] =
    [(0, 65_536), (0, 100_000), (99_999, 100_000), (0, 131_072), (99_999, 165_535), (99_999, 231_071)];

/// Files of 600 to 2,000 blocks, and as many blocks as there can be, and more.
pub fn try_long_files(tally: &mut Tally) {
    let mut dice = Dice::new(5);
    for number in 0..Ending::ALL.len() * OF_EACH_ENDING {
        let (ending, blocks) = (Ending::ALL[number % Ending::ALL.len()], dice.between(600, 2000));
        try_ending(tally, blocks, ending, &mut dice);
    }
    for blocks in [99_999, 100_000] {
        try_ending(tally, blocks, Ending::Good, &mut dice);
    }
    for (said, present) in OTHER_COUNTS {
        let file: Vec<u8> = user_blocks(said, present).flatten().collect();
        try_long_file(tally, &file, 1, (6, 0), &mut dice);
    }
}

fn try_ending(tally: &mut Tally, blocks: usize, ending: Ending, dice: &mut Dice) {
    let mode = dice.pick(&[1, 2]);
    let file = long_file(dice.roll(), mode, blocks, ending);
    try_long_file(tally, &file, mode, ending.answer(blocks), dice);
}

/// `expected` is number and place with room enough.
fn try_long_file(tally: &mut Tally, file: &[u8], mode: u64, expected: (u64, u64), dice: &mut Dice) {
    let name = || format!("long file, {expected:?} with room enough");
    tally.try_rooms(file, mode, dice, name);
    let answer = second::answer(file, mode, u64::MAX);
    let other = (answer.number, answer.place) != expected;
    tally.add(other.then(|| format!("{answer:?}")), name);
}
