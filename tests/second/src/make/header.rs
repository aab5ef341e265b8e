//! Headers of good sets.

use crate::assemble::time;
use crate::dice::Dice;

/// The header of a good set's first block.
pub(super) struct Header {
    pub(super) sgn: u8,
    pub(super) sn: u16,
    pub(super) time_in: [u8; 4],
    pub(super) time_out: [u8; 4],
    pub(super) jc: u8,
    pub(super) cf: u8,
}

pub(super) fn good_header(dice: &mut Dice, sn: u16, rate: u8) -> Header {
    let (time_in, time_out) = good_times(dice, rate);
    Header { sgn: dice.pick(&[0, 0, 0, 1, 255]), sn, time_in, time_out, jc: dice.byte_between(0, 3), cf: 0 }
}

/// Two good times, often at the limits and often one frame apart.
pub(super) fn good_times(dice: &mut Dice, rate: u8) -> ([u8; 4], [u8; 4]) {
    let rate = usize::from(rate);
    let end = 24 * 60 * 60 * rate;
    let unit = dice.pick(&[1, rate, 60 * rate, 60 * 60 * rate]);
    let first = match dice.below(6) {
        0 => 0,
        1 => end - 2,
        2 => dice.below(end / unit) * unit,
        3 => ((dice.below(end / unit) + 1) * unit).saturating_sub(2),
        _ => dice.below(end - 1),
    };
    let first = first.min(end - 2);
    let second = match dice.below(5) {
        0 => first + 1,
        1 => end - 1,
        2 => (first + unit).min(end - 1),
        3 => dice.between(first + 1, end - 1),
        _ => (first + dice.between(1, 10 * rate)).min(end - 1),
    };
    (time(first, rate), time(second, rate))
}

/// The frame of a good time.
pub(super) fn frame(time: &[u8], rate: usize) -> usize {
    let [hours, minutes, seconds, frames] = [0, 1, 2, 3].map(|at| usize::from(time[at]));
    ((hours * 60 + minutes) * 60 + seconds) * rate + frames
}

/// Numbers that mean something to somebody who reads SN the wrong way round.
pub(super) fn next_number(dice: &mut Dice, before: Option<u16>) -> u16 {
    let Some(before) = before else {
        return match dice.below(12) {
            0 => 0,
            1 => 255,
            2 => 256,
            3 => 65535,
            4 => 9,
            5 => 99,
            6 => dice.between(0, 65000) as u16,
            _ => 1,
        };
    };
    let step = match dice.below(12) {
        0 => 255,
        1 => 256,
        2 => dice.between(1, 10_000) as u16,
        3 => 256 - before % 256,
        _ => 1,
    };
    before.saturating_add(step)
}
