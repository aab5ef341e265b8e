//! Two of the proved functions on the same input, in turn.

use crate::converter::{repeats_and_measurements, Converter};
use crate::inputs::Input;

pub struct Pair {
    pub input: Input,
    pub usual: Converter,
    pub other: Converter,
    repeats: u32,
    measurements: u32,
}

impl Pair {
    pub fn new(input: Input, mut usual: Converter, other: Converter) -> Pair {
        let (repeats, measurements) = repeats_and_measurements(&mut usual, &input.file);
        Pair { input, usual, other, repeats, measurements }
    }

    /// One measurement of each; the other one goes first in the next round.
    pub fn measure(&mut self, round: usize) {
        let Pair { input, usual, other, repeats, measurements } = self;
        let mut order = [usual, other];
        order.rotate_left(round % 2);
        for converter in order {
            converter.measure(&input.file, *repeats, *measurements);
        }
    }

    /// How many times as long as the usual one the other one takes.
    pub fn ratio(&self) -> f64 {
        self.other.best.as_secs_f64() / self.usual.best.as_secs_f64()
    }
}
