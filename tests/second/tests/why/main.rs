//! Request 3, "Tell me why".

mod fields;
mod kinds;
mod programs;
mod samples;
mod set;
mod texts;

use second::make::Sample;
use second::{explain, Explanation};

const SAMPLES: u64 = 200_000;

fn reason(sample: &Sample) -> Explanation {
    explain(&sample.file, sample.mode, sample.room as u64)
}
