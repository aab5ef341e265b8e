//! What "Tell me why" costs: the proved explainer beside the proved converter, on
//! refused files.

use crate::converter::{by_proved, room, Converter, MODE};
use crate::figures::{grouped, microseconds};
use crate::inputs::Input;
use crate::pair::Pair;

/// So many times as long as the conversion it may take, of a film.
pub const MOST: f64 = 2.0;

/// Both on one refused file.
pub struct Reason {
    pub pair: Pair,
    /// The number of the refusal.
    number: u64,
}

impl Reason {
    /// Compares the reason with that of the second explainer, which also warms up.
    pub fn new(input: Input) -> Reason {
        let room = room(&input.file);
        let mut convert = Converter::new(by_proved, room);
        let mut explain = Converter::new(by_explainer, room);
        let number = convert.convert(&input.file)[0];
        let expected = second::explain(&input.file, MODE, room as u64).numbers();
        assert_eq!(explain.convert(&input.file)[..5], expected, "{}: the reasons differ", input.name);
        assert_ne!(number, 0, "{}: it is accepted", input.name);
        Reason { pair: Pair::new(input, convert, explain), number }
    }
}

/// The five numbers, and three times 0. The buffer is not touched.
pub fn by_explainer(file: &[u8], out: &mut [u8]) -> [u64; 8] {
    let mut numbers = [0; 8];
    harness::explain(file, MODE, out.len() as u64, &mut numbers[..5]);
    numbers
}

pub fn print_reasons<'a>(reasons: impl Iterator<Item = &'a Reason>, highest: f64) {
    println!("| Refused input | Number | Blocks | Converter, µs | Explainer, µs | Ratio |");
    println!("|---|---:|---:|---:|---:|---:|");
    for Reason { pair, number } in reasons {
        println!(
            "| {} | {number} | {} | {:.1} | {:.1} | {:.2} |",
            pair.input.name,
            grouped(pair.input.blocks()),
            microseconds(pair.usual.best),
            microseconds(pair.other.best),
            pair.ratio(),
        );
    }
    println!();
    println!("Both proved, on the same file in turn. Ratio: how many times as long as the conversion the");
    println!("explanation takes; at most {MOST} is asked of films, and their highest is {highest:.2}. The");
    println!("longest set has 241 full blocks and is the whole file, so its text is most of the work.");
}
