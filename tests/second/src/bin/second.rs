//! The converting program: "It prints the document, or `refused N at P` and LF."

use second::convert;
use second::program::{self, Input, BUFFER, TOO_LONG};
use std::io::{self, Write};

fn main() -> io::Result<()> {
    let printed = program::read()?.map_or(TOO_LONG.to_vec(), |input| printed(&input));
    io::stdout().lock().write_all(&printed)
}

/// What the program prints for this input.
fn printed(input: &Input) -> Vec<u8> {
    let mut out = vec![0; BUFFER];
    let answer = convert(&input.file, input.mode, &mut out);
    if answer.number != 0 {
        return format!("refused {} at {}\n", answer.number, answer.place).into_bytes();
    }
    out.truncate(answer.length as usize);
    out
}
