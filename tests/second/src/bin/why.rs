//! Takes the converting program's input and prints the five numbers of the
//! reason (number, block, offset, 1 for a byte or 0 for none, the byte or 0) in
//! decimal, each followed by LF.

use second::explain;
use second::program::{self, Input, BUFFER, TOO_LONG};
use std::io::{self, Write};

fn main() -> io::Result<()> {
    let printed = program::read()?.map_or(TOO_LONG.to_vec(), |input| printed(&input));
    io::stdout().lock().write_all(&printed)
}

/// What the program prints for this input.
fn printed(input: &Input) -> Vec<u8> {
    program::lines(&explain(&input.file, input.mode, BUFFER as u64).numbers())
}
