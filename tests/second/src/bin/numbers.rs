//! The check program: it "takes the converting program's input at any length,
//! with a room of 2 to the 40 bytes, and prints the answer's eight numbers in
//! document 01's order, in decimal, each followed by LF". This one keeps the file.

use second::{answer, program};
use std::io::{self, Write};

/// "with a room of 2 to the 40 bytes"
const ROOM: u64 = 1 << 40;

fn main() -> io::Result<()> {
    let input = program::read_any_length()?;
    let numbers = answer(&input.file, input.mode, ROOM).numbers();
    io::stdout().lock().write_all(&program::lines(&numbers))
}
