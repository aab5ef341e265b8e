//! The input of the programs: "The converting program reads from standard input
//! the digit 1 or 2 (another byte or none is mode 0), then the file (at most
//! 65,536 bytes, otherwise it prints `too long` and LF); its output buffer has
//! 65,536 bytes." "The check program takes the converting program's input at any
//! length".

use std::io::{self, Read};

/// "at most 65,536 bytes"
const LONGEST_FILE: usize = 65_536;

/// "its output buffer has 65,536 bytes"
pub const BUFFER: usize = 65_536;

/// What is printed where the file is longer.
pub const TOO_LONG: &[u8] = b"too long\n";

/// The break mode and the file.
pub struct Input {
    pub mode: u64,
    pub file: Vec<u8>,
}

/// Reads standard input; none if the file is too long.
pub fn read() -> io::Result<Option<Input>> {
    // The digit, the longest file, and one byte more to see that it is longer.
    let input = input(io::stdin().lock().take(1 + LONGEST_FILE as u64 + 1))?;
    Ok(Some(input).filter(|input| input.file.len() <= LONGEST_FILE))
}

/// Reads standard input at any length.
pub fn read_any_length() -> io::Result<Input> {
    input(io::stdin().lock())
}

/// The first byte is the digit, if there is one.
fn input(mut from: impl Read) -> io::Result<Input> {
    let (mut digit, mut file) = (Vec::new(), Vec::new());
    from.by_ref().take(1).read_to_end(&mut digit)?;
    from.read_to_end(&mut file)?;
    Ok(Input { mode: mode_of(digit.first()), file })
}

/// "the digit 1 or 2 (another byte or none is mode 0)"
fn mode_of(digit: Option<&u8>) -> u64 {
    match digit {
        Some(b'1') => 1,
        Some(b'2') => 2,
        _ => 0,
    }
}

/// "in decimal, each followed by LF"
pub fn lines(numbers: &[u64]) -> Vec<u8> {
    numbers.iter().map(|number| format!("{number}\n")).collect::<String>().into_bytes()
}
