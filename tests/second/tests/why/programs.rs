//! The programs `why` and `refused`.

use second::assemble::{file, tti};
use second::explain;
use std::fs;
use std::io::Write;
use std::path::Path;
use std::process::{Command, Stdio};

/// What `why` prints for this input.
fn printed(input: &[u8]) -> String {
    let program =
        Command::new(env!("CARGO_BIN_EXE_why")).stdin(Stdio::piped()).stdout(Stdio::piped()).spawn();
    let mut program = program.unwrap();
    program.stdin.take().unwrap().write_all(input).unwrap();
    let output = program.wait_with_output().unwrap();
    assert!(output.status.success());
    String::from_utf8(output.stdout).unwrap()
}

#[test]
fn five_lines() {
    let good = file(25, &[tti(b"A")]);
    let bad = file(25, &[tti(b"A\x7F")]);
    let with_digit = |digit: u8, file: &[u8]| [&[digit], file].concat();
    assert_eq!(printed(&with_digit(b'1', &good)), "0\n0\n1152\n0\n0\n");
    assert_eq!(printed(&with_digit(b'2', &bad)), "13\n0\n1041\n1\n127\n");
    assert_eq!(printed(&with_digit(b'3', &bad)), "1\n0\n1152\n0\n0\n");
    assert_eq!(printed(&with_digit(1, &bad)), "1\n0\n1152\n0\n0\n");
    assert_eq!(printed(b"1"), "2\n0\n0\n0\n0\n");
    assert_eq!(printed(b""), "1\n0\n0\n0\n0\n");
    assert_eq!(printed(&[b'1'; 1 + 65_536]), "3\n0\n3\n1\n49\n");
    assert_eq!(printed(&[b'1'; 1 + 65_537]), "too long\n");
    assert_eq!(printed(&[b'0'; 1 + 65_537]), "too long\n");
}

/// The number in front of the name is that of the file; all from 2 to 16 are there.
#[test]
fn refused_files() {
    let directory = Path::new(env!("CARGO_TARGET_TMPDIR")).join("refused");
    // What another version left there goes.
    let _ = fs::remove_dir_all(&directory);
    fs::create_dir_all(&directory).unwrap();
    let made = Command::new(env!("CARGO_BIN_EXE_refused")).arg(&directory).status().unwrap();
    assert!(made.success());
    let mut numbers = Vec::new();
    for entry in fs::read_dir(&directory).unwrap() {
        let path = entry.unwrap().path();
        let name = path.file_stem().unwrap().to_str().unwrap();
        let mode = if name.ends_with("mode-2") { 2 } else { 1 };
        let number = explain(&fs::read(&path).unwrap(), mode, 65_536).number;
        assert_eq!(name[..2].parse(), Ok(number), "{name}");
        numbers.push(number);
    }
    numbers.sort_unstable();
    numbers.dedup();
    assert_eq!(numbers, Vec::from_iter(2..=16));
}
