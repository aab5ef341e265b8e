//! What feeding in lumps costs: the proved check beside the check in one piece,
//! which is the proved converter with an empty buffer.

use crate::converter::{repeats_and_measurements, Converter, MODE};
use crate::figures::{grouped, microseconds, nanoseconds_each};
use crate::inputs::Input;
use crate::pair::Pair;
use harness::{check_close, check_feed, check_open, CHECK_STORE};

/// As a program reads them.
const LUMP: usize = 4096;

/// Both answer what an empty buffer is answered.
const ROOM: u64 = 0;

/// The check in one piece and in lumps. Compares the answers with that of the
/// second converter, which also warms up.
pub fn pair(input: Input) -> Pair {
    let (mut whole, mut lumps) = (Converter::new(by_whole, 0), Converter::new(by_check, CHECK_STORE));
    let expected = second::answer(&input.file, MODE, ROOM).numbers();
    assert_eq!(whole.convert(&input.file), expected, "{}: the answers differ", input.name);
    assert_eq!(lumps.convert(&input.file), expected, "{}: the answers in lumps differ", input.name);
    Pair::new(input, whole, lumps)
}

/// The check byte by byte.
pub struct Bytes {
    input: Input,
    check: Converter,
    repeats: u32,
    measurements: u32,
}

impl Bytes {
    pub fn new(input: Input) -> Bytes {
        let mut check = Converter::new(by_byte, CHECK_STORE);
        let expected = second::answer(&input.file, MODE, ROOM).numbers();
        assert_eq!(check.convert(&input.file), expected, "{}: the answers by bytes differ", input.name);
        let (repeats, measurements) = repeats_and_measurements(&mut check, &input.file);
        Bytes { input, check, repeats, measurements }
    }

    pub fn measure(&mut self) {
        self.check.measure(&self.input.file, self.repeats, self.measurements);
    }
}

/// The buffer is not touched: an empty one is lent.
pub fn by_whole(file: &[u8], _: &mut [u8]) -> [u64; 8] {
    let mut numbers = [0; 8];
    harness::convert(file, MODE, &mut [], &mut numbers);
    numbers
}

/// The buffer is the store.
pub fn by_check(file: &[u8], store: &mut [u8]) -> [u64; 8] {
    fed(file, store, LUMP)
}

fn by_byte(file: &[u8], store: &mut [u8]) -> [u64; 8] {
    fed(file, store, 1)
}

fn fed(file: &[u8], store: &mut [u8], lump: usize) -> [u64; 8] {
    let mut numbers = [0; 8];
    check_open(store, MODE, ROOM);
    file.chunks(lump).for_each(|lump| check_feed(store, lump));
    check_close(store, &mut numbers);
    numbers
}

pub fn print_lumps(pairs: &[Pair], bytes: &[Bytes]) {
    println!("| Fed in lumps | Blocks | In one piece, µs | In lumps, µs | Ratio |");
    println!("|---|---:|---:|---:|---:|");
    for pair in pairs {
        println!(
            "| {} | {} | {:.1} | {:.1} | {:.2} |",
            pair.input.name,
            grouped(pair.input.blocks()),
            microseconds(pair.usual.best),
            microseconds(pair.other.best),
            pair.ratio(),
        );
    }
    println!();
    println!(
        "Both proved, on the same file in turn, for a room of 0 bytes. In one piece: the converter with"
    );
    println!("an empty buffer, which reads all and writes nothing. In lumps: the check, opened, fed with");
    println!("{} bytes at a time and closed. Ratio: how many times as long it takes.", grouped(LUMP));
    println!();
    println!("| Fed byte by byte | Bytes | Time per byte, ns |");
    println!("|---|---:|---:|");
    for Bytes { input, check, .. } in bytes {
        let length = input.file.len();
        println!("| {} | {} | {:.1} |", input.name, grouped(length), nanoseconds_each(length, check.best));
    }
    println!();
    println!("The time per byte is that of a call; it must not grow with the file.");
}
