//! Measures the converters on one input.

use crate::before::BEFORE;
use crate::inputs::Input;
use std::hint::black_box;
use std::time::{Duration, Instant};

/// Break mode of all conversions.
pub const MODE: u64 = 1;

/// Short conversions are repeated until a measurement takes about this long: not
/// longer, so that other work on the machine leaves some of them alone.
const MEASUREMENT: Duration = Duration::from_micros(500);

/// The measurements of one round take about this long together.
const TURN: Duration = Duration::from_millis(10);

/// File and output buffer to the eight numbers.
pub type Convert = fn(&[u8], &mut [u8]) -> [u64; 8];

/// A converter with its own buffer, as one that is called again and again.
pub struct Converter {
    convert: Convert,
    out: Vec<u8>,
    /// The shortest time of one conversion so far.
    pub best: Duration,
}

impl Converter {
    pub fn new(convert: Convert, room: usize) -> Converter {
        Converter { convert, out: vec![0; room], best: Duration::MAX }
    }

    pub fn convert(&mut self, file: &[u8]) -> [u64; 8] {
        (self.convert)(black_box(file), black_box(&mut self.out))
    }

    /// The converter, if it gives an answer that differs in the length at most.
    fn if_it_gives(mut self, answer: [u64; 8], file: &[u8]) -> Option<Converter> {
        let own = self.convert(file);
        let alike = own[..2] == answer[..2] && own[3..] == answer[3..];
        alike.then_some(self)
    }

    /// The time of one conversion, taken over `repeats`.
    fn time(&mut self, file: &[u8], repeats: u32) -> Duration {
        let start = Instant::now();
        for _ in 0..repeats {
            black_box(self.convert(file));
        }
        start.elapsed() / repeats
    }

    pub fn measure(&mut self, file: &[u8], repeats: u32, measurements: u32) {
        for _ in 0..measurements {
            self.best = self.best.min(self.time(file, repeats));
        }
    }
}

/// All converters on one input.
pub struct Race {
    pub input: Input,
    pub proved: Converter,
    pub second: Converter,
    pub before: Option<Converter>,
    repeats: u32,
    measurements: u32,
}

impl Race {
    /// Compares answers and documents, which also warms up. An earlier library may
    /// write another document, but it is measured only where it takes the file.
    pub fn new(input: Input) -> Race {
        let room = room(&input.file);
        let new = |convert| Converter::new(convert, room);
        let (proved, second) = (new(by_proved), new(by_second));
        let mut race = Race { input, proved, second, before: None, repeats: 1, measurements: 1 };
        let answer = race.compare();
        race.before = BEFORE.map(new).and_then(|before| before.if_it_gives(answer, &race.input.file));
        (race.repeats, race.measurements) = repeats_and_measurements(&mut race.proved, &race.input.file);
        race
    }

    fn compare(&mut self) -> [u64; 8] {
        let Race { input, proved, second, .. } = self;
        let answer = proved.convert(&input.file);
        assert_eq!(answer, second.convert(&input.file), "{}: the answers differ", input.name);
        assert!(proved.out == second.out, "{}: the documents differ", input.name);
        answer
    }

    /// One measurement of each; another one goes first in the next round.
    pub fn measure(&mut self, round: usize) {
        let Race { input, proved, second, before, repeats, measurements } = self;
        let mut order: Vec<_> = [proved, second].into_iter().chain(before).collect();
        let first = round % order.len();
        order.rotate_left(first);
        for converter in order {
            converter.measure(&input.file, *repeats, *measurements);
        }
    }
}

/// How many conversions make a measurement, and how many measurements a turn.
pub fn repeats_and_measurements(converter: &mut Converter, file: &[u8]) -> (u32, u32) {
    let once = converter.time(file, 1);
    let repeats = times(MEASUREMENT, once);
    (repeats, times(TURN, once * repeats))
}

/// How often a time goes into a longer one, at least once.
fn times(longer: Duration, time: Duration) -> u32 {
    (longer.as_nanos() / time.as_nanos().max(1)).clamp(1, 10_000) as u32
}

/// The length needed comes back for an empty buffer; if the file is refused
/// before, the buffer does not matter.
pub fn room(file: &[u8]) -> usize {
    match by_second(file, &mut [])[2] as usize {
        0 => file.len(),
        needed => needed,
    }
}

pub fn by_proved(file: &[u8], out: &mut [u8]) -> [u64; 8] {
    let mut answer = [0; 8];
    harness::convert(file, MODE, out, &mut answer);
    answer
}

pub fn by_second(file: &[u8], out: &mut [u8]) -> [u64; 8] {
    second::convert(file, MODE, out).numbers()
}
