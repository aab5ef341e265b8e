//! The proved converter and the second converter on the same inputs, in turn, and
//! with them an earlier proved one if MILURSAKE_BEFORE names its library; then the
//! proved explainer beside the proved converter on refused files, and the proved
//! check, fed in lumps. Prints tables in Markdown. Status 1 if the explanation of a
//! film takes more than twice as long as its conversion.
//!
//! `bench files DIR` writes the inputs to files; `bench
//! proved|second|before|explain|whole|check FILE N` takes a file N times and does
//! nothing else, for a profiler.

mod before;
mod converter;
mod figures;
mod inputs;
mod lumps;
mod pair;
mod reasons;
mod single;
mod words;

use before::BEFORE;
use converter::Race;
use figures::{grouped, nanoseconds_each, ratio, speed};
use inputs::{growing, inputs, longest_refused, refused, LARGEST, SHORTER};
use lumps::{print_lumps, Bytes};
use pair::Pair;
use reasons::{print_reasons, Reason, MOST};
use std::process::ExitCode;
use std::time::{Duration, Instant};

/// Rounds over all inputs; the best counts, because whatever else runs can only
/// make a conversion longer. Fewer if they take too long.
const ROUNDS: usize = 60;
const LONGEST: Duration = Duration::from_secs(60);

/// In so many rounds the files are fed byte by byte once, which takes long.
const ROUNDS_PER_BYTES: usize = 10;

fn main() -> ExitCode {
    let arguments: Vec<String> = std::env::args().skip(1).collect();
    if !arguments.is_empty() {
        single::run(&arguments);
        return ExitCode::SUCCESS;
    }
    let mut races: Vec<Race> = inputs().into_iter().map(Race::new).collect();
    let mut films: Vec<Reason> = refused().into_iter().map(Reason::new).collect();
    let mut longest: Vec<Reason> = longest_refused().into_iter().map(Reason::new).collect();
    let mut lumps: Vec<Pair> = inputs().into_iter().map(lumps::pair).collect();
    let mut bytes: Vec<Bytes> = growing().into_iter().map(Bytes::new).collect();
    let start = Instant::now();
    let mut rounds = 0;
    // Round after round over all inputs, so that a slow spell does not fall on
    // one of them alone.
    while rounds < ROUNDS && (rounds == 0 || start.elapsed() < LONGEST) {
        races.iter_mut().for_each(|race| race.measure(rounds));
        films.iter_mut().chain(&mut longest).for_each(|reason| reason.pair.measure(rounds));
        lumps.iter_mut().for_each(|pair| pair.measure(rounds));
        if rounds.is_multiple_of(ROUNDS_PER_BYTES) {
            bytes.iter_mut().for_each(Bytes::measure);
        }
        rounds += 1;
    }
    print_speeds(&races, rounds);
    let named = |name| races.iter().find(|race| race.input.name == name);
    if let (Some(shorter), Some(largest)) = (named(SHORTER), named(LARGEST)) {
        println!();
        print_growth(shorter, largest);
    }
    println!();
    let highest = films.iter().map(|reason| reason.pair.ratio()).fold(0.0, f64::max);
    print_reasons(films.iter().chain(&longest), highest);
    println!();
    print_lumps(&lumps, &bytes);
    if highest <= MOST {
        ExitCode::SUCCESS
    } else {
        ExitCode::FAILURE
    }
}

fn print_speeds(races: &[Race], rounds: usize) {
    let (more, lines) = match BEFORE {
        Some(_) => (" Before, MB/s | Now to before |", "---:|---:|"),
        None => ("", ""),
    };
    println!("| Input | Bytes | Blocks | Proved, MB/s | Second, MB/s | Ratio |{more}");
    println!("|---|---:|---:|---:|---:|---:|{lines}");
    for race in races {
        let bytes = race.input.file.len();
        let (proved, second) = (race.proved.best, race.second.best);
        print!(
            "| {} | {} | {} | {:.1} | {:.1} | {:.2} |",
            race.input.name,
            grouped(bytes),
            grouped(race.input.blocks()),
            speed(bytes, proved),
            speed(bytes, second),
            ratio(second, proved),
        );
        match &race.before {
            Some(before) => {
                println!(" {:.1} | {:.2} |", speed(bytes, before.best), ratio(before.best, proved))
            }
            None if BEFORE.is_some() => println!(" – | – |"),
            None => println!(),
        }
    }
    println!();
    println!("MB/s: millions of bytes of the STL file in a second. Ratio: above 1 the proved converter is");
    println!("faster. Best of {rounds} rounds, the converters in turn. Each has its own output buffer,");
    println!("which is not cleared between conversions. All answers and documents of these two were");
    println!("compared first.");
    if BEFORE.is_some() {
        println!("Now to before: above 1 the proved converter is faster than the earlier one, which is");
        println!("measured where it takes the file; its document may be another.");
    }
}

/// Time per block at both lengths; factor 1 is the straight line.
fn print_growth(shorter: &Race, largest: &Race) {
    let (few, many) = (shorter.input.blocks(), largest.input.blocks());
    println!("| Time per block | {} blocks, ns | {} blocks, ns | Factor |", grouped(few), grouped(many));
    println!("|---|---:|---:|---:|");
    print_factor(
        "proved",
        nanoseconds_each(few, shorter.proved.best),
        nanoseconds_each(many, largest.proved.best),
    );
    print_factor(
        "second",
        nanoseconds_each(few, shorter.second.best),
        nanoseconds_each(many, largest.second.best),
    );
    println!();
    println!("Factor: 1 is the straight line, {:.0} would be the square.", many as f64 / few as f64);
}

fn print_factor(name: &str, short: f64, long: f64) {
    println!("| {name} | {short:.0} | {long:.0} | {:.2} |", long / short);
}
