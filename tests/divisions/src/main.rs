//! Where Rattle sources divide: `divisions none FILE...` finds every `/` and `%`,
//! `divisions powers FILE...` those whose divisor is no power of two. Each is
//! printed with its place; status 0 if there is none.

mod code;
mod constants;
mod divisors;

use constants::Constants;
use std::process::ExitCode;
use std::{env, fs, io};

fn main() -> ExitCode {
    let mut args = env::args().skip(1);
    let powers = match args.next().as_deref() {
        Some("none") => false,
        Some("powers") => true,
        _ => return usage(),
    };
    let files: Vec<String> = args.collect();
    if files.is_empty() {
        return usage();
    }
    match refused(&files, powers) {
        Ok(0) => ExitCode::SUCCESS,
        Ok(_) => ExitCode::FAILURE,
        Err(error) => {
            eprintln!("divisions: {error}");
            ExitCode::from(2)
        }
    }
}

fn usage() -> ExitCode {
    eprintln!("usage: divisions none|powers FILE...");
    ExitCode::from(2)
}

/// Prints the divisions of the files, but those by powers of two if these may stand,
/// and counts them.
fn refused(files: &[String], powers: bool) -> io::Result<usize> {
    let mut sources = Vec::new();
    for file in files {
        let text = fs::read_to_string(file).map_err(|e| io::Error::other(format!("{file}: {e}")))?;
        sources.push((file, code::alone(&text)));
    }
    let constants = Constants::of(sources.iter().map(|(_, code)| code.as_str()));
    let mut count = 0;
    for (file, code) in &sources {
        for division in divisors::divisions(code) {
            if !(powers && constants.is_power_of_two(&division.divisor)) {
                println!("{file}:{}: {} {}", division.line, division.operator, division.divisor);
                count += 1;
            }
        }
    }
    Ok(count)
}

#[cfg(test)]
mod tests {
    use super::*;

    /// How numbers were printed before they were printed by subtraction.
    const OLD: &str = concat!(env!("CARGO_MANIFEST_DIR"), "/old-code.txt");

    #[test]
    fn the_old_code_is_refused() {
        let files = [OLD.to_string()];
        assert_eq!(refused(&files, false).unwrap(), 8);
        assert_eq!(refused(&files, true).unwrap(), 8);
    }

    #[test]
    fn a_file_that_is_missing_is_an_error() {
        assert!(refused(&["no-such-file".to_string()], true).is_err());
    }
}
