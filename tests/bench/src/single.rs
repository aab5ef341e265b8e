//! The inputs as files, and one converter alone.

use crate::before::BEFORE;
use crate::converter::{by_proved, by_second, room, Convert};
use crate::inputs::{inputs, longest_refused, refused};
use crate::lumps::{by_check, by_whole};
use crate::reasons::by_explainer;
use harness::CHECK_STORE;
use std::hint::black_box;
use std::path::Path;

pub fn run(arguments: &[String]) {
    let arguments: Vec<&str> = arguments.iter().map(String::as_str).collect();
    match arguments[..] {
        ["files", directory] => write_files(Path::new(directory)),
        [converter, file, times] => convert(converter, file, times.parse().expect("a number")),
        _ => panic!("usage: bench [files DIR | proved|second|before|explain|whole|check FILE N]"),
    }
}

fn write_files(directory: &Path) {
    for input in [inputs(), refused(), longest_refused()].into_iter().flatten() {
        let name = input.name.replace(", ", "-").replace([' ', ','], "-") + ".stl";
        std::fs::write(directory.join(name), &input.file).expect("the folder takes the files");
    }
}

fn convert(converter: &str, file: &str, times: usize) {
    let file = std::fs::read(file).expect("a file");
    let (convert, buffer) = named(converter, &file);
    let mut out = vec![0; buffer];
    for _ in 0..times {
        black_box(convert(black_box(&file), black_box(&mut out)));
    }
}

/// The function, and the length of the buffer it takes.
fn named(converter: &str, file: &[u8]) -> (Convert, usize) {
    match converter {
        "proved" => (by_proved, room(file)),
        "second" => (by_second, room(file)),
        "before" => (BEFORE.expect("MILURSAKE_BEFORE was not set when this was built"), room(file)),
        "explain" => (by_explainer, room(file)),
        "whole" => (by_whole, 0),
        "check" => (by_check, CHECK_STORE),
        _ => panic!("no such converter: {converter}"),
    }
}
