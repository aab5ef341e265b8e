//! Links the proved library: MILURSAKE_LIB names the directory that holds
//! libmilursake.a. Tells the length of a check's store, which the header has.

use std::fs;
use std::path::Path;

const HEADER: &str = "../../include/milursake.h";
const STORE: &str = "MILURSAKE_CHECK_STORE";

fn main() {
    println!("cargo:rerun-if-env-changed=MILURSAKE_LIB");
    let Ok(directory) = std::env::var("MILURSAKE_LIB") else {
        panic!("set MILURSAKE_LIB to the directory that holds libmilursake.a");
    };
    let archive = Path::new(&directory).join("libmilursake.a");
    assert!(archive.is_absolute(), "MILURSAKE_LIB is not an absolute path: {directory}");
    assert!(archive.is_file(), "there is no {}", archive.display());
    println!("cargo:rerun-if-changed={}", archive.display());
    println!("cargo:rustc-link-search=native={directory}");
    println!("cargo:rustc-link-lib=static=milursake");
    println!("cargo:rerun-if-changed={HEADER}");
    println!("cargo:rustc-env={STORE}={}", store_length());
}

/// The plain decimal number behind the name.
fn store_length() -> usize {
    let header = fs::read_to_string(HEADER).expect("the header is there");
    let defined = header.lines().find_map(|line| line.strip_prefix("#define ")?.strip_prefix(STORE));
    let length = defined.and_then(|length| length.trim().parse().ok());
    length.unwrap_or_else(|| panic!("{HEADER} has no number for {STORE}"))
}
