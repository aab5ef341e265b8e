//! Links an earlier proved library too, if MILURSAKE_BEFORE names the directory
//! that holds it: libmilursake.a, or libconvert.a as it was called once. Its
//! functions get other names, so that both can be linked; an earlier one may not
//! have all of them, which does not matter.

use std::path::{Path, PathBuf};
use std::process::Command;

const NAMES: [&str; 2] = ["libmilursake.a", "libconvert.a"];
const FUNCTIONS: [&str; 5] = [
    "milursake_convert",
    "milursake_explain",
    "milursake_check_open",
    "milursake_check_feed",
    "milursake_check_close",
];

fn main() {
    println!("cargo:rustc-check-cfg=cfg(before)");
    println!("cargo:rerun-if-env-changed=MILURSAKE_BEFORE");
    let Ok(directory) = std::env::var("MILURSAKE_BEFORE") else { return };
    let archive = archive_in(Path::new(&directory));
    println!("cargo:rerun-if-changed={}", archive.display());
    let out = PathBuf::from(std::env::var("OUT_DIR").unwrap());
    let renamed = Command::new("objcopy")
        .args(FUNCTIONS.map(|name| format!("--redefine-sym={name}={name}_before")))
        .args([&archive, &out.join("libbefore.a")])
        .status();
    assert!(renamed.is_ok_and(|status| status.success()), "objcopy cannot rename in {}", archive.display());
    println!("cargo:rustc-link-search=native={}", out.display());
    println!("cargo:rustc-link-lib=static=before");
    println!("cargo:rustc-cfg=before");
}

fn archive_in(directory: &Path) -> PathBuf {
    assert!(directory.is_absolute(), "MILURSAKE_BEFORE is not an absolute path: {}", directory.display());
    let found = NAMES.iter().map(|name| directory.join(name)).find(|archive| archive.is_file());
    found.unwrap_or_else(|| panic!("there is none of {NAMES:?} in {}", directory.display()))
}
