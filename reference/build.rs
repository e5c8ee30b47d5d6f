//! Links the proved meter where its static library is there: in the directory
//! that METER_LIB names, else where ./library puts it.

use std::env;
use std::path::{Path, PathBuf};
use std::process::Command;

fn main() {
    println!("cargo:rustc-check-cfg=cfg(proved)");
    println!("cargo:rerun-if-env-changed=METER_LIB");
    let directory = match env::var_os("METER_LIB") {
        Some(named) => PathBuf::from(named),
        None => own_path("CARGO_MANIFEST_DIR").join("../lib"),
    };
    let library = directory.join("libmeter.a");
    println!("cargo:rerun-if-changed={}", library.display());
    if env::var_os("METER_LIB").is_some() || library.exists() {
        let directory = without_panic_handler(&library).unwrap_or(directory);
        println!("cargo:rustc-link-search=native={}", directory.display());
        println!("cargo:rustc-link-lib=static=meter");
        println!("cargo:rustc-cfg=proved");
    }
}

fn own_path(name: &str) -> PathBuf {
    PathBuf::from(env::var_os(name).expect("set for every build"))
}

/// A library without the standard one brings a panic handler of its own, and
/// a program may have just one. In a copy of the library it is made weak, so
/// that the standard one is taken. Answers the directory of the copy, or none
/// where it could not be made; then the library is linked as it is.
fn without_panic_handler(library: &Path) -> Option<PathBuf> {
    let directory = own_path("OUT_DIR");
    let made = Command::new("objcopy")
        .args(["--wildcard", "--weaken-symbol=*rust_begin_unwind"])
        .args(["--weaken-symbol=rust_eh_personality"])
        .args([library, &directory.join("libmeter.a")])
        .status();
    made.is_ok_and(|status| status.success())
        .then_some(directory)
}
