//! Finds the archive of the proved library, and says what to do where there is none.

use std::env;
use std::path::{Path, PathBuf};

const VARIABLE: &str = "EZHERBUT_ARCHIVE";

fn archive() -> PathBuf {
    match env::var_os(VARIABLE) {
        Some(path) => PathBuf::from(path),
        None => {
            let here = env::var_os("CARGO_MANIFEST_DIR").expect("cargo sets CARGO_MANIFEST_DIR");
            Path::new(&here).join("../../target/native/libexports.a")
        }
    }
}

/// The library's name in `libNAME.a`.
fn name(archive: &Path) -> Option<&str> {
    archive.file_name()?.to_str()?.strip_prefix("lib")?.strip_suffix(".a")
}

fn main() {
    println!("cargo:rerun-if-env-changed={VARIABLE}");
    let archive = archive();
    println!("cargo:rerun-if-changed={}", archive.display());
    let (Some(name), Some(folder), true) = (name(&archive), archive.parent(), archive.is_file()) else {
        eprintln!("ezherbut: no archive at {}", archive.display());
        eprintln!("ezherbut: run `tools/archive exports` at the root of the repository, which proves the library and writes");
        eprintln!("ezherbut: target/native/libexports.a, or set {VARIABLE} to the path of a libexports.a for this machine");
        std::process::exit(1);
    };
    println!("cargo:rustc-link-search=native={}", folder.display());
    println!("cargo:rustc-link-lib=static={name}");
}
