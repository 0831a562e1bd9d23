//! Links the archive of the proved library, and takes the version from its header.

use std::env;
use std::fs;
use std::path::PathBuf;

/// The environment variable that names the archive, where it stands elsewhere.
const ARCHIVE: &str = "DRUMBOOK_ARCHIVE";

/// The archive's place from this folder, where the variable is not set.
const PLACE: &str = "../target/staticlib/libdrumbook.a";

/// The header's place from this folder.
const HEADER: &str = "../include/drumbook.h";

/// Says where the archive is, and which version it is.
fn main() {
    let here = PathBuf::from(env::var_os("CARGO_MANIFEST_DIR").expect("set by cargo"));
    let archive = env::var_os(ARCHIVE).map_or_else(|| here.join(PLACE), PathBuf::from);
    println!("cargo:rerun-if-env-changed={ARCHIVE}");
    println!("cargo:rerun-if-changed=build.rs");
    println!("cargo:rerun-if-changed={}", archive.display());
    println!("cargo:rustc-link-arg={}", archive.display());
    let header = here.join(HEADER);
    println!("cargo:rerun-if-changed={}", header.display());
    let header = fs::read_to_string(header).expect("the header");
    let number = |name: &str| {
        let (_, rest) = header.split_once(name).expect(name);
        rest.split_whitespace().next().expect(name).to_string()
    };
    let [major, minor, patch] = ["_MAJOR ", "_MINOR ", "_PATCH "]
        .map(|part| number(&format!("#define DRUMBOOK_VERSION{part}")));
    println!("cargo:rustc-env=DRUMBOOK_VERSION={major}.{minor}.{patch}");
}
