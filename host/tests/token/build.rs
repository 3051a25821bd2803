//! Links the token's archive, which `host/build` makes.

use std::env;
use std::path::{Path, PathBuf};

/// Names a directory with another `libtoken.a`.
const DIRECTORY: &str = "UAF_TOKEN_LIB_DIR";

fn main() {
    let built = Path::new(env!("CARGO_MANIFEST_DIR")).join("../../../target/staticlib");
    let directory = env::var_os(DIRECTORY).map_or(built, PathBuf::from);
    let archive = directory.join("libtoken.a");
    assert!(
        archive.is_file(),
        "no {}: run `host/build`, or set {}",
        archive.display(),
        DIRECTORY
    );
    println!("cargo:rerun-if-env-changed={}", DIRECTORY);
    println!("cargo:rerun-if-changed={}", archive.display());
    println!("cargo:rustc-link-search=native={}", directory.display());
    println!("cargo:rustc-link-lib=static=token");
}
