//! Links the archive under test into the programs: CIKENUMA_LIB names it, or it is the repository's own.

use std::env;
use std::path::{Path, PathBuf};

fn main() {
    let package = env::var("CARGO_MANIFEST_DIR").expect("cargo names the package's directory");
    let own = Path::new(&package).join("../../target/staticlib/libportal.a");
    let archive = env::var_os("CIKENUMA_LIB").map_or(own, PathBuf::from);
    println!("cargo:rerun-if-env-changed=CIKENUMA_LIB");
    println!("cargo:rerun-if-changed={}", archive.display());
    println!("cargo:rustc-link-arg-bins={}", archive.display());
}
