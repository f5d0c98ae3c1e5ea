//! Says where the C archive is: VULCEDAR_LIB_DIR, or else target/staticlib at
//! the root of the repository.

use std::env;
use std::path::PathBuf;

const VARIABLE: &str = "VULCEDAR_LIB_DIR";
const ARCHIVE: &str = "libvulcedar.a";

fn main() {
    let directory = env::var_os(VARIABLE).map_or_else(usual_directory, PathBuf::from);
    println!("cargo::rerun-if-env-changed={VARIABLE}");
    println!("cargo::rerun-if-changed={}", directory.join(ARCHIVE).display());
    println!("cargo::rustc-link-search=native={}", directory.display());
    // Not bundled: the archive is asked for when a program is linked, not
    // when this library is compiled.
    println!("cargo::rustc-link-lib=static:-bundle=vulcedar");
}

fn usual_directory() -> PathBuf {
    let here = env::var_os("CARGO_MANIFEST_DIR").expect("cargo sets this for a build script");
    PathBuf::from(here).join("../../target/staticlib")
}
