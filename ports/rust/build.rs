//! Links the two archives: LIBMCS, else what `rt lib` leaves, and LIBHEAP, which is the kit's.
use std::env;
use std::path::{Path, PathBuf};

/// Links the archive in a file `libNAME.a`.
fn link(file: &Path) {
    let name = file
        .file_stem()
        .and_then(|stem| stem.to_str())
        .and_then(|stem| stem.strip_prefix("lib"));
    let (Some(name), Some(folder)) = (name, file.parent()) else {
        panic!("{} is not named libNAME.a", file.display());
    };
    assert!(
        file.is_file(),
        "{} is not there: ports/README.md says how to build it",
        file.display()
    );
    println!("cargo:rerun-if-changed={}", file.display());
    println!("cargo:rustc-link-search=native={}", folder.display());
    println!("cargo:rustc-link-lib=static={name}");
}

/// Returns the file that a variable names.
fn named(variable: &str) -> Option<PathBuf> {
    println!("cargo:rerun-if-env-changed={variable}");
    env::var_os(variable).map(PathBuf::from)
}

fn main() {
    let here = PathBuf::from(env::var_os("CARGO_MANIFEST_DIR").expect("cargo names its folder"));
    let built = here.join("../../crates/mcs_c/out/libmcs_c.a");
    link(&named("LIBMCS").unwrap_or(built));
    link(&named("LIBHEAP").expect("LIBHEAP is the kit's c/liblibc_c.a"));
}
