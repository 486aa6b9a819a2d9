//! Links the archive `libsnowknoll.a`.

use std::env;
use std::path::PathBuf;
use std::process;

/// The folder of the archive: SNOWKNOLL_LIB, or where bin/library of this repository leaves it.
fn folder() -> PathBuf {
    match env::var_os("SNOWKNOLL_LIB") {
        Some(given) if !given.is_empty() => PathBuf::from(given),
        _ => PathBuf::from(env::var_os("CARGO_MANIFEST_DIR").unwrap_or_default())
            .join("../../target/lib"),
    }
}

fn main() {
    let folder = folder();
    let archive = folder.join("libsnowknoll.a");
    println!("cargo:rerun-if-env-changed=SNOWKNOLL_LIB");
    println!("cargo:rerun-if-changed={}", archive.display());
    if !archive.is_file() {
        eprintln!(
            "there is no {}: run bin/library at the top of the repository, or set SNOWKNOLL_LIB to the \
             archive's folder (an absolute path)",
            archive.display()
        );
        process::exit(1);
    }
    println!("cargo:rustc-link-search=native={}", folder.display());
    println!("cargo:rustc-link-lib=static=snowknoll");
}
