//! Finds the proved library, which `./build-library cabi` makes: in the repository's target folder, or where CIWETANOS_LIB says.

use std::env;
use std::path::{Path, PathBuf};

fn main() {
    println!("cargo:rerun-if-env-changed=CIWETANOS_LIB");
    let folder = match env::var_os("CIWETANOS_LIB") {
        Some(path) => PathBuf::from(path),
        None => Path::new(&env::var("CARGO_MANIFEST_DIR").unwrap()).join("../../target/staticlib"),
    };
    let library = folder.join("libcabi.a");
    println!("cargo:rerun-if-changed={}", library.display());
    if !library.is_file() {
        eprintln!("{} is not there.", library.display());
        eprintln!("Make it by `./build-library cabi` at the root of the repository, or say by CIWETANOS_LIB in which folder it is.");
        std::process::exit(1);
    }
    println!("cargo:rustc-link-search=native={}", folder.display());
    println!("cargo:rustc-link-lib=static=cabi");
}
