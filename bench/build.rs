//! Links the single parts, which `./build-library cabi_parts` makes, beside the library; says whether the oracle was built with the crate's files.

use std::env;
use std::path::{Path, PathBuf};

fn main() {
    println!("cargo:rustc-check-cfg=cfg(i_overlay)");
    println!("cargo:rerun-if-env-changed=CIWETANOS_LIB");
    if env::var_os("DEP_I_OVERLAY_FOUND").is_some() {
        println!("cargo:rustc-cfg=i_overlay");
    }
    let folder = match env::var_os("CIWETANOS_LIB") {
        Some(path) => PathBuf::from(path),
        None => Path::new(&env::var("CARGO_MANIFEST_DIR").unwrap()).join("../target/staticlib"),
    };
    let library = folder.join("libcabi_parts.a");
    println!("cargo:rerun-if-changed={}", library.display());
    if !library.is_file() {
        eprintln!(
            "{} is not there: make it by `./build-library cabi_parts` at the root of the repository.",
            library.display()
        );
        std::process::exit(1);
    }
    println!("cargo:rustc-link-search=native={}", folder.display());
    println!("cargo:rustc-link-lib=static=cabi_parts");
}
