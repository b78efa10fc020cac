//! Finds the crate's files and writes, into OUT_DIR, one `mod` line for each that points to where it lies.

use std::path::{Path, PathBuf};
use std::{env, fs};

/// The five files of document 01.
const FILES: [&str; 5] =
    ["segm/merge.rs", "split/cross_solver.rs", "split/solver.rs", "build/boolean.rs", "build/sweep.rs"];

/// The crate's own outer loop. Only the count of differences uses it, so it may be missing.
const OWN_LOOP: &str = "split/solver_list.rs";

fn main() {
    println!("cargo:rerun-if-env-changed=I_OVERLAY_SRC");
    println!("cargo:rustc-check-cfg=cfg(i_overlay, own_loop)");
    let folder = folder();
    let missing: Vec<&str> = FILES.into_iter().filter(|file| !folder.join(file).is_file()).collect();
    for file in FILES.iter().chain([&OWN_LOOP]) {
        println!("cargo:rerun-if-changed={}", folder.join(file).display());
    }
    if !missing.is_empty() {
        println!("cargo:warning=no i_overlay sources: {} is not in {}", missing.join(", "), folder.display());
        println!("cargo:warning=set I_OVERLAY_SRC to the crate's src folder; until then all comparisons are skipped");
        return;
    }
    println!("cargo:rustc-cfg=i_overlay");
    println!("cargo:found=1");
    FILES.iter().for_each(|file| point_to(&folder, file));
    if folder.join(OWN_LOOP).is_file() {
        println!("cargo:rustc-cfg=own_loop");
        point_to(&folder, OWN_LOOP);
    }
}

/// Where I_OVERLAY_SRC says, or else beside the repository.
fn folder() -> PathBuf {
    match env::var_os("I_OVERLAY_SRC") {
        Some(path) => PathBuf::from(path),
        None => Path::new(&env::var("CARGO_MANIFEST_DIR").unwrap()).join("../../../shared/docs/src"),
    }
}

/// Writes OUT_DIR/NAME.rs with `mod NAME;` and the file's path.
fn point_to(folder: &Path, file: &str) {
    let path = fs::canonicalize(folder.join(file)).unwrap();
    let name = path.file_stem().unwrap().to_str().unwrap().to_owned();
    let line = format!("#[path = {path:?}]\npub(crate) mod {name};\n");
    let out = PathBuf::from(env::var("OUT_DIR").unwrap()).join(format!("{name}.rs"));
    fs::write(out, line).unwrap();
}
