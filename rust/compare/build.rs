//! Whether the oracle was built with the crate's files.

fn main() {
    println!("cargo:rustc-check-cfg=cfg(i_overlay)");
    if std::env::var_os("DEP_I_OVERLAY_FOUND").is_some() {
        println!("cargo:rustc-cfg=i_overlay");
    }
}
