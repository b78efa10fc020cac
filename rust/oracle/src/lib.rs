//! The integer core of i_overlay 9.0.1, run by document 01, beside a model written from document 01 alone.
//!
//! The crate's files are compiled where they lie (see build.rs); `shims` holds our own plain code for what they import.
//! Where the files are not found, only the model is built.

// What the files import from three other crates is found here, at the root.
#[cfg(i_overlay)]
extern crate alloc;
#[cfg(i_overlay)]
extern crate self as i_float;
#[cfg(i_overlay)]
extern crate self as i_key_sort;
#[cfg(i_overlay)]
extern crate self as i_tree;

#[cfg(i_overlay)]
mod shims;
#[cfg(i_overlay)]
pub(crate) use shims::{
    build, core, float::int, float::triangle, geom, segm, sort, split, tree::key, tree::Expiration, util,
};

pub mod cases;
#[cfg(i_overlay)]
pub mod compare;
pub mod inputs;
pub mod model;
#[cfg(i_overlay)]
mod oracle;
mod outcome;
#[cfg(i_overlay)]
pub mod parts;
pub mod random;
pub mod text;

#[cfg(i_overlay)]
pub use oracle::{cross, fill, keep, merge, run, run_as_crate};
pub use outcome::{Cross, Kind, Lists, Outcome, Row, Settings};

/// What the programs and tests say where the crate's files are not found.
pub const SKIPPED: &str = "skipped: the i_overlay sources were not found; set I_OVERLAY_SRC to the crate's src folder";
