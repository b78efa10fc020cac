//! Our own plain code for what the crate's files import, in the places where they look for it.

// The files hold more than the run uses.
#![allow(dead_code)]

pub(crate) mod build;
pub(crate) mod core;
pub(crate) mod float;
pub(crate) mod geom;
pub(crate) mod segm;
pub(crate) mod sort;
pub(crate) mod split;
pub(crate) mod tree;
pub(crate) mod util;
