//! The crate `codespan-reporting-proved` by the name and the version of the original, for a
//! `[patch.crates-io]`: each package of a dependency tree that names `codespan-reporting` then has
//! the proved rendering, and its source stays as it is.

#![no_std]

pub use proved::*;
