//! Compiler-style diagnostics: the API of `codespan-reporting` 0.13.1 over a renderer whose output
//! is proved.
//!
//! Build a [`Diagnostic`](diagnostic::Diagnostic) from labels on ranges of files, and emit it with
//! one of the functions of [`term`]. The files come from a file database:
//! [`SimpleFiles`](files::SimpleFiles), or a custom type that implements
//! [`Files`](files::Files).
//!
//! ```
//! use codespan_reporting::diagnostic::{Diagnostic, Label};
//! use codespan_reporting::files::SimpleFiles;
//! use codespan_reporting::term::{emit_into_string, Config};
//!
//! let mut files = SimpleFiles::new();
//! let settings = files.add("settings.conf", "retries = many\n");
//! let diagnostic = Diagnostic::error()
//!     .with_code("E0001")
//!     .with_message("invalid value for `retries`")
//!     .with_label(Label::primary(settings, 10..14).with_message("expected a number"));
//!
//! let output = emit_into_string(&Config::default(), &files, &diagnostic)?;
//! assert_eq!(
//!     output,
//!     "\
//! error[E0001]: invalid value for `retries`
//!   ┌─ settings.conf:1:11
//!   │
//! 1 │ retries = many
//!   │           ^^^^ expected a number
//!
//! "
//! );
//! # Ok::<(), codespan_reporting::files::Error>(())
//! ```
//!
//! What a hostile source could do to a terminal, [`extra::safe`] leaves out; [`extra::to_html`] and
//! [`extra::to_svg`] make documents.
//!
//! # Building
//!
//! The library is linked from an archive: the file whose absolute path is the environment variable
//! `CODESPAN_ARCHIVE`, or the one that `rt lib` makes in the repository of this crate.
//!
//! # Features
//!
//! - `termcolor` (default): colors, by [`Styles`](term::Styles) and any `termcolor::WriteColor`. It
//!   needs `std`.
//! - `std` (default): writers are `std::io::Write`. Without it they are `core::fmt::Write`.
//! - `serialization`: `serde` for the types of [`diagnostic`].

#![deny(unsafe_code)]
#![warn(missing_docs)]
#![cfg_attr(not(feature = "std"), no_std)]

extern crate alloc;

pub mod diagnostic;
pub mod extra;
pub mod files;
mod native;
pub mod term;
