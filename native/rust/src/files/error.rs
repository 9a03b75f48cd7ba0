//! Why a diagnostic could not be rendered.

use core::fmt::{self, Display};

/// Why a diagnostic could not be rendered: a lookup or a writer failed.
#[derive(Debug)]
#[non_exhaustive]
pub enum Error {
    /// The file database has no file of the id.
    FileMissing,
    /// The file has no byte of the index.
    IndexTooLarge {
        /// The byte index.
        given: usize,
        /// The greatest valid byte index.
        max: usize,
    },
    /// The file has no line of the index.
    LineTooLarge {
        /// The line index.
        given: usize,
        /// The greatest valid line index.
        max: usize,
    },
    /// The line has no column of the index.
    ColumnTooLarge {
        /// The column index.
        given: usize,
        /// The greatest valid column index.
        max: usize,
    },
    /// The byte index is inside a character.
    InvalidCharBoundary {
        /// The byte index.
        given: usize,
    },
    /// A writer failed, or a lookup that reads.
    #[cfg(feature = "std")]
    Io(std::io::Error),
    /// Formatting failed.
    FormatError,
}

impl Display for Error {
    fn fmt(&self, f: &mut fmt::Formatter<'_>) -> fmt::Result {
        match self {
            Error::FileMissing => f.write_str("file missing"),
            Error::IndexTooLarge { given, max } => {
                write!(f, "invalid index {given}, maximum index is {max}")
            }
            Error::LineTooLarge { given, max } => {
                write!(f, "invalid line {given}, maximum line is {max}")
            }
            Error::ColumnTooLarge { given, max } => {
                write!(f, "invalid column {given}, maximum column {max}")
            }
            Error::InvalidCharBoundary { .. } => f.write_str("index is not a code point boundary"),
            #[cfg(feature = "std")]
            Error::Io(error) => error.fmt(f),
            Error::FormatError => f.write_str("formatting error"),
        }
    }
}

impl core::error::Error for Error {
    fn source(&self) -> Option<&(dyn core::error::Error + 'static)> {
        match self {
            #[cfg(feature = "std")]
            Error::Io(error) => Some(error),
            _ => None,
        }
    }
}

#[cfg(feature = "std")]
impl From<std::io::Error> for Error {
    fn from(error: std::io::Error) -> Error {
        Error::Io(error)
    }
}

impl From<fmt::Error> for Error {
    fn from(_: fmt::Error) -> Error {
        Error::FormatError
    }
}
