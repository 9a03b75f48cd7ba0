//! The lookups that rendering makes, and file databases.
//!
//! [`Files`] is the trait of file databases. [`SimpleFile`] has one text and [`SimpleFiles`] many;
//! implement [`Files`] for other databases, such as the sources that a compiler keeps.
//!
//! Line indices and byte indices count from 0, and the end of a range is exclusive. Line numbers
//! and column numbers are for users, and count from 1 unless a database says otherwise.

use core::fmt::Display;
use core::iter;
use core::ops::Range;

mod error;
mod simple;

pub use error::Error;
pub use simple::{SimpleFile, SimpleFiles};

/// A location in a file, as users count. Returned by [`Files::location`].
#[derive(Copy, Clone, Debug, PartialEq, Eq)]
pub struct Location {
    /// The line's number.
    pub line_number: usize,
    /// The column's number.
    pub column_number: usize,
}

/// A file database: the lookups that rendering makes.
///
/// The lifetime `'a` lets an implementation return names and sources that are borrowed from itself.
///
/// Rendering expects of a database that each call returns the same for the same arguments, that
/// lines ascend without overlapping, that they start and end at character boundaries of the source,
/// and that [`line_index`](Files::line_index) returns the last line that starts at or before the
/// byte.
///
/// ```
/// use codespan_reporting::files::{Error, Files, SimpleFile};
/// use std::ops::Range;
///
/// /// A document, and the schema that it is checked against.
/// struct Checked {
///     document: SimpleFile<&'static str, String>,
///     schema: SimpleFile<&'static str, String>,
/// }
///
/// #[derive(Clone, Copy, PartialEq)]
/// enum Part {
///     Document,
///     Schema,
/// }
///
/// impl Checked {
///     fn file(&self, part: Part) -> &SimpleFile<&'static str, String> {
///         match part {
///             Part::Document => &self.document,
///             Part::Schema => &self.schema,
///         }
///     }
/// }
///
/// impl<'a> Files<'a> for Checked {
///     type FileId = Part;
///     type Name = &'static str;
///     type Source = &'a str;
///
///     fn name(&'a self, part: Part) -> Result<&'static str, Error> {
///         Ok(self.file(part).name())
///     }
///
///     fn source(&'a self, part: Part) -> Result<&'a str, Error> {
///         Ok(self.file(part).source())
///     }
///
///     fn line_index(&'a self, part: Part, byte_index: usize) -> Result<usize, Error> {
///         self.file(part).line_index((), byte_index)
///     }
///
///     fn line_range(&'a self, part: Part, line_index: usize) -> Result<Range<usize>, Error> {
///         self.file(part).line_range((), line_index)
///     }
/// }
/// ```
pub trait Files<'a> {
    /// The type of ids of files. Equal ids are one file.
    type FileId: 'a + Copy + PartialEq;
    /// The type of names of files, as they are displayed.
    type Name: 'a + Display;
    /// The type of texts of files.
    type Source: 'a + AsRef<str>;

    /// Returns the name of a file.
    ///
    /// # Errors
    ///
    /// Any; [`Error::FileMissing`] where there is no such file.
    fn name(&'a self, id: Self::FileId) -> Result<Self::Name, Error>;

    /// Returns the text of a file.
    ///
    /// # Errors
    ///
    /// Any; [`Error::FileMissing`] where there is no such file.
    fn source(&'a self, id: Self::FileId) -> Result<Self::Source, Error>;

    /// Returns the index of the line of a byte. For a byte past the end of the text it is that of
    /// the last line.
    ///
    /// # Errors
    ///
    /// Any; [`Error::FileMissing`] where there is no such file.
    fn line_index(&'a self, id: Self::FileId, byte_index: usize) -> Result<usize, Error>;

    /// Returns the number of a line, for users. By default it is the index plus one, and the line
    /// need not exist.
    ///
    /// # Errors
    ///
    /// Any; by default none.
    #[allow(unused_variables)]
    fn line_number(&'a self, id: Self::FileId, line_index: usize) -> Result<usize, Error> {
        Ok(line_index + 1)
    }

    /// Returns the column of a byte in a line, for users. By default it is [`column_index`] plus
    /// one.
    ///
    /// # Errors
    ///
    /// Any; by default those of [`source`](Files::source) and [`line_range`](Files::line_range).
    fn column_number(
        &'a self,
        id: Self::FileId,
        line_index: usize,
        byte_index: usize,
    ) -> Result<usize, Error> {
        let source = self.source(id)?;
        let line_range = self.line_range(id, line_index)?;

        Ok(column_index(source.as_ref(), line_range, byte_index) + 1)
    }

    /// Returns the location of a byte. By default it is found by the other lookups.
    ///
    /// # Errors
    ///
    /// Any; by default those of [`line_index`](Files::line_index),
    /// [`line_number`](Files::line_number) and [`column_number`](Files::column_number).
    fn location(&'a self, id: Self::FileId, byte_index: usize) -> Result<Location, Error> {
        let line_index = self.line_index(id, byte_index)?;

        Ok(Location {
            line_number: self.line_number(id, line_index)?,
            column_number: self.column_number(id, line_index, byte_index)?,
        })
    }

    /// Returns the bytes of a line. Its line break may be part of it, or not.
    ///
    /// # Errors
    ///
    /// Any; [`Error::FileMissing`] where there is no such file, and [`Error::LineTooLarge`] where
    /// it has no such line.
    fn line_range(&'a self, id: Self::FileId, line_index: usize) -> Result<Range<usize>, Error>;
}

/// Returns the number of characters of a line that end at or before a byte.
///
/// It is 0 where the byte is before the line, and the number of all characters of the line where it
/// is past its end.
///
/// ```
/// use codespan_reporting::files::column_index;
///
/// let source = "a\nλ→b\n";
/// assert_eq!(column_index(source, 2..9, 2), 0);
/// assert_eq!(column_index(source, 2..9, 3), 0); // inside `λ`
/// assert_eq!(column_index(source, 2..9, 4), 1);
/// assert_eq!(column_index(source, 2..9, 7), 2);
/// assert_eq!(column_index(source, 2..9, 100), 4);
/// assert_eq!(column_index(source, 2..9, 0), 0);
/// ```
#[must_use]
pub fn column_index(source: &str, line_range: Range<usize>, byte_index: usize) -> usize {
    let end = byte_index.min(line_range.end).min(source.len());
    if line_range.start >= end {
        return 0;
    }
    // A character ends where the next one starts, or with the source.
    let last = end.min(source.len() - 1);
    let next = &source.as_bytes()[line_range.start + 1..=last];

    count_starts(next) + usize::from(end == source.len())
}

/// Returns the number of bytes at which characters start: those that are not `0b10......`.
fn count_starts(bytes: &[u8]) -> usize {
    const LOW: u64 = u64::from_ne_bytes([1; 8]);
    let mut words = bytes.chunks_exact(8);
    let mut count = 0;
    for bytes in words.by_ref() {
        let word = u64::from_le_bytes(bytes.try_into().expect("a word has 8 bytes"));
        // The lowest bit of each byte here says whether a character starts. The product has the sum
        // of these bytes, which is 8 at most, as its highest byte.
        let starts = (!word >> 7 | word >> 6) & LOW;
        count += (starts.wrapping_mul(LOW) >> 56) as usize;
    }
    let rest = words.remainder().iter();
    count + rest.filter(|&&byte| byte & 0xc0 != 0x80).count()
}

/// Returns the byte index of the start of each line: 0, and the byte after each newline.
///
/// ```
/// use codespan_reporting::files::line_starts;
///
/// let starts: Vec<usize> = line_starts("one\ntwo\r\n\n").collect();
/// assert_eq!(starts, [0, 4, 9, 10]);
/// ```
pub fn line_starts(source: &str) -> impl '_ + Iterator<Item = usize> {
    let newlines = source.match_indices('\n');
    iter::once(0).chain(newlines.map(|(index, newline)| index + newline.len()))
}
