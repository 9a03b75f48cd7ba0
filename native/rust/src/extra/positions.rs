//! Positions of an editor.

use core::ops::Range;

use crate::files::{Error, Files};
use crate::native::{self, Detail, EditorPosition, Line, Slice};
use crate::term::slice;

/// The encoding whose code units the `character` of a [`Position`] counts. The Language Server
/// Protocol has UTF-16 unless client and server agree on another one.
#[derive(Clone, Copy, Debug, Default, PartialEq, Eq, Hash)]
pub enum Encoding {
    /// Two code units for a character from U+10000 on, and one for any other.
    #[default]
    Utf16,
    /// Bytes.
    Utf8,
    /// Characters.
    Utf32,
}

impl Encoding {
    /// Returns the number in the header.
    fn number(self) -> u32 {
        match self {
            Encoding::Utf16 => 0,
            Encoding::Utf8 => 1,
            Encoding::Utf32 => 2,
        }
    }
}

/// A position in a file, as the Language Server Protocol has it: before a character of a line, or
/// after its last one.
#[derive(Clone, Copy, Debug, Default, PartialEq, Eq, PartialOrd, Ord, Hash)]
pub struct Position {
    /// The index of the line, from 0.
    pub line: u32,
    /// The number of code units of the line before the position.
    pub character: u32,
}

/// Returns the position of a byte of a file. Byte indices count from 0.
///
/// The byte after a newline is on the next line. The end of the text has a position too, on the
/// last line. Lines are those of the file database.
///
/// ```
/// use codespan_reporting::extra::{position, Encoding, Position};
/// use codespan_reporting::files::SimpleFile;
///
/// let file = SimpleFile::new("f", "one\n𐐀b");
/// let before_b = position(&file, (), Encoding::Utf16, 8)?;
/// assert_eq!(before_b, Position { line: 1, character: 2 });
/// # Ok::<(), codespan_reporting::files::Error>(())
/// ```
///
/// # Errors
///
/// The first of these:
///
/// - that of the lookup of the source, of the byte's line and of the line's range;
/// - [`Error::IndexTooLarge`] or [`Error::InvalidCharBoundary`] where the line is no part of the
///   source;
/// - [`Error::LineTooLarge`] where the line's index does not fit a `u32`;
/// - [`Error::ColumnTooLarge`] past the end of the line, in bytes from its start, or where the code
///   units before the byte do not fit a `u32`;
/// - [`Error::InvalidCharBoundary`] inside a character.
pub fn position<'files, F: Files<'files> + ?Sized>(
    files: &'files F,
    id: F::FileId,
    encoding: Encoding,
    byte: usize,
) -> Result<Position, Error> {
    let source = files.source(id)?;
    let index = files.line_index(id, byte)?;
    let line = TextLine::new(source.as_ref(), index, files.line_range(id, index)?)?;
    let EditorPosition { line, character } =
        native::position(&line.file(), encoding.number(), byte).map_err(|detail| {
            line.error(&detail, byte.saturating_sub(line.range.start), || byte)
        })?;
    Ok(Position { line, character })
}

/// Returns the byte index, from 0, of a position of a file.
///
/// A position may be at the end of its line, which is after the newline where that is part of the
/// line. The protocol takes a character past the end as the end. Here it is an error, whose `max`
/// is the end.
///
/// ```
/// use codespan_reporting::extra::{byte, Encoding, Position};
/// use codespan_reporting::files::SimpleFile;
///
/// let file = SimpleFile::new("f", "one\n𐐀b");
/// let before_b = Position { line: 1, character: 2 };
/// assert_eq!(byte(&file, (), Encoding::Utf16, before_b)?, 8);
/// # Ok::<(), codespan_reporting::files::Error>(())
/// ```
///
/// # Errors
///
/// The first of these:
///
/// - that of the lookup of the source, and of the line's range, which is [`Error::LineTooLarge`]
///   past the last line;
/// - [`Error::IndexTooLarge`] or [`Error::InvalidCharBoundary`] where the line is no part of the
///   source;
/// - [`Error::ColumnTooLarge`] past the end of the line, in code units;
/// - [`Error::InvalidCharBoundary`] between the code units of a character, whose byte index is
///   `given`.
pub fn byte<'files, F: Files<'files> + ?Sized>(
    files: &'files F,
    id: F::FileId,
    encoding: Encoding,
    position: Position,
) -> Result<usize, Error> {
    let source = files.source(id)?;
    let index = position.line as usize;
    let line = TextLine::new(source.as_ref(), index, files.line_range(id, index)?)?;
    let byte_of = |character| {
        let position = EditorPosition {
            line: position.line,
            character,
        };
        native::byte(&line.file(), encoding.number(), &position)
    };
    byte_of(position.character).map_err(|detail| {
        line.error(&detail, position.character as usize, || {
            // A character has four code units at most.
            (1..4)
                .filter_map(|units| position.character.checked_sub(units))
                .find_map(|character| byte_of(character).ok())
                .unwrap_or_default()
        })
    })
}

/// A line, which the archive is passed alone.
struct TextLine<'source> {
    text: &'source str,
    index: usize,
    range: Range<usize>,
    lines: [Line; 1],
}

impl<'source> TextLine<'source> {
    fn new(source: &'source str, index: usize, range: Range<usize>) -> Result<Self, Error> {
        Ok(TextLine {
            text: slice(source, range.clone())?,
            index,
            lines: [Line {
                start: range.start,
                end: range.end,
                number: 1,
            }],
            range,
        })
    }

    /// Returns the window of the file that has this line alone.
    fn file(&self) -> native::File<'_> {
        native::File {
            name: "".into(),
            source: self.text.into(),
            first_byte: self.range.start,
            first_line: self.index,
            lines: Slice::new(&self.lines),
            locations: Slice::new(&[]),
            reserved: [0; 2],
        }
    }

    /// Returns the error of a column of this line; `byte` returns the byte that is no boundary of a
    /// character.
    fn error(&self, detail: &Detail, column: usize, byte: impl FnOnce() -> usize) -> Error {
        match detail.argument {
            native::LINE_TOO_LARGE => Error::LineTooLarge {
                given: self.index,
                max: u32::MAX as usize,
            },
            native::COLUMN_TOO_LARGE => Error::ColumnTooLarge {
                given: column,
                max: detail.index,
            },
            native::CHAR_BOUNDARY => Error::InvalidCharBoundary { given: byte() },
            _ => native::refused(detail),
        }
    }
}
