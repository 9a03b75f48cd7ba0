//! Edits of a text.

use alloc::string::String;
use alloc::vec::Vec;
use core::fmt::{self, Display};
use core::ops::Range;

use crate::native;

/// An edit of a text: the bytes of a range are replaced.
///
/// Nothing is replaced where the range is empty, and nothing is inserted where the replacement is.
#[derive(Clone, Debug, PartialEq, Eq, Hash)]
pub struct Edit<'a> {
    /// The bytes that are replaced, from 0, with an exclusive end.
    pub range: Range<usize>,
    /// What is there afterwards.
    pub replacement: &'a str,
}

impl<'a> Edit<'a> {
    /// Returns an edit.
    #[must_use]
    pub fn new(range: impl Into<Range<usize>>, replacement: &'a str) -> Edit<'a> {
        Edit {
            range: range.into(),
            replacement,
        }
    }
}

/// What is wrong with a list of edits. An edit is named by its index in the list, from 0.
#[derive(Clone, Copy, Debug, PartialEq, Eq)]
pub enum EditError {
    /// The range of an edit ends before it starts.
    Reversed {
        /// The edit.
        edit: usize,
    },
    /// The range of an edit ends past the end of the text.
    PastEnd {
        /// The edit.
        edit: usize,
    },
    /// The range of an edit starts or ends inside a character.
    NotCharBoundary {
        /// The edit.
        edit: usize,
    },
    /// Two edits overlap: each starts before the other one ends.
    Overlap {
        /// The later one of the two, by their ranges.
        edit: usize,
    },
}

impl Display for EditError {
    fn fmt(&self, f: &mut fmt::Formatter<'_>) -> fmt::Result {
        match self {
            EditError::Reversed { edit } => write!(f, "edit {edit} ends before it starts"),
            EditError::PastEnd { edit } => write!(f, "edit {edit} ends past the text"),
            EditError::NotCharBoundary { edit } => {
                write!(f, "edit {edit} starts or ends inside a character")
            }
            EditError::Overlap { edit } => write!(f, "edit {edit} overlaps one before it"),
        }
    }
}

impl core::error::Error for EditError {}

/// Returns a text after all edits. All ranges are of the text as it is passed, so the edits need no
/// order. They may touch; insertions at one byte stay in their order, and come before what is
/// replaced there.
///
/// ```
/// use codespan_reporting::extra::{apply_edits, Edit};
///
/// let edits = [Edit::new(8..12, "print"), Edit::new(0..0, "let y = 1;\n")];
/// let text = apply_edits("use it: emit(y)", &edits)?;
/// assert_eq!(text, "let y = 1;\nuse it: print(y)");
/// # Ok::<(), codespan_reporting::extra::EditError>(())
/// ```
///
/// # Errors
///
/// The first error of one edit alone, in the order of the list; or else the first overlap, in the
/// order of the ranges.
pub fn apply_edits(source: &str, edits: &[Edit<'_>]) -> Result<String, EditError> {
    let natives: Vec<_> = edits.iter().map(native_edit).collect();
    native::apply_edits(source, &natives).map_err(|detail| {
        let edit = detail.index;
        match detail.argument {
            native::EDIT_REVERSED => EditError::Reversed { edit },
            native::EDIT_PAST_END => EditError::PastEnd { edit },
            native::EDIT_BOUNDARY => EditError::NotCharBoundary { edit },
            native::EDIT_OVERLAP => EditError::Overlap { edit },
            _ => native::refused(&detail),
        }
    })
}

fn native_edit<'a>(edit: &Edit<'a>) -> native::Edit<'a> {
    native::Edit {
        start: edit.range.start,
        end: edit.range.end,
        replacement: edit.replacement.into(),
        reserved: [0; 2],
    }
}
