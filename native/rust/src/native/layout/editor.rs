//! Those of `native/include/codespan_editor.h`.

use super::Text;

/// `CODESPAN_ARGUMENT_LINE_TOO_LARGE`.
pub(crate) const LINE_TOO_LARGE: u32 = 26;

/// `CODESPAN_ARGUMENT_COLUMN_TOO_LARGE`.
pub(crate) const COLUMN_TOO_LARGE: u32 = 27;

/// `CODESPAN_ARGUMENT_CHAR_BOUNDARY`.
pub(crate) const CHAR_BOUNDARY: u32 = 28;

/// `CODESPAN_ARGUMENT_EDIT_REVERSED`.
pub(crate) const EDIT_REVERSED: u32 = 31;

/// `CODESPAN_ARGUMENT_EDIT_PAST_END`.
pub(crate) const EDIT_PAST_END: u32 = 32;

/// `CODESPAN_ARGUMENT_EDIT_BOUNDARY`.
pub(crate) const EDIT_BOUNDARY: u32 = 33;

/// `CODESPAN_ARGUMENT_EDIT_OVERLAP`.
pub(crate) const EDIT_OVERLAP: u32 = 34;

/// A position of an editor.
#[repr(C)]
#[derive(Default)]
pub(crate) struct EditorPosition {
    pub(crate) line: u32,
    pub(crate) character: u32,
}

/// An edit of a text.
#[repr(C)]
pub(crate) struct Edit<'a> {
    pub(crate) start: usize,
    pub(crate) end: usize,
    pub(crate) replacement: Text<'a>,
    pub(crate) reserved: [usize; 2],
}
