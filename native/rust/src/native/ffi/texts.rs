//! The calls of the archive that write a text and read no file.

use alloc::string::String;
use alloc::vec;

use super::EmitError;
use crate::native::layout::{Detail, Edit, Styles, OK, OUT_OF_MEMORY, TOO_SMALL};

extern "C" {
    fn codespan_html_styles(
        styles: *const Styles,
        out: *mut u8,
        out_length: usize,
        written: *mut usize,
    ) -> u32;

    fn codespan_apply_edits(
        source: *const u8,
        source_length: usize,
        edits: *const Edit<'_>,
        edits_length: usize,
        out: *mut u8,
        out_length: usize,
        written: *mut usize,
        detail: *mut Detail,
    ) -> u32;
}

/// The length in bytes that a style sheet is expected not to exceed.
const STYLE_SHEET: usize = 4096;

/// Returns the style sheet of HTML elements in these styles.
///
/// # Errors
///
/// Those of [`text_of`].
pub(crate) fn html_styles(styles: &Styles) -> Result<String, EmitError> {
    text_of(STYLE_SHEET, |room, written, _| {
        // SAFETY: the styles have the layout of the header. `room` is written, which overlaps
        // nothing else, and not more than its length.
        unsafe { codespan_html_styles(styles, room.as_mut_ptr(), room.len(), written) }
    })
}

/// Returns a text after all edits.
///
/// # Errors
///
/// Those of [`text_of`].
pub(crate) fn apply_edits(source: &str, edits: &[Edit<'_>]) -> Result<String, EmitError> {
    let replacements = edits.iter().map(|edit| edit.replacement.len());
    let length = source.len() + replacements.sum::<usize>();
    text_of(length, |room, written, detail| {
        // SAFETY: the edits have the layout of the header, and each replacement has the pointer and
        // the length of a slice that it borrows. `room` is written, which overlaps nothing else,
        // and not more than its length.
        unsafe {
            codespan_apply_edits(
                source.as_ptr(),
                source.len(),
                edits.as_ptr(),
                edits.len(),
                room.as_mut_ptr(),
                room.len(),
                written,
                detail,
            )
        }
    })
}

/// Returns the text that a call of the archive writes into the room that it is passed. A text that
/// is longer than expected takes a second call.
///
/// # Errors
///
/// [`EmitError::OutOfMemory`] where an allocation of the archive fails, and [`EmitError::Invalid`]
/// where it does not accept an argument.
fn text_of(
    expected_length: usize,
    call: impl Fn(&mut [u8], &mut usize, &mut Detail) -> u32,
) -> Result<String, EmitError> {
    let mut text = vec![0; expected_length];
    let (mut written, mut detail) = (0, Detail::default());
    let mut status = call(&mut text, &mut written, &mut detail);
    if status == TOO_SMALL {
        text.resize(written, 0);
        status = call(&mut text, &mut written, &mut detail);
    }
    match status {
        OK => {
            text.truncate(written);
            Ok(String::from_utf8(text).expect("the archive writes UTF-8"))
        }
        OUT_OF_MEMORY => Err(EmitError::OutOfMemory),
        _ => Err(EmitError::Invalid(detail)),
    }
}
