//! The calls of the archive that find a position or a byte.

use super::EmitError;
use crate::native::layout::{Detail, EditorPosition, File, OK, OUT_OF_MEMORY};

extern "C" {
    fn codespan_position(
        file: *const File<'_>,
        encoding: u32,
        byte: usize,
        position: *mut EditorPosition,
        detail: *mut Detail,
    ) -> u32;

    fn codespan_byte(
        file: *const File<'_>,
        encoding: u32,
        position: *const EditorPosition,
        byte: *mut usize,
        detail: *mut Detail,
    ) -> u32;
}

/// Returns the position of a byte of a file.
///
/// # Errors
///
/// [`EmitError::OutOfMemory`] where an allocation of the archive fails, and [`EmitError::Invalid`]
/// where the byte has no position.
pub(crate) fn position(
    file: &File<'_>,
    encoding: u32,
    byte: usize,
) -> Result<EditorPosition, EmitError> {
    find(|found, detail| {
        // SAFETY: the structs have the layouts of the header, and each `Slice` has the pointer and
        // the length of a slice that it borrows. What is written overlaps nothing else.
        unsafe { codespan_position(file, encoding, byte, found, detail) }
    })
}

/// Returns the byte at a position of a file.
///
/// # Errors
///
/// [`EmitError::OutOfMemory`] where an allocation of the archive fails, and [`EmitError::Invalid`]
/// where no byte is at the position.
pub(crate) fn byte(
    file: &File<'_>,
    encoding: u32,
    position: &EditorPosition,
) -> Result<usize, EmitError> {
    find(|found, detail| {
        // SAFETY: as in `position`.
        unsafe { codespan_byte(file, encoding, position, found, detail) }
    })
}

/// Returns what a call of the archive finds.
fn find<T: Default>(call: impl FnOnce(&mut T, &mut Detail) -> u32) -> Result<T, EmitError> {
    let (mut found, mut detail) = (T::default(), Detail::default());
    match call(&mut found, &mut detail) {
        OK => Ok(found),
        OUT_OF_MEMORY => Err(EmitError::OutOfMemory),
        _ => Err(EmitError::Invalid(detail)),
    }
}
