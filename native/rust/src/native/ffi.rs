//! The one module with `unsafe` code: the call of the archive, and the heap that the archive
//! allocates from.

#![allow(unsafe_code)]

mod heap;
mod positions;
mod texts;

pub(crate) use positions::{byte, position};
pub(crate) use texts::{apply_edits, html_styles};

use alloc::vec::Vec;
use core::mem::MaybeUninit;
use core::{slice, str};

use super::layout::{Config, Detail, Diagnostic, File, OK, OUT_OF_MEMORY, STYLE_MARKS, TOO_SMALL};
use crate::term::GeneralWriteResult;

/// The error of a call of the archive.
#[derive(Debug)]
pub(crate) enum EmitError {
    /// An allocation failed.
    OutOfMemory,
    /// An argument is invalid.
    Invalid(Detail),
}

/// The room on the stack for an output, in bytes.
const ROOM: usize = 4096;

/// An output that the archive has written.
pub(crate) struct Output<'a> {
    bytes: &'a [u8],
    /// Whether it is text, without style marks.
    is_text: bool,
}

impl<'a> Output<'a> {
    /// Returns the bytes.
    pub(crate) fn bytes(&self) -> &'a [u8] {
        self.bytes
    }

    /// Returns the text.
    ///
    /// # Panics
    ///
    /// Where the output has style marks.
    pub(crate) fn text(&self) -> &'a str {
        assert!(self.is_text, "an output with style marks is no text");
        // SAFETY: the archive has written these bytes, without style marks. By the clause `ok` of
        // the contract of `codespan_emit` they are exactly those of the output in its form. Its
        // text is UTF-8 by the law `outputs_are_utf8`, and the other forms are made of it as
        // `String`s. All this is proved, of any arguments that the archive accepts.
        unsafe { str::from_utf8_unchecked(self.bytes) }
    }
}

extern "C" {
    fn codespan_emit(
        files: *const File<'_>,
        files_length: usize,
        diagnostic: *const Diagnostic<'_>,
        config: *const Config<'_>,
        out: *mut u8,
        out_length: usize,
        written: *mut usize,
        detail: *mut Detail,
    ) -> u32;
}

/// What reads an output.
pub(crate) type Read<'a> = &'a mut dyn FnMut(Output<'_>) -> GeneralWriteResult;

/// Passes the output of a diagnostic over files to `read`, and returns what that returns. An output
/// that is longer than expected takes a second call.
///
/// # Errors
///
/// [`EmitError::OutOfMemory`] where an allocation of the archive fails, and [`EmitError::Invalid`]
/// where it does not accept an argument.
#[inline]
pub(crate) fn emit(
    files: &[File<'_>],
    diagnostic: &Diagnostic<'_>,
    config: &Config<'_>,
    expected_length: usize,
    read: Read<'_>,
) -> Result<GeneralWriteResult, EmitError> {
    let is_text = config.form != STYLE_MARKS;
    let mut heap: Vec<u8> = Vec::new();
    // Where there is no memory for what is expected, the output may be shorter.
    let on_heap = expected_length > ROOM && heap.try_reserve_exact(expected_length).is_ok();
    let mut stack = [MaybeUninit::uninit(); ROOM];
    let room = if on_heap {
        heap.spare_capacity_mut()
    } else {
        &mut stack[..]
    };
    let length = match write(files, diagnostic, config, room)? {
        Written::Output(bytes) => return Ok(read(Output { bytes, is_text })),
        Written::TooSmall(length) => length,
    };
    heap.reserve_exact(length);
    match write(files, diagnostic, config, heap.spare_capacity_mut())? {
        Written::Output(bytes) => Ok(read(Output { bytes, is_text })),
        Written::TooSmall(length) => unreachable!("the output has another length now: {length}"),
    }
}

/// What a call of the archive leaves in the room that it is passed.
enum Written<'room> {
    /// The output.
    Output(&'room [u8]),
    /// Nothing, since the output has this length.
    TooSmall(usize),
}

/// Has the archive write an output.
///
/// # Errors
///
/// Those of [`emit`].
fn write<'room>(
    files: &[File<'_>],
    diagnostic: &Diagnostic<'_>,
    config: &Config<'_>,
    room: &'room mut [MaybeUninit<u8>],
) -> Result<Written<'room>, EmitError> {
    let out: *mut u8 = room.as_mut_ptr().cast();
    let mut written = 0;
    let mut detail = Detail::default();
    // SAFETY: the structs have the layouts of the header, which `abi` states. Each `Slice` has the
    // pointer and the length of a slice that it borrows, so that its pointer is aligned, not null,
    // and points to as many values. `out` has room for as many bytes as `room`. Nothing that is
    // written overlaps anything else, and nothing that is read changes.
    let status = heap::with_arena(|| unsafe {
        codespan_emit(
            files.as_ptr(),
            files.len(),
            diagnostic,
            config,
            out,
            room.len(),
            &mut written,
            &mut detail,
        )
    });
    match status {
        // SAFETY: the call has written this many bytes, and not more than there is room for.
        OK => Ok(Written::Output(unsafe {
            slice::from_raw_parts(out, written)
        })),
        TOO_SMALL => Ok(Written::TooSmall(written)),
        OUT_OF_MEMORY => Err(EmitError::OutOfMemory),
        _ => Err(EmitError::Invalid(detail)),
    }
}
