//! The structs and the numbers of `native/include/codespan.h` that are used here, which has their
//! documentation. The tests in `header` compare them.

use core::marker::PhantomData;

mod editor;
#[cfg(all(test, feature = "std"))]
mod header;

pub(crate) use editor::{
    Edit, EditorPosition, CHAR_BOUNDARY, COLUMN_TOO_LARGE, EDIT_BOUNDARY, EDIT_OVERLAP,
    EDIT_PAST_END, EDIT_REVERSED, LINE_TOO_LARGE,
};

/// The ABI version of these layouts: `CODESPAN_ABI`.
pub(crate) const ABI: u32 = 2;

/// The layout of the original.
pub(crate) const CLASSIC: u32 = 0;

/// The form of a text with style marks.
pub(crate) const STYLE_MARKS: u32 = 2;

/// The color mode without colors.
pub(crate) const COLORS_OFF: u32 = 0;

/// The color mode of the default styles.
pub(crate) const DEFAULT_STYLES: u32 = 1;

/// The choice of the characters that are passed, not of one of the archive's sets.
pub(crate) const CUSTOM_CHARS: u32 = 2;

/// The status of a call that has written the output.
pub(crate) const OK: u32 = 0;

/// The status of a call whose output does not fit.
pub(crate) const TOO_SMALL: u32 = 1;

/// The status of a call in which an allocation failed.
pub(crate) const OUT_OF_MEMORY: u32 = 2;

/// `CODESPAN_ARGUMENT_FILE_LINES`.
pub(crate) const FILE_LINES: u32 = 13;

/// The byte before the number of a style mark.
pub(crate) const STYLE_MARK_BYTE: u8 = 255;

// The numbers of style marks. To those of headers and labels the number of a severity is added.
pub(crate) const STYLE_MARK_HEADER: u8 = 128;
pub(crate) const STYLE_MARK_HEADER_MESSAGE: u8 = 133;
pub(crate) const STYLE_MARK_LINE_NUMBER: u8 = 134;
pub(crate) const STYLE_MARK_NOTE_BULLET: u8 = 135;
pub(crate) const STYLE_MARK_SOURCE_BORDER: u8 = 136;
pub(crate) const STYLE_MARK_PRIMARY_LABEL: u8 = 137;
pub(crate) const STYLE_MARK_SECONDARY_LABEL: u8 = 142;
pub(crate) const STYLE_MARK_RESET: u8 = 147;

/// A borrowed slice: a pointer that is never null, then a number of items.
#[repr(C)]
pub(crate) struct Slice<'a, T> {
    items: *const T,
    length: usize,
    borrowed: PhantomData<&'a [T]>,
}

impl<'a, T> Slice<'a, T> {
    pub(crate) fn new(items: &'a [T]) -> Slice<'a, T> {
        Slice {
            items: items.as_ptr(),
            length: items.len(),
            borrowed: PhantomData,
        }
    }

    pub(crate) fn len(&self) -> usize {
        self.length
    }
}

impl<T> Default for Slice<'_, T> {
    fn default() -> Self {
        Slice::new(&[])
    }
}

/// A text.
pub(crate) type Text<'a> = Slice<'a, u8>;

impl<'a> From<&'a str> for Text<'a> {
    fn from(text: &'a str) -> Text<'a> {
        Slice::new(text.as_bytes())
    }
}

/// A line: its bytes, and the number that is shown.
#[repr(C)]
#[derive(Debug, PartialEq)]
pub(crate) struct Line {
    pub(crate) start: usize,
    pub(crate) end: usize,
    pub(crate) number: usize,
}

/// The location that is shown for a byte at which a label starts.
#[repr(C)]
pub(crate) struct Location {
    pub(crate) byte: usize,
    pub(crate) line_number: usize,
    pub(crate) column_number: usize,
}

/// A file.
#[repr(C)]
pub(crate) struct File<'a> {
    pub(crate) name: Text<'a>,
    pub(crate) source: Text<'a>,
    pub(crate) first_byte: usize,
    pub(crate) first_line: usize,
    pub(crate) lines: Slice<'a, Line>,
    pub(crate) locations: Slice<'a, Location>,
    pub(crate) reserved: [usize; 2],
}

/// A label: its style, the index of its file, its bytes and its message.
#[repr(C)]
pub(crate) struct Label<'a> {
    pub(crate) style: u32,
    pub(crate) file: usize,
    pub(crate) start: usize,
    pub(crate) end: usize,
    pub(crate) message: Text<'a>,
    pub(crate) reserved: [usize; 2],
}

/// A diagnostic.
#[repr(C)]
pub(crate) struct Diagnostic<'a> {
    pub(crate) severity: u32,
    pub(crate) code: Text<'a>,
    pub(crate) message: Text<'a>,
    pub(crate) labels: Slice<'a, Label<'a>>,
    pub(crate) notes: Slice<'a, Text<'a>>,
    pub(crate) reserved: [usize; 4],
}

/// The characters, by their code points.
#[repr(C)]
#[derive(Default)]
pub(crate) struct Chars<'a> {
    pub(crate) snippet_start: Text<'a>,
    pub(crate) source_border_left: u32,
    pub(crate) source_border_left_break: u32,
    pub(crate) note_bullet: u32,
    pub(crate) single_primary_caret: u32,
    pub(crate) single_secondary_caret: u32,
    pub(crate) multi_primary_caret_start: u32,
    pub(crate) multi_primary_caret_end: u32,
    pub(crate) multi_secondary_caret_start: u32,
    pub(crate) multi_secondary_caret_end: u32,
    pub(crate) multi_top_left: u32,
    pub(crate) multi_top: u32,
    pub(crate) multi_bottom_left: u32,
    pub(crate) multi_bottom: u32,
    pub(crate) multi_left: u32,
    pub(crate) pointer_left: u32,
}

/// A style of text: two colors, and whether it is bold and intense.
#[repr(C)]
#[derive(Clone, Copy, Default)]
pub(crate) struct ColorSpec {
    pub(crate) fg: u32,
    pub(crate) bg: u32,
    pub(crate) bold: u32,
    pub(crate) intense: u32,
}

/// The number of styles.
const STYLES: usize = 15;

/// The styles, in the order of the fields of `codespan_styles`. Those of a configuration are not
/// read in the color modes that are used here.
pub(crate) type Styles = [ColorSpec; STYLES];

/// A configuration.
#[repr(C)]
pub(crate) struct Config<'a> {
    pub(crate) abi: u32,
    pub(crate) display_style: u32,
    pub(crate) layout: u32,
    pub(crate) form: u32,
    pub(crate) color_mode: u32,
    pub(crate) characters: u32,
    pub(crate) tab_width: usize,
    pub(crate) start_context_lines: usize,
    pub(crate) end_context_lines: usize,
    pub(crate) before_label_lines: usize,
    pub(crate) after_label_lines: usize,
    pub(crate) chars: Chars<'a>,
    pub(crate) styles: Styles,
    pub(crate) max_width: usize,
    pub(crate) reserved: [usize; 7],
}

/// Which argument is invalid.
#[repr(C)]
#[derive(Debug, Default)]
pub(crate) struct Detail {
    pub(crate) argument: u32,
    pub(crate) index: usize,
}
