//! The archive that renders: what is passed to it, and what it returns.

mod characters;
mod ffi;
mod layout;
mod style_marks;

use alloc::alloc::{handle_alloc_error, Layout};
use alloc::string::String;
use alloc::vec::Vec;
use core::num::NonZeroUsize;

use crate::diagnostic::{LabelStyle, Severity};
use crate::term::{Config, DisplayStyle, GeneralWriteResult};

use ffi::EmitError;
pub(crate) use ffi::Read;
pub(crate) use layout::Styles as NativeStyles;
pub(crate) use layout::{
    ColorSpec, Detail, Edit, EditorPosition, File, Label, Line, Location, Slice, CHAR_BOUNDARY,
    COLUMN_TOO_LARGE, EDIT_BOUNDARY, EDIT_OVERLAP, EDIT_PAST_END, EDIT_REVERSED, LINE_TOO_LARGE,
};
pub(crate) use style_marks::{replay, write_text};

/// The form of an output, and how changes of style are spelled in it.
#[derive(Clone, Copy)]
pub(crate) enum Spelling {
    /// Safe text without colors: `CODESPAN_TERMINAL`.
    Safe,
    /// Safe text in the default styles.
    SafeInColor,
    /// Text without colors: `CODESPAN_TEXT`.
    Plain,
    /// That text with style marks, which [`replay`] understands: `CODESPAN_STYLE_MARKS`.
    StyleMarks,
    /// An HTML element: `CODESPAN_HTML`.
    Html,
    /// An SVG document: `CODESPAN_SVG`.
    Svg,
}

impl Spelling {
    /// Returns the number of the form.
    fn form(self) -> u32 {
        match self {
            Spelling::Safe | Spelling::SafeInColor => 0,
            Spelling::Plain => 1,
            Spelling::StyleMarks => layout::STYLE_MARKS,
            Spelling::Html => 3,
            Spelling::Svg => 4,
        }
    }

    /// Returns the number of the color mode.
    fn color_mode(self) -> u32 {
        match self {
            Spelling::SafeInColor => layout::DEFAULT_STYLES,
            _ => layout::COLORS_OFF,
        }
    }
}

/// What an output is written as.
#[derive(Clone, Copy)]
pub(crate) struct Form {
    pub(crate) spelling: Spelling,
    /// The greatest width of a line of the source, which the original does not have.
    pub(crate) max_width: Option<NonZeroUsize>,
}

impl From<Spelling> for Form {
    fn from(spelling: Spelling) -> Form {
        Form {
            spelling,
            max_width: None,
        }
    }
}

/// What an output is rendered from, besides the files and the labels.
pub(crate) struct Request<'a> {
    /// How much of the diagnostic is rendered.
    pub(crate) display_style: &'a DisplayStyle,
    pub(crate) form: Form,
    /// The configuration that has the characters and the tab width.
    pub(crate) characters: &'a Config,
    /// The configuration that has the numbers of context lines.
    pub(crate) context: &'a Config,
    pub(crate) severity: Severity,
    /// The code, or the empty text for none.
    pub(crate) code: &'a str,
    pub(crate) message: &'a str,
    pub(crate) notes: &'a [String],
}

impl Request<'_> {
    /// Renders with files and with labels, which name files by their indices, from 0. Passes the
    /// output to `read`, and returns what that returns.
    ///
    /// `expected_length` is the length in bytes that the output is expected not to exceed, besides
    /// the message and the notes. A longer one takes two calls of the archive.
    ///
    /// # Panics
    ///
    /// Where the archive has another ABI.
    pub(crate) fn render(
        &self,
        files: &[File<'_>],
        labels: &[Label<'_>],
        expected_length: usize,
        read: Read<'_>,
    ) -> GeneralWriteResult {
        let notes: Vec<_> = self.notes.iter().map(|note| note.as_str().into()).collect();
        let diagnostic = layout::Diagnostic {
            severity: severity_number(self.severity),
            code: self.code.into(),
            message: self.message.into(),
            labels: Slice::new(labels),
            notes: Slice::new(&notes),
            reserved: [0; 4],
        };
        let notes = self.notes.iter().map(|note| 2 * note.len());
        let length = expected_length + self.message.len() + notes.sum::<usize>();
        match ffi::emit(files, &diagnostic, &self.config(), length, read) {
            Ok(result) => result,
            Err(error) => fail(error),
        }
    }

    fn config(&self) -> layout::Config<'_> {
        let number = characters::number(&self.characters.chars);
        let mut config = layout::Config {
            abi: layout::ABI,
            display_style: display_style_number(self.display_style),
            layout: layout::CLASSIC,
            form: self.form.spelling.form(),
            color_mode: self.form.spelling.color_mode(),
            characters: number,
            tab_width: self.characters.tab_width,
            start_context_lines: self.context.start_context_lines,
            end_context_lines: self.context.end_context_lines,
            before_label_lines: self.context.before_label_lines,
            after_label_lines: self.context.after_label_lines,
            chars: layout::Chars::default(),
            styles: layout::Styles::default(),
            max_width: self.form.max_width.map_or(0, NonZeroUsize::get),
            reserved: [0; 7],
        };
        // The archive reads them only then.
        if number == layout::CUSTOM_CHARS {
            config.chars = characters::native(&self.characters.chars);
        }
        config
    }
}

/// Returns the style sheet of HTML elements in these styles.
///
/// # Panics
///
/// Where a color has no number.
pub(crate) fn style_sheet(styles: &NativeStyles) -> String {
    ffi::html_styles(styles).unwrap_or_else(|error| fail(error))
}

/// Returns the position of a byte of a file, or why it has none.
pub(crate) fn position(
    file: &File<'_>,
    encoding: u32,
    byte: usize,
) -> Result<EditorPosition, Detail> {
    ffi::position(file, encoding, byte).map_err(invalid)
}

/// Returns the byte at a position of a file, or why there is none.
pub(crate) fn byte(
    file: &File<'_>,
    encoding: u32,
    position: &EditorPosition,
) -> Result<usize, Detail> {
    ffi::byte(file, encoding, position).map_err(invalid)
}

/// Returns a text after all edits, or which edit is invalid.
pub(crate) fn apply_edits(source: &str, edits: &[Edit<'_>]) -> Result<String, Detail> {
    ffi::apply_edits(source, edits).map_err(invalid)
}

/// Returns the argument that is invalid. Ends where an allocation failed.
fn invalid(error: EmitError) -> Detail {
    match error {
        EmitError::Invalid(detail) => detail,
        error => fail(error),
    }
}

/// Ends a call of the archive that has no output.
#[cold]
fn fail(error: EmitError) -> ! {
    match error {
        // The archive does not report the layout of the allocation that failed.
        EmitError::OutOfMemory => handle_alloc_error(Layout::new::<u8>()),
        EmitError::Invalid(detail) if detail.argument == layout::FILE_LINES => {
            unreachable!("the lines of an excerpt overlap, or do not ascend: {detail:?}")
        }
        EmitError::Invalid(detail) => refused(&detail),
    }
}

/// Ends a call of the archive that does not take an argument which it should take.
#[cold]
pub(crate) fn refused(detail: &Detail) -> ! {
    panic!(
        "the archive does not take these structs; is its ABI {}? {detail:?}",
        layout::ABI
    )
}

/// Returns the number of a display style.
fn display_style_number(style: &DisplayStyle) -> u32 {
    match style {
        DisplayStyle::Rich => 0,
        DisplayStyle::Medium => 1,
        DisplayStyle::Short => 2,
    }
}

/// Returns the number of a severity.
fn severity_number(severity: Severity) -> u32 {
    match severity {
        Severity::Help => 0,
        Severity::Note => 1,
        Severity::Warning => 2,
        Severity::Error => 3,
        Severity::Bug => 4,
    }
}

/// Returns the number of a label's style.
pub(crate) fn label_style_number(style: LabelStyle) -> u32 {
    match style {
        LabelStyle::Primary => 0,
        LabelStyle::Secondary => 1,
    }
}

#[cfg(all(test, feature = "std"))]
mod tests {
    use super::*;

    #[test]
    fn the_greatest_width_is_passed_on() {
        let config = Config::default();
        for (max_width, passed) in [(None, 0), (NonZeroUsize::new(7), 7)] {
            let request = Request {
                display_style: &config.display_style,
                form: Form {
                    spelling: Spelling::Safe,
                    max_width,
                },
                characters: &config,
                context: &config,
                severity: Severity::Note,
                code: "",
                message: "m",
                notes: &[],
            };
            assert_eq!(request.config().max_width, passed);
        }
    }
}
