//! Colors, by termcolor.

use std::io::{self, Write};

use termcolor::{Color, ColorSpec, WriteColor};

use crate::diagnostic::{LabelStyle, Severity};
use crate::term::renderer::WriteStyle;

/// The color and the weight of each part of an output.
///
/// By default headers and their messages are bold and intense; bugs and errors are red, warnings
/// yellow, notes green, help, secondary labels, line numbers, borders and bullets cyan.
///
/// ```
/// use codespan_reporting::term::termcolor::{Color, ColorSpec};
/// use codespan_reporting::term::Styles;
///
/// let mut gray = ColorSpec::new();
/// gray.set_fg(Some(Color::Ansi256(245)));
/// let styles = Styles {
///     line_number: gray.clone(),
///     source_border: gray,
///     ..Styles::default()
/// };
/// assert_eq!(styles.line_number().fg(), Some(&Color::Ansi256(245)));
/// ```
#[derive(Clone, Debug)]
pub struct Styles {
    /// The header of a bug.
    pub header_bug: ColorSpec,
    /// The header of an error.
    pub header_error: ColorSpec,
    /// The header of a warning.
    pub header_warning: ColorSpec,
    /// The header of a note.
    pub header_note: ColorSpec,
    /// The header of a help message.
    pub header_help: ColorSpec,
    /// The message in a header.
    pub header_message: ColorSpec,

    /// A primary label of a bug.
    pub primary_label_bug: ColorSpec,
    /// A primary label of an error.
    pub primary_label_error: ColorSpec,
    /// A primary label of a warning.
    pub primary_label_warning: ColorSpec,
    /// A primary label of a note.
    pub primary_label_note: ColorSpec,
    /// A primary label of a help message.
    pub primary_label_help: ColorSpec,
    /// A secondary label.
    pub secondary_label: ColorSpec,

    /// Line numbers.
    pub line_number: ColorSpec,
    /// Borders.
    pub source_border: ColorSpec,
    /// The bullets of notes.
    pub note_bullet: ColorSpec,
}

impl Styles {
    /// Returns the style of the header of a severity.
    #[must_use]
    pub fn header(&self, severity: Severity) -> &ColorSpec {
        match severity {
            Severity::Bug => &self.header_bug,
            Severity::Error => &self.header_error,
            Severity::Warning => &self.header_warning,
            Severity::Note => &self.header_note,
            Severity::Help => &self.header_help,
        }
    }

    /// Returns the style of the message in a header.
    #[must_use]
    pub fn header_message(&self) -> &ColorSpec {
        &self.header_message
    }

    /// Returns the style of line numbers.
    #[must_use]
    pub fn line_number(&self) -> &ColorSpec {
        &self.line_number
    }

    /// Returns the style of the bullets of notes.
    #[must_use]
    pub fn note_bullet(&self) -> &ColorSpec {
        &self.note_bullet
    }

    /// Returns the style of borders.
    #[must_use]
    pub fn source_border(&self) -> &ColorSpec {
        &self.source_border
    }

    /// Returns the style of a label in a diagnostic of a severity.
    #[must_use]
    pub fn label(&self, severity: Severity, label_style: LabelStyle) -> &ColorSpec {
        match (label_style, severity) {
            (LabelStyle::Secondary, _) => &self.secondary_label,
            (LabelStyle::Primary, Severity::Bug) => &self.primary_label_bug,
            (LabelStyle::Primary, Severity::Error) => &self.primary_label_error,
            (LabelStyle::Primary, Severity::Warning) => &self.primary_label_warning,
            (LabelStyle::Primary, Severity::Note) => &self.primary_label_note,
            (LabelStyle::Primary, Severity::Help) => &self.primary_label_help,
        }
    }

    /// Returns styles in which all parts are plain text.
    #[must_use]
    pub fn no_color() -> Styles {
        Styles::new(|_| ColorSpec::new(), |_| ColorSpec::new())
    }

    /// Returns the styles whose headers have the style that `header` returns of their default
    /// color, and the other parts that of `part`.
    fn new(
        header: impl Fn(Option<Color>) -> ColorSpec,
        part: impl Fn(Color) -> ColorSpec,
    ) -> Styles {
        use Severity::{Bug, Error, Help, Note, Warning};
        Styles {
            header_bug: header(Some(color(Bug))),
            header_error: header(Some(color(Error))),
            header_warning: header(Some(color(Warning))),
            header_note: header(Some(color(Note))),
            header_help: header(Some(color(Help))),
            header_message: header(None),
            primary_label_bug: part(color(Bug)),
            primary_label_error: part(color(Error)),
            primary_label_warning: part(color(Warning)),
            primary_label_note: part(color(Note)),
            primary_label_help: part(color(Help)),
            secondary_label: part(OTHER),
            line_number: part(OTHER),
            source_border: part(OTHER),
            note_bullet: part(OTHER),
        }
    }
}

impl Default for Styles {
    fn default() -> Styles {
        Styles::new(header, part)
    }
}

/// Returns the default color of a severity.
fn color(severity: Severity) -> Color {
    match severity {
        Severity::Bug | Severity::Error => Color::Red,
        Severity::Warning => Color::Yellow,
        Severity::Note => Color::Green,
        Severity::Help => Color::Cyan,
    }
}

/// The default color of the parts that have none of a severity.
const OTHER: Color = Color::Cyan;

/// Returns the default style of a part of a header.
fn header(color: Option<Color>) -> ColorSpec {
    let mut spec = ColorSpec::new();
    spec.set_fg(color).set_bold(true).set_intense(true);
    spec
}

/// Returns the default style of another part.
fn part(color: Color) -> ColorSpec {
    let mut spec = ColorSpec::new();
    spec.set_fg(Some(color));
    spec
}

/// A writer of styles over a termcolor writer, in custom styles.
///
/// ```
/// use codespan_reporting::diagnostic::Diagnostic;
/// use codespan_reporting::files::SimpleFile;
/// use codespan_reporting::term::termcolor::Ansi;
/// use codespan_reporting::term::{emit_to_write_style, Config, Styles, StylesWriter};
///
/// let styles = Styles::no_color();
/// let mut output = Ansi::new(Vec::new());
/// emit_to_write_style(
///     &mut StylesWriter::new(&mut output, &styles),
///     &Config::default(),
///     &SimpleFile::new("a.txt", ""),
///     &Diagnostic::bug().with_message("no value"),
/// )?;
/// assert_eq!(output.into_inner(), b"\x1b[0mbug\x1b[0m: no value\x1b[0m\n\n");
/// # Ok::<(), codespan_reporting::files::Error>(())
/// ```
pub struct StylesWriter<'a, W> {
    writer: W,
    styles: &'a Styles,
}

impl<'a, W> StylesWriter<'a, W> {
    /// Returns a writer of styles over `writer`.
    pub fn new(writer: W, style: &'a Styles) -> Self {
        StylesWriter {
            writer,
            styles: style,
        }
    }
}

impl<W: WriteColor> Write for StylesWriter<'_, W> {
    fn write(&mut self, bytes: &[u8]) -> io::Result<usize> {
        self.writer.write(bytes)
    }

    fn flush(&mut self) -> io::Result<()> {
        self.writer.flush()
    }
}

impl<W: WriteColor> WriteStyle for StylesWriter<'_, W> {
    fn set_header(&mut self, severity: Severity) -> io::Result<()> {
        self.writer.set_color(self.styles.header(severity))
    }

    fn set_header_message(&mut self) -> io::Result<()> {
        self.writer.set_color(self.styles.header_message())
    }

    fn set_line_number(&mut self) -> io::Result<()> {
        self.writer.set_color(self.styles.line_number())
    }

    fn set_note_bullet(&mut self) -> io::Result<()> {
        self.writer.set_color(self.styles.note_bullet())
    }

    fn set_source_border(&mut self) -> io::Result<()> {
        self.writer.set_color(self.styles.source_border())
    }

    fn set_label(&mut self, severity: Severity, label_style: LabelStyle) -> io::Result<()> {
        let spec = self.styles.label(severity, label_style);
        self.writer.set_color(spec)
    }

    fn reset(&mut self) -> io::Result<()> {
        self.writer.reset()
    }
}

// The default styles are made one by one, not all of `Styles::default()` at each call.
impl<T: WriteColor + ?Sized> WriteStyle for T {
    fn set_header(&mut self, severity: Severity) -> io::Result<()> {
        self.set_color(&header(Some(color(severity))))
    }

    fn set_header_message(&mut self) -> io::Result<()> {
        self.set_color(&header(None))
    }

    fn set_line_number(&mut self) -> io::Result<()> {
        self.set_color(&part(OTHER))
    }

    fn set_note_bullet(&mut self) -> io::Result<()> {
        self.set_color(&part(OTHER))
    }

    fn set_source_border(&mut self) -> io::Result<()> {
        self.set_color(&part(OTHER))
    }

    fn set_label(&mut self, severity: Severity, label_style: LabelStyle) -> io::Result<()> {
        self.set_color(&part(match label_style {
            LabelStyle::Primary => color(severity),
            LabelStyle::Secondary => OTHER,
        }))
    }

    fn reset(&mut self) -> io::Result<()> {
        WriteColor::reset(self)
    }
}
