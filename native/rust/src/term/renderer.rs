//! The writers that an output is written to.

use crate::diagnostic::{LabelStyle, Severity};
use crate::term::Config;

#[cfg(feature = "std")]
pub use std::io::Write as GeneralWrite;

/// The result of a write, or of a change of style.
#[cfg(feature = "std")]
pub type GeneralWriteResult = std::io::Result<()>;

#[cfg(not(feature = "std"))]
pub use core::fmt::Write as GeneralWrite;

/// The result of a write, or of a change of style.
#[cfg(not(feature = "std"))]
pub type GeneralWriteResult = core::fmt::Result;

/// A writer that receives the style of each part of an output.
///
/// What is written after a call `set_..`, up to the next one or to [`reset`](WriteStyle::reset),
/// has that style. With the feature `termcolor` each `WriteColor` is one, in the default
/// [`Styles`](crate::term::Styles); for other styles there
/// is [`StylesWriter`](crate::term::StylesWriter).
///
/// ```
/// use codespan_reporting::diagnostic::{Diagnostic, LabelStyle, Severity};
/// use codespan_reporting::files::SimpleFile;
/// use codespan_reporting::term::{emit_to_write_style, Config, WriteStyle};
/// use std::io::{self, Write};
///
/// /// Writes the main message in bold, as HTML.
/// struct Html(Vec<u8>);
///
/// impl Write for Html {
///     fn write(&mut self, bytes: &[u8]) -> io::Result<usize> {
///         self.0.write(bytes)
///     }
///
///     fn flush(&mut self) -> io::Result<()> {
///         Ok(())
///     }
/// }
///
/// impl WriteStyle for Html {
///     fn set_header(&mut self, _severity: Severity) -> io::Result<()> {
///         Ok(())
///     }
///     fn set_header_message(&mut self) -> io::Result<()> {
///         self.write_all(b"<b>")
///     }
///     fn set_line_number(&mut self) -> io::Result<()> {
///         Ok(())
///     }
///     fn set_note_bullet(&mut self) -> io::Result<()> {
///         Ok(())
///     }
///     fn set_source_border(&mut self) -> io::Result<()> {
///         Ok(())
///     }
///     fn set_label(&mut self, _severity: Severity, _style: LabelStyle) -> io::Result<()> {
///         Ok(())
///     }
///     fn reset(&mut self) -> io::Result<()> {
///         self.write_all(b"</b>")
///     }
/// }
///
/// let mut html = Html(Vec::new());
/// let files = SimpleFile::new("a.txt", "");
/// let diagnostic = Diagnostic::note().with_message("done");
/// emit_to_write_style(&mut html, &Config::default(), &files, &diagnostic)?;
/// assert_eq!(html.0, b"note<b>: done</b>\n\n");
/// # Ok::<(), codespan_reporting::files::Error>(())
/// ```
pub trait WriteStyle: GeneralWrite {
    /// Sets the style of the severity and the code in a header.
    ///
    /// # Errors
    ///
    /// Those of the writer, as in the other calls.
    fn set_header(&mut self, severity: Severity) -> GeneralWriteResult;

    /// Sets the style of the message in a header.
    #[allow(clippy::missing_errors_doc)]
    fn set_header_message(&mut self) -> GeneralWriteResult;

    /// Sets the style of line numbers.
    #[allow(clippy::missing_errors_doc)]
    fn set_line_number(&mut self) -> GeneralWriteResult;

    /// Sets the style of the bullet of a note.
    #[allow(clippy::missing_errors_doc)]
    fn set_note_bullet(&mut self) -> GeneralWriteResult;

    /// Sets the style of borders.
    #[allow(clippy::missing_errors_doc)]
    fn set_source_border(&mut self) -> GeneralWriteResult;

    /// Sets the style of a label's carets, underlines and message, in a diagnostic of a severity.
    #[allow(clippy::missing_errors_doc)]
    fn set_label(&mut self, severity: Severity, label_style: LabelStyle) -> GeneralWriteResult;

    /// Sets the style of plain text.
    #[allow(clippy::missing_errors_doc)]
    fn reset(&mut self) -> GeneralWriteResult;
}

/// A writer of styles and a configuration, which the views of [`term`](crate::term) render to.
///
/// It is a [`WriteStyle`] itself, which forwards each call to the writer.
///
/// ```
/// use codespan_reporting::diagnostic::Diagnostic;
/// use codespan_reporting::files::SimpleFile;
/// use codespan_reporting::term::{termcolor::NoColor, Config, Renderer, ShortDiagnostic};
///
/// let config = Config::default();
/// let mut writer = NoColor::new(Vec::new());
/// let diagnostic = Diagnostic::help().with_message("try `--force`");
/// ShortDiagnostic::new(&diagnostic, false).render(
///     &SimpleFile::new("a.txt", ""),
///     &mut Renderer::new(&mut writer, &config),
/// )?;
/// assert_eq!(writer.into_inner(), b"help: try `--force`\n");
/// # Ok::<(), codespan_reporting::files::Error>(())
/// ```
pub struct Renderer<'writer, 'config> {
    writer: &'writer mut dyn WriteStyle,
    config: &'config Config,
}

impl<'writer, 'config> Renderer<'writer, 'config> {
    /// Returns a renderer over a writer, with the characters and the tab width of a configuration.
    pub fn new(
        writer: &'writer mut dyn WriteStyle,
        config: &'config Config,
    ) -> Renderer<'writer, 'config> {
        Renderer { writer, config }
    }

    pub(crate) fn config(&self) -> &'config Config {
        self.config
    }
}

#[cfg(feature = "std")]
impl std::io::Write for Renderer<'_, '_> {
    fn write(&mut self, bytes: &[u8]) -> std::io::Result<usize> {
        self.writer.write(bytes)
    }

    fn flush(&mut self) -> std::io::Result<()> {
        self.writer.flush()
    }
}

#[cfg(not(feature = "std"))]
impl core::fmt::Write for Renderer<'_, '_> {
    fn write_str(&mut self, text: &str) -> core::fmt::Result {
        self.writer.write_str(text)
    }
}

impl WriteStyle for Renderer<'_, '_> {
    fn set_header(&mut self, severity: Severity) -> GeneralWriteResult {
        self.writer.set_header(severity)
    }

    fn set_header_message(&mut self) -> GeneralWriteResult {
        self.writer.set_header_message()
    }

    fn set_line_number(&mut self) -> GeneralWriteResult {
        self.writer.set_line_number()
    }

    fn set_note_bullet(&mut self) -> GeneralWriteResult {
        self.writer.set_note_bullet()
    }

    fn set_source_border(&mut self) -> GeneralWriteResult {
        self.writer.set_source_border()
    }

    fn set_label(&mut self, severity: Severity, label_style: LabelStyle) -> GeneralWriteResult {
        self.writer.set_label(severity, label_style)
    }

    fn reset(&mut self) -> GeneralWriteResult {
        self.writer.reset()
    }
}
