//! Emitting diagnostics.
//!
//! [`emit_into_string`] returns the output, [`emit_to_string`] appends it to a string, and
//! [`emit_to_io_write`] writes it without colors. [`emit_to_write_style`] writes it with styles: in
//! color to any writer of termcolor, or to a custom [`WriteStyle`].

use alloc::string::String;

use crate::diagnostic::Diagnostic;
use crate::files::{Error, Files};
use crate::native::{replay, write_text, Form, Read, Spelling};

mod config;
mod excerpt;
mod labeled_file;
mod renderer;
mod snippets;
#[cfg(feature = "termcolor")]
mod styles;
mod views;

pub(crate) use excerpt::slice;

pub use config::{Chars, Config, DisplayStyle};
pub use renderer::{GeneralWrite, GeneralWriteResult, Renderer, WriteStyle};
#[cfg(feature = "termcolor")]
pub use styles::{Styles, StylesWriter};
#[cfg(feature = "termcolor")]
pub use termcolor;
pub use views::{RichDiagnostic, ShortDiagnostic};

/// Returns the output of a diagnostic, without colors.
///
/// # Errors
///
/// The error of the first lookup that fails.
pub fn emit_into_string<'files, F: Files<'files> + ?Sized>(
    config: &Config,
    files: &'files F,
    diagnostic: &Diagnostic<F::FileId>,
) -> Result<String, Error> {
    text_output(config, files, diagnostic, Spelling::Plain)
}

/// Appends the output of a diagnostic, without colors, to a string.
///
/// # Errors
///
/// The error of the first lookup that fails. The string is unchanged then.
pub fn emit_to_string<'files, F: Files<'files> + ?Sized>(
    writer: &mut String,
    config: &Config,
    files: &'files F,
    diagnostic: &Diagnostic<F::FileId>,
) -> Result<(), Error> {
    let length = writer.len();
    let result = emit_output(config, files, diagnostic, Spelling::Plain, &mut |output| {
        writer.push_str(output.text());
        Ok(())
    });
    if result.is_err() {
        writer.truncate(length);
    }
    result
}

/// Writes the output of a diagnostic, without colors.
///
/// # Errors
///
/// [`Error::Io`] where the writer fails, after a prefix of the output; or the error of the first
/// lookup that fails, before anything is written, or, in short and medium style, after the headers
/// of the labels before.
#[cfg(feature = "std")]
pub fn emit_to_io_write<'files, F: Files<'files> + ?Sized, W: std::io::Write + ?Sized>(
    writer: &mut W,
    config: &Config,
    files: &'files F,
    diagnostic: &Diagnostic<F::FileId>,
) -> Result<(), Error> {
    emit_plain(writer, config, files, diagnostic)
}

/// Writes the output of a diagnostic, with styles.
///
/// `ColorChoice::Auto` of termcolor looks at `TERM` and `NO_COLOR`, not at whether the stream is a
/// terminal: pass `ColorChoice::Never` where `std::io::IsTerminal` says that it is none.
///
/// ```
/// use codespan_reporting::diagnostic::{Diagnostic, Label};
/// use codespan_reporting::files::SimpleFile;
/// use codespan_reporting::term::termcolor::{ColorChoice, StandardStream};
/// use codespan_reporting::term::{emit_to_write_style, Config};
///
/// let file = SimpleFile::new("poem.txt", "roses are red\nviolets are read\n");
/// let diagnostic = Diagnostic::warning()
///     .with_message("unlikely rhyme")
///     .with_label(Label::primary((), 26..30).with_message("did you mean `blue`?"));
///
/// let stderr = StandardStream::stderr(ColorChoice::Auto);
/// emit_to_write_style(&mut stderr.lock(), &Config::default(), &file, &diagnostic)?;
/// # Ok::<(), codespan_reporting::files::Error>(())
/// ```
///
/// # Errors
///
/// Those of [`emit_to_io_write`].
pub fn emit_to_write_style<'files, F: Files<'files> + ?Sized, W: WriteStyle + ?Sized>(
    writer: &mut W,
    config: &Config,
    files: &'files F,
    diagnostic: &Diagnostic<F::FileId>,
) -> Result<(), Error> {
    emit_output(
        config,
        files,
        diagnostic,
        Spelling::StyleMarks,
        &mut |output| replay(output.bytes(), writer),
    )
}

/// Writes the output of a diagnostic, without colors.
///
/// # Errors
///
/// Those of [`emit_to_io_write`].
#[deprecated(
    since = "0.13.0",
    note = "use `emit_to_write_style` for colors, `emit_to_io_write` or `emit_to_string` without"
)]
pub fn emit<'files, F: Files<'files> + ?Sized, W: GeneralWrite + ?Sized>(
    writer: &mut W,
    config: &Config,
    files: &'files F,
    diagnostic: &Diagnostic<F::FileId>,
) -> Result<(), Error> {
    emit_plain(writer, config, files, diagnostic)
}

fn emit_plain<'files, F: Files<'files> + ?Sized, W: GeneralWrite + ?Sized>(
    writer: &mut W,
    config: &Config,
    files: &'files F,
    diagnostic: &Diagnostic<F::FileId>,
) -> Result<(), Error> {
    emit_output(config, files, diagnostic, Spelling::Plain, &mut |output| {
        write_text(writer, output.text())
    })
}

/// Returns the output of a diagnostic in a form that is UTF-8.
pub(crate) fn text_output<'files, F: Files<'files> + ?Sized>(
    config: &Config,
    files: &'files F,
    diagnostic: &Diagnostic<F::FileId>,
    form: impl Into<Form>,
) -> Result<String, Error> {
    let mut text = String::new();
    emit_output(config, files, diagnostic, form, &mut |output| {
        text = output.text().into();
        Ok(())
    })?;
    Ok(text)
}

/// Renders a diagnostic in the style of a configuration, and passes the output to `read`.
fn emit_output<'files, F: Files<'files> + ?Sized>(
    config: &Config,
    files: &'files F,
    diagnostic: &Diagnostic<F::FileId>,
    form: impl Into<Form>,
    read: Read<'_>,
) -> Result<(), Error> {
    let form = form.into();
    let show_notes = match config.display_style {
        DisplayStyle::Rich => {
            return RichDiagnostic::new(diagnostic, config).output(files, config, form, read)
        }
        DisplayStyle::Medium => true,
        DisplayStyle::Short => false,
    };
    ShortDiagnostic::new(diagnostic, show_notes).output(files, config, form, read)
}
