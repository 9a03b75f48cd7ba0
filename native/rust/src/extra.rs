//! What the original does not have: safe text for a terminal, HTML and SVG, and lines of a greatest
//! width; positions of an editor, and edits of a text.
//!
//! Safe text has what a terminal shows: no control character but tab and newline, no directional
//! control, and no escape sequence but those of colors. So no name, source or message can start an
//! escape sequence or reorder a row. HTML and SVG show the same characters.
//!
//! Each function that renders takes a configuration of the original, or [`Settings`] with what such
//! a one lacks. It fails with the error of the first lookup that fails, and panics where
//! [`emit_into_string`](crate::term::emit_into_string) does.

use alloc::string::String;
use core::num::NonZeroUsize;

use crate::diagnostic::Diagnostic;
use crate::files::{Error, Files};
use crate::native::{Form, Spelling};
use crate::term::{text_output, Config};

mod edits;
mod positions;
mod style_sheet;

pub use edits::{apply_edits, Edit, EditError};
pub use positions::{byte, position, Encoding, Position};
pub use style_sheet::html_styles;
#[cfg(feature = "termcolor")]
pub use style_sheet::html_styles_of;

/// A configuration of the original, with what it does not have.
///
/// ```
/// use std::num::NonZeroUsize;
///
/// use codespan_reporting::diagnostic::{Diagnostic, Label};
/// use codespan_reporting::extra::{safe, Settings};
/// use codespan_reporting::files::SimpleFile;
/// use codespan_reporting::term::Config;
///
/// let file = SimpleFile::new("f", "a line that a wide terminal shows whole\n");
/// let diagnostic = Diagnostic::note().with_label(Label::primary((), 2..6));
/// let config = Config::default();
/// let settings = Settings {
///     max_width: NonZeroUsize::new(80),
///     ..Settings::from(&config)
/// };
/// assert_eq!(
///     safe(settings, &file, &diagnostic)?,
///     safe(&config, &file, &diagnostic)?
/// );
/// # Ok::<(), codespan_reporting::files::Error>(())
/// ```
#[derive(Clone, Copy, Debug)]
pub struct Settings<'a> {
    /// The configuration.
    pub config: &'a Config,
    /// The greatest width of a line of the source, in cells of a terminal, with the gutter. A line
    /// that is wider is shortened: `...` stands for what is left out, and the carets stay under the
    /// characters of their labels. `None`: lines are whole.
    pub max_width: Option<NonZeroUsize>,
}

impl<'a> From<&'a Config> for Settings<'a> {
    fn from(config: &'a Config) -> Settings<'a> {
        Settings {
            config,
            max_width: None,
        }
    }
}

/// Returns the output of a diagnostic as safe text, without colors.
///
/// ```
/// use codespan_reporting::diagnostic::Diagnostic;
/// use codespan_reporting::extra::safe;
/// use codespan_reporting::files::SimpleFiles;
/// use codespan_reporting::term::Config;
///
/// let files = SimpleFiles::<&str, &str>::new();
/// let diagnostic = Diagnostic::note().with_message("clear\u{1b}[2J");
/// assert_eq!(safe(&Config::default(), &files, &diagnostic)?, "note: clear[2J\n\n");
/// # Ok::<(), codespan_reporting::files::Error>(())
/// ```
///
/// # Errors
///
/// The error of the first lookup that fails.
pub fn safe<'settings, 'files, F: Files<'files> + ?Sized>(
    config: impl Into<Settings<'settings>>,
    files: &'files F,
    diagnostic: &Diagnostic<F::FileId>,
) -> Result<String, Error> {
    output(config.into(), files, diagnostic, Spelling::Safe)
}

/// Returns the output of a diagnostic as safe text for a terminal, in the default styles.
///
/// # Errors
///
/// The error of the first lookup that fails.
pub fn safe_in_color<'settings, 'files, F: Files<'files> + ?Sized>(
    config: impl Into<Settings<'settings>>,
    files: &'files F,
    diagnostic: &Diagnostic<F::FileId>,
) -> Result<String, Error> {
    output(config.into(), files, diagnostic, Spelling::SafeInColor)
}

/// Returns the output of a diagnostic as an HTML element, `pre`, with a class for each style.
///
/// # Errors
///
/// The error of the first lookup that fails.
pub fn to_html<'settings, 'files, F: Files<'files> + ?Sized>(
    config: impl Into<Settings<'settings>>,
    files: &'files F,
    diagnostic: &Diagnostic<F::FileId>,
) -> Result<String, Error> {
    output(config.into(), files, diagnostic, Spelling::Html)
}

/// Returns the output of a diagnostic as an SVG document, in the default styles.
///
/// # Errors
///
/// The error of the first lookup that fails.
pub fn to_svg<'settings, 'files, F: Files<'files> + ?Sized>(
    config: impl Into<Settings<'settings>>,
    files: &'files F,
    diagnostic: &Diagnostic<F::FileId>,
) -> Result<String, Error> {
    output(config.into(), files, diagnostic, Spelling::Svg)
}

/// Returns the output of a diagnostic in a form.
fn output<'files, F: Files<'files> + ?Sized>(
    settings: Settings<'_>,
    files: &'files F,
    diagnostic: &Diagnostic<F::FileId>,
    spelling: Spelling,
) -> Result<String, Error> {
    let form = Form {
        spelling,
        max_width: settings.max_width,
    };
    text_output(settings.config, files, diagnostic, form)
}
