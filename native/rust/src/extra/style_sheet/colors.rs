//! Styles of termcolor, as the archive takes them.

use alloc::string::String;

use termcolor::{Color, ColorSpec};

use crate::native::{self, style_sheet};
use crate::term::Styles;

/// Returns the CSS style sheet of the elements of [`to_html`](crate::extra::to_html), in these
/// styles; or `None` where one has what the sheet does not have: a color by `Ansi256` or `Rgb`, or
/// more than `fg`, `bg`, `bold` and `intense`, such as `underline`.
///
/// ```
/// use codespan_reporting::extra::html_styles_of;
/// use codespan_reporting::term::termcolor::{Color, ColorSpec};
/// use codespan_reporting::term::Styles;
///
/// let mut magenta = ColorSpec::new();
/// magenta.set_fg(Some(Color::Magenta)).set_bold(true);
/// let styles = Styles {
///     header_warning: magenta,
///     ..Styles::default()
/// };
/// let css = html_styles_of(&styles).expect("a sheet has these styles");
/// let rule = ".diagnostic .header-warning { color: #cd00cd; font-weight: bold; }\n";
/// assert!(css.contains(rule));
/// ```
#[must_use]
pub fn html_styles_of(styles: &Styles) -> Option<String> {
    let specs = [
        &styles.header_bug,
        &styles.header_error,
        &styles.header_warning,
        &styles.header_note,
        &styles.header_help,
        &styles.header_message,
        &styles.primary_label_bug,
        &styles.primary_label_error,
        &styles.primary_label_warning,
        &styles.primary_label_note,
        &styles.primary_label_help,
        &styles.secondary_label,
        &styles.line_number,
        &styles.source_border,
        &styles.note_bullet,
    ];
    let mut native = native::NativeStyles::default();
    for (native, spec) in native.iter_mut().zip(specs) {
        *native = color_spec(spec)?;
    }
    Some(style_sheet(&native))
}

/// Returns a style by its numbers in the header, if it has one.
fn color_spec(spec: &ColorSpec) -> Option<native::ColorSpec> {
    let mut known = ColorSpec::new();
    known
        .set_fg(spec.fg().copied())
        .set_bg(spec.bg().copied())
        .set_bold(spec.bold())
        .set_intense(spec.intense());
    if known != *spec {
        return None;
    }
    Some(native::ColorSpec {
        fg: color(spec.fg())?,
        bg: color(spec.bg())?,
        bold: spec.bold().into(),
        intense: spec.intense().into(),
    })
}

/// Returns the number of a color, which is 0 for none, if it has one.
fn color(color: Option<&Color>) -> Option<u32> {
    Some(match color {
        None => 0,
        Some(Color::Black) => 1,
        Some(Color::Red) => 2,
        Some(Color::Green) => 3,
        Some(Color::Yellow) => 4,
        Some(Color::Blue) => 5,
        Some(Color::Magenta) => 6,
        Some(Color::Cyan) => 7,
        Some(Color::White) => 8,
        Some(_) => return None,
    })
}
