//! The style sheet of HTML elements.

use alloc::string::String;

use crate::native::{style_sheet, ColorSpec, NativeStyles};

#[cfg(feature = "termcolor")]
mod colors;

#[cfg(feature = "termcolor")]
pub use colors::html_styles_of;

// The colors of the default styles, by their numbers in the header.
const NONE: u32 = 0;
const RED: u32 = 2;
const GREEN: u32 = 3;
const YELLOW: u32 = 4;
const CYAN: u32 = 7;

/// Returns the CSS style sheet of the elements of [`to_html`](crate::extra::to_html), in the
/// default styles. They are meant for a dark page, whose background is the page's own.
///
/// ```
/// use codespan_reporting::extra::html_styles;
///
/// let css = html_styles();
/// assert!(css.contains(".diagnostic .secondary-label { color: #00cdcd; }\n"));
/// ```
#[must_use]
pub fn html_styles() -> String {
    style_sheet(&default_styles())
}

/// Returns the default styles.
fn default_styles() -> NativeStyles {
    [
        header(RED),
        header(RED),
        header(YELLOW),
        header(GREEN),
        header(CYAN),
        header(NONE),
        part(RED),
        part(RED),
        part(YELLOW),
        part(GREEN),
        part(CYAN),
        part(CYAN),
        part(CYAN),
        part(CYAN),
        part(CYAN),
    ]
}

/// Returns the default style of a part of a header.
fn header(color: u32) -> ColorSpec {
    ColorSpec {
        bold: 1,
        intense: 1,
        ..part(color)
    }
}

/// Returns the default style of another part.
fn part(color: u32) -> ColorSpec {
    ColorSpec {
        fg: color,
        ..ColorSpec::default()
    }
}
