//! How diagnostics are rendered: the style, the characters and the lines of context.

use alloc::string::String;

/// How a diagnostic is rendered.
///
/// ```
/// use codespan_reporting::term::{Chars, Config, DisplayStyle};
///
/// let config = Config {
///     display_style: DisplayStyle::Medium,
///     chars: Chars::ascii(),
///     ..Config::default()
/// };
/// assert_eq!(config.tab_width, 4);
/// ```
#[derive(Clone, Debug)]
pub struct Config {
    /// How much of a diagnostic is rendered. By default [`DisplayStyle::Rich`].
    pub display_style: DisplayStyle,
    /// The cells between tab stops. By default 4. Tabs of width 0 are not shown, and a width above
    /// 1,024 is taken as 1,024.
    pub tab_width: usize,
    /// The characters of borders, carets and underlines. By default [`Chars::box_drawing`].
    pub chars: Chars,
    /// The number of lines that are shown after the first line of a multi-line label. By default 3.
    pub start_context_lines: usize,
    /// The number of lines that are shown before the last line of a multi-line label. By default 1.
    pub end_context_lines: usize,
    /// The number of lines that are shown before the first line of a label. By default 0.
    pub before_label_lines: usize,
    /// The number of lines that are shown after the last line of a label. By default 0.
    pub after_label_lines: usize,
}

impl Default for Config {
    fn default() -> Config {
        Config {
            display_style: DisplayStyle::Rich,
            tab_width: 4,
            chars: Chars::default(),
            start_context_lines: 3,
            end_context_lines: 1,
            before_label_lines: 0,
            after_label_lines: 0,
        }
    }
}

/// How much of a diagnostic is rendered.
#[derive(Clone, Debug)]
pub enum DisplayStyle {
    /// A header, the labeled lines of each file, and the notes.
    ///
    /// ```text
    /// error[E0001]: invalid value for `retries`
    ///   ┌─ settings.conf:1:11
    ///   │
    /// 1 │ retries = many
    ///   │           ^^^^ expected a number
    ///   │
    ///   = a number of seconds
    /// ```
    Rich,
    /// A header for each primary label, with its location, and the notes. Without a primary label,
    /// one header without a location.
    ///
    /// ```text
    /// settings.conf:1:11: error[E0001]: invalid value for `retries`
    ///  = a number of seconds
    /// ```
    Medium,
    /// A header for each primary label, with its location. Without a primary label, one header
    /// without a location.
    ///
    /// ```text
    /// settings.conf:1:11: error[E0001]: invalid value for `retries`
    /// ```
    Short,
}

/// The characters of borders, carets, underlines, pointers and bullets.
///
/// Each field lists the default, that of [`Chars::box_drawing`], and then that of [`Chars::ascii`]
/// where it is another one.
#[derive(Clone, Debug)]
pub struct Chars {
    /// The text before a snippet's location: `"┌─"`, or `"-->"`.
    pub snippet_start: String,
    /// The left border of a line: `'│'`, or `'|'`.
    pub source_border_left: char,
    /// The left border where lines are omitted: `'·'`, or `'.'`.
    pub source_border_left_break: char,

    /// The bullet of a note: `'='`.
    pub note_bullet: char,

    /// The caret of a primary label inside a line: `'^'`.
    pub single_primary_caret: char,
    /// The caret of a secondary label inside a line: `'-'`.
    pub single_secondary_caret: char,

    /// The caret at the start of a primary multi-line label: `'^'`.
    pub multi_primary_caret_start: char,
    /// The caret at the end of a primary multi-line label: `'^'`.
    pub multi_primary_caret_end: char,
    /// The caret at the start of a secondary multi-line label: `'\''`.
    pub multi_secondary_caret_start: char,
    /// The caret at the end of a secondary multi-line label: `'\''`.
    pub multi_secondary_caret_end: char,
    /// The top left corner of a multi-line label: `'╭'`, or `'/'`.
    pub multi_top_left: char,
    /// The underline from that corner to the start of the label: `'─'`, or `'-'`.
    pub multi_top: char,
    /// The bottom left corner of a multi-line label: `'╰'`, or `'\'`.
    pub multi_bottom_left: char,
    /// The underline from that corner to the end of the label: `'─'`, or `'-'`.
    pub multi_bottom: char,
    /// The bar of a multi-line label: `'│'`, or `'|'`.
    pub multi_left: char,

    /// The pointer from a hanging message up to its label: `'│'`, or `'|'`.
    pub pointer_left: char,
}

impl Default for Chars {
    fn default() -> Chars {
        Chars::box_drawing()
    }
}

impl Chars {
    /// Returns the characters with Unicode's box drawing characters.
    #[must_use]
    pub fn box_drawing() -> Chars {
        Chars {
            snippet_start: "┌─".into(),
            source_border_left: '│',
            source_border_left_break: '·',
            multi_top_left: '╭',
            multi_top: '─',
            multi_bottom_left: '╰',
            multi_bottom: '─',
            multi_left: '│',
            pointer_left: '│',
            ..Chars::ascii()
        }
    }

    /// Returns the characters for terminals that show ASCII alone.
    #[must_use]
    pub fn ascii() -> Chars {
        Chars {
            snippet_start: "-->".into(),
            source_border_left: '|',
            source_border_left_break: '.',
            note_bullet: '=',
            single_primary_caret: '^',
            single_secondary_caret: '-',
            multi_primary_caret_start: '^',
            multi_primary_caret_end: '^',
            multi_secondary_caret_start: '\'',
            multi_secondary_caret_end: '\'',
            multi_top_left: '/',
            multi_top: '-',
            multi_bottom_left: '\\',
            multi_bottom: '-',
            multi_left: '|',
            pointer_left: '|',
        }
    }
}
