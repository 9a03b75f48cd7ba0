//! The configurations in which groups of diagnostics are rendered.

use codespan_reporting::term::{Chars, Config, DisplayStyle};

/// A configuration: what it changes in the default one, and whether the output is in color.
pub struct Configuration {
    pub name: &'static str,
    pub in_color: bool,
    change: fn(&mut Config),
}

impl Configuration {
    const fn in_color(name: &'static str, change: fn(&mut Config)) -> Self {
        Self {
            name,
            in_color: true,
            change,
        }
    }

    const fn plain(name: &'static str, change: fn(&mut Config)) -> Self {
        Self {
            name,
            in_color: false,
            change,
        }
    }

    pub fn config(&self) -> Config {
        let mut config = Config::default();
        (self.change)(&mut config);
        config
    }
}

const RICH_COLOR: Configuration = Configuration::in_color("rich_color", rich);
const MEDIUM_COLOR: Configuration = Configuration::in_color("medium_color", medium);
const SHORT_COLOR: Configuration = Configuration::in_color("short_color", short);
const RICH: Configuration = Configuration::plain("rich_no_color", rich);
const MEDIUM: Configuration = Configuration::plain("medium_no_color", medium);
const SHORT: Configuration = Configuration::plain("short_no_color", short);
const RICH_ASCII: Configuration = Configuration::plain("rich_ascii_no_color", rich_ascii);

const TAB_DEFAULT: Configuration = Configuration::plain("tab_width_default_no_color", |_| ());
const TAB_2: Configuration =
    Configuration::plain("tab_width_2_no_color", |config| config.tab_width = 2);
const TAB_3: Configuration =
    Configuration::plain("tab_width_3_no_color", |config| config.tab_width = 3);
const TAB_6: Configuration =
    Configuration::plain("tab_width_6_no_color", |config| config.tab_width = 6);

const WITHIN_LABELS: Configuration = Configuration::plain("rich_no_color", |config| {
    config.start_context_lines = 2;
    config.end_context_lines = 1;
});
const AROUND_LABELS: Configuration = Configuration::plain("rich_no_color", |config| {
    config.before_label_lines = 2;
    config.after_label_lines = 1;
});

/// Each style in color and without, and the rich one in ASCII.
pub const ALL: &[Configuration] = &[
    RICH_COLOR,
    MEDIUM_COLOR,
    SHORT_COLOR,
    RICH,
    MEDIUM,
    SHORT,
    RICH_ASCII,
];

/// The rich style without color.
pub const RICH_ALONE: &[Configuration] = &[RICH];

/// Each style without color.
pub const PLAIN: &[Configuration] = &[RICH, MEDIUM, SHORT];

/// Each style without color, and the rich one in ASCII.
pub const PLAIN_AND_ASCII: &[Configuration] = &[RICH, MEDIUM, SHORT, RICH_ASCII];

/// The rich style, also in ASCII, and the short one, without color.
pub const RICH_AND_SHORT: &[Configuration] = &[RICH, SHORT, RICH_ASCII];

/// The default tab width, and two others.
pub const TAB_WIDTHS: &[Configuration] = &[TAB_DEFAULT, TAB_3, TAB_6];

/// The same, and one more.
pub const MORE_TAB_WIDTHS: &[Configuration] = &[TAB_DEFAULT, TAB_2, TAB_3, TAB_6];

/// Fewer lines of context than by default at the start of a multi-line label.
pub const CONTEXT_WITHIN: &[Configuration] = &[WITHIN_LABELS];

/// Lines of context before and after each label.
pub const CONTEXT_AROUND: &[Configuration] = &[AROUND_LABELS];

fn rich(config: &mut Config) {
    config.display_style = DisplayStyle::Rich;
}

fn medium(config: &mut Config) {
    config.display_style = DisplayStyle::Medium;
}

fn short(config: &mut Config) {
    config.display_style = DisplayStyle::Short;
}

fn rich_ascii(config: &mut Config) {
    rich(config);
    config.chars = Chars::ascii();
}
