//! Groups of diagnostics, and what the crate `codespan_reporting` renders of them. Both crates are
//! compiled with this module: this one by `tests/original.rs`, and the original by `compare`.
//!
//! The groups have the names and the structure of those in the original's test: severities, codes,
//! ranges and styles of labels, lengths of lines, numbers of notes. Their texts are other ones. The
//! groups of `lines` are not in the original's test.

use codespan_reporting::diagnostic::Diagnostic;
use codespan_reporting::files::Files;
use codespan_reporting::term::{emit_to_string, Config};

mod characters;
mod configurations;
mod lines;
mod messages;
mod multi_line;
mod one_line;
mod overlapping;

use configurations::{
    Configuration, ALL, CONTEXT_AROUND, CONTEXT_WITHIN, MORE_TAB_WIDTHS, PLAIN, PLAIN_AND_ASCII,
    RICH_ALONE, RICH_AND_SHORT, TAB_WIDTHS,
};

/// Files and diagnostics over them.
pub struct Data<F, Id> {
    files: F,
    diagnostics: Vec<Diagnostic<Id>>,
}

/// Emits the diagnostics of a group, one after another, as one output.
trait Emit {
    fn plain(&self, config: &Config) -> String;

    #[cfg(feature = "termcolor")]
    fn in_color(&self, config: &Config) -> String;
}

impl<F, Id> Emit for Data<F, Id>
where
    F: for<'files> Files<'files, FileId = Id>,
{
    fn plain(&self, config: &Config) -> String {
        let mut output = String::new();
        for diagnostic in &self.diagnostics {
            emit_to_string(&mut output, config, &self.files, diagnostic).unwrap();
        }
        output
    }

    #[cfg(feature = "termcolor")]
    fn in_color(&self, config: &Config) -> String {
        use codespan_reporting::term::termcolor::Ansi;
        use codespan_reporting::term::{emit_to_write_style, Styles, StylesWriter};

        let styles = Styles::default();
        let mut output = Ansi::new(Vec::new());
        let mut writer = StylesWriter::new(&mut output, &styles);
        for diagnostic in &self.diagnostics {
            emit_to_write_style(&mut writer, config, &self.files, diagnostic).unwrap();
        }
        String::from_utf8(output.into_inner()).unwrap()
    }
}

/// Returns each output with its name, without those in color where there are no colors.
pub fn outputs() -> Vec<(String, String)> {
    let mut outputs = Vec::new();
    for (name, configurations, data) in groups() {
        for configuration in configurations {
            if let Some(output) = render(data.as_ref(), configuration) {
                outputs.push((format!("{name}.{}", configuration.name), shown(&output)));
            }
        }
    }
    outputs
}

fn render(data: &dyn Emit, configuration: &Configuration) -> Option<String> {
    let config = configuration.config();
    if !configuration.in_color {
        return Some(data.plain(&config));
    }
    #[cfg(feature = "termcolor")]
    return Some(data.in_color(&config));
    #[cfg(not(feature = "termcolor"))]
    None
}

/// Returns an output whose control characters can be seen.
fn shown(output: &str) -> String {
    output.replace('\x1b', "\\e").replace('\t', "\\t")
}

type Group = (&'static str, &'static [Configuration], Box<dyn Emit>);

#[rustfmt::skip]
fn groups() -> Vec<Group> {
    vec![
        ("empty", ALL, Box::new(messages::empty())),
        ("same_line", ALL, Box::new(one_line::same_line())),
        ("overlapping", ALL, Box::new(overlapping::overlapping())),
        ("message", ALL, Box::new(messages::message())),
        ("message_and_notes", ALL, Box::new(messages::message_and_notes())),
        ("message_errorcode", RICH_AND_SHORT, Box::new(messages::message_errorcode())),
        ("empty_ranges", ALL, Box::new(one_line::empty_ranges())),
        ("same_ranges", ALL, Box::new(one_line::same_ranges())),
        ("multifile", ALL, Box::new(one_line::multifile())),
        ("fizz_buzz", ALL, Box::new(multi_line::fizz_buzz())),
        ("multiline_overlapping", ALL, Box::new(multi_line::multiline_overlapping())),
        ("tabbed", TAB_WIDTHS, Box::new(characters::tabbed())),
        ("tab_columns", MORE_TAB_WIDTHS, Box::new(characters::tab_columns())),
        ("unicode", PLAIN, Box::new(characters::unicode())),
        ("unicode_spans", PLAIN, Box::new(characters::unicode_spans())),
        ("position_indicator", PLAIN_AND_ASCII, Box::new(one_line::position_indicator())),
        ("multiline_omit", CONTEXT_WITHIN, Box::new(multi_line::multiline_omit())),
        ("surrounding_lines", CONTEXT_AROUND, Box::new(multi_line::surrounding_lines())),
        ("empty_line_at_next_start", RICH_ALONE, Box::new(lines::empty_line_at_next_start())),
        ("overlapping_lines", RICH_ALONE, Box::new(lines::overlapping_lines())),
        ("descending_lines", RICH_ALONE, Box::new(lines::descending_lines())),
        ("hidden_lines_outside", CONTEXT_WITHIN, Box::new(lines::hidden_lines_outside())),
        ("numbers_of_hidden_lines", CONTEXT_WITHIN, Box::new(lines::numbers_of_hidden_lines())),
    ]
}
