//! Tabs, and characters of other lengths and widths.

use codespan_reporting::diagnostic::{Diagnostic, Label};
use codespan_reporting::files::{SimpleFile, SimpleFiles};

use super::Data;

const GARDEN: &str = "\
Garden:
\tOrchards:
\t\tApples: Russet
\t\tHarvestingInterval:\tevery-two-weeks
\tSun: Yes";

pub fn tabbed() -> Data<SimpleFiles<&'static str, String>, usize> {
    let mut files = SimpleFiles::new();
    let file = files.add("garden", GARDEN.to_owned());
    let diagnostics = [
        (29..35, "no apple is named `Russet`", "this name"),
        (58..73, "no interval is `every-two-weeks`", "this interval"),
        (75..78, "a garden has no `Sun`", "this key"),
    ];
    let diagnostics = diagnostics.map(|(range, message, label)| {
        let label = Label::primary(file, range).with_message(label);
        Diagnostic::warning()
            .with_message(message)
            .with_labels(vec![label])
    });
    Data {
        files,
        diagnostics: diagnostics.into(),
    }
}

pub fn tab_columns() -> Data<SimpleFiles<&'static str, String>, usize> {
    const WORD: &str = "stone";
    let lines: Vec<String> = (0..=6)
        .map(|count| "∙".repeat(count) + "\t" + WORD)
        .collect();
    let source = lines.join("\n");
    let ranges: Vec<_> = source
        .match_indices(WORD)
        .map(|(start, word)| start..start + word.len())
        .collect();

    let mut files = SimpleFiles::new();
    let file = files.add("tab_columns", source);
    let labels = ranges.into_iter().map(|range| Label::primary(file, range));
    let diagnostic = Diagnostic::warning()
        .with_message("a tab before a word")
        .with_labels(labels.collect());
    Data {
        files,
        diagnostics: vec![diagnostic],
    }
}

/// A note of many lines.
const LOCALES: &str = "\
there are:
  - arabic
  - bengali-india
  - C
  - catalan
  - croatian
  - norwegian
  - portuguese-brazil
  - serbian-montenegro
  - Roman-Latin
  - estonian
  - hungarian
  - lower-sorbian
  - icelandic
  - japanese
  - javanese
  - kazakhstan
  - macedonian
  - indonesian
  - samoan
  - upper-sorbian
";

pub fn unicode() -> Data<SimpleFile<&'static str, String>, ()> {
    // Three wide characters, and one with two more accents.
    let prefix = "locale ";
    let name = "\"風林火é\u{301}\u{301}\"";
    let source = format!("{prefix}{name} as label(x)");
    let range = prefix.len()..prefix.len() + name.len();
    let diagnostics = vec![
        Diagnostic::error()
            .with_code("E0128")
            .with_message("no locale is named `風林火é\u{301}\u{301}`")
            .with_labels(vec![Label::primary((), range).with_message("not a locale")])
            .with_notes(vec![LOCALES.to_owned()]),
        Diagnostic::error()
            .with_message("nothing was built, as there is an error")
            .with_notes(vec!["Every error is explained by `manual CODE`.".to_owned()]),
    ];
    Data {
        files: SimpleFile::new("locale.cfg", source),
        diagnostics,
    }
}

/// Characters of four bytes, and labels that begin or end within one.
pub fn unicode_spans() -> Data<SimpleFile<&'static str, String>, ()> {
    let hours = "🦉🕐🦉🕑🦉🕒🦉🕓🦉🕔🦉🕕🦉🕖🦉🕗🦉";
    let label = |range| Label::secondary((), range);
    let outside = |label| {
        Diagnostic::note()
            .with_message("no whole characters")
            .with_labels(vec![label])
    };
    let diagnostics = vec![
        Diagnostic::error()
            .with_code("E07")
            .with_message("an owl is awake at one o'clock.")
            .with_labels(vec![Label::primary((), 1..3).with_message("Not asleep")]),
        outside(label(1..4).with_message("Begins within an owl.")),
        outside(label(8..11).with_message("Ends within an owl.")),
        outside(label(1..11).with_message("Begins and ends within owls.")),
    ];
    Data {
        files: SimpleFile::new("owl_hours.md", hours.to_owned()),
        diagnostics,
    }
}
