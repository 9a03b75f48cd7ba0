//! The stored cases of the gallery, rendered by this crate: each output is the stored one, byte by
//! byte. This crate renders no suggestions, so where a case has some the output is what is above
//! them.
//!
//! tools/gallery has the format of cases and outputs; the readers of cases, and of files with set
//! line numbers, are those of tools/compare.

use std::collections::{BTreeMap, BTreeSet};
use std::fs;
use std::path::PathBuf;

use codespan_reporting::diagnostic::{Diagnostic, Label};
use codespan_reporting::files::{Error, Files, SimpleFile, SimpleFiles};
use codespan_reporting::term::emit_into_string;

#[rustfmt::skip]
#[path = "../../../tools/compare/src/case.rs"]
#[allow(clippy::all)]
mod case;
#[rustfmt::skip]
#[path = "../../../tools/compare/src/mapped.rs"]
#[allow(clippy::all)]
mod mapped;

use case::{Case, DatabaseKind};
use mapped::MappedFile;

/// The cases whose output in the layout `unbroken`, which this crate does not have, is not that of
/// the classic one.
const UNBROKEN: &str = "difference There is a second layout, `Layout::Unbroken`";

/// The cases with a width that a line does not fit. Only the calls of `extra` take a width.
const FITTED: &str = "difference With `Config::max_width` a line that does not fit is shortened";

#[test]
fn outputs_are_the_stored_ones() {
    let stored = read("crates/gallery/stdout");
    let stored = sections(&stored);
    let differences = read("tools/compare/differences");
    let unbroken: BTreeSet<&str> = paragraph(&differences, UNBROKEN);
    let fitted: BTreeSet<&str> = paragraph(&differences, FITTED);
    let cases = case::read(&read("crates/gallery/stdin")).unwrap();
    assert_eq!(cases.len(), stored.len());

    let (mut same, mut skipped, mut above) = (0, 0, 0);
    for case in &cases {
        let stored = stored[case.name.as_str()];
        // The crate writes no SVG.
        if stored.starts_with("<svg") || (case.in_colors && !cfg!(feature = "termcolor")) {
            skipped += 1;
            continue;
        }
        let section = section(case);
        if case.has_suggestions {
            let below = stored.strip_prefix(section.as_str());
            assert!(
                below.is_some_and(|below| below.contains("help")),
                "{}",
                case.name
            );
            above += 1;
        } else if unbroken.contains(case.name.as_str()) || fitted.contains(case.name.as_str()) {
            assert_ne!(section, stored, "{}: it makes no difference", case.name);
        } else {
            assert_eq!(section, stored, "{}", case.name);
            same += 1;
        }
    }
    if cfg!(feature = "termcolor") {
        assert_eq!((cases.len(), same, above, skipped), (644, 601, 8, 4));
        assert_eq!((unbroken.len(), fitted.len()), (20, 11));
    }
}

fn read(path: &str) -> String {
    let root = PathBuf::from(env!("CARGO_MANIFEST_DIR")).join("../..");
    fs::read_to_string(root.join(path)).unwrap()
}

/// Returns what is below the name of each case, without the newline that ends it.
fn sections(text: &str) -> BTreeMap<&str, &str> {
    let text = text
        .strip_prefix("== ")
        .unwrap()
        .strip_suffix('\n')
        .unwrap();
    let sections = text
        .split("\n== ")
        .map(|section| section.split_once('\n').unwrap());
    sections.collect()
}

/// Returns the lines below a heading, up to an empty one.
fn paragraph<'text>(text: &'text str, heading: &str) -> BTreeSet<&'text str> {
    let lines = text.lines().skip_while(|line| *line != heading).skip(1);
    lines.take_while(|line| !line.is_empty()).collect()
}

/// Returns the output of a case, as the gallery shows it, without the newline that ends it.
fn section(case: &Case) -> String {
    let (output, result) = render(case);
    let mut section = String::new();
    for character in output.chars() {
        match character {
            '\x1b' => section += "\\e",
            '\r' => section += "\\r",
            '\t' => section += "\\t",
            '\0' => section += "\\0",
            character => section.push(character),
        }
    }
    if let Err(error) = result {
        section += &format!("failed: {error}\n");
    }
    section.pop();
    section
}

/// Renders a case, and returns what was written, and whether rendering failed.
fn render(case: &Case) -> (String, Result<(), Error>) {
    let mut files = case
        .files
        .iter()
        .map(|file| (file.name.as_str(), file.text.as_str()));
    match case.database_kind {
        DatabaseKind::Several => {
            let mut database = SimpleFiles::new();
            for (name, text) in files {
                database.add(name, text);
            }
            render_over(case, &database, |file| file)
        }
        DatabaseKind::One => {
            let (name, text) = files.next().unwrap();
            render_over(case, &SimpleFile::new(name, text), |_| ())
        }
        DatabaseKind::Mapped => {
            let (name, text) = files.next().unwrap();
            render_over(case, &MappedFile::new(name, text, &case.numbers), |_| ())
        }
    }
}

fn render_over<'files, F: Files<'files>>(
    case: &Case,
    files: &'files F,
    id: impl Fn(usize) -> F::FileId,
) -> (String, Result<(), Error>) {
    let labels = case.labels.iter().map(|label| {
        let range = label.start..label.end;
        Label::new(label.style, id(label.file), range).with_message(&label.message)
    });
    let mut diagnostic = Diagnostic::new(case.severity)
        .with_message(&case.message)
        .with_labels_iter(labels)
        .with_notes(case.notes.clone());
    diagnostic.code.clone_from(&case.code);

    #[cfg(feature = "termcolor")]
    if case.in_colors {
        return render_in_color(case, files, &diagnostic);
    }
    match emit_into_string(&case.config, files, &diagnostic) {
        Ok(output) => (output, Ok(())),
        Err(error) => (String::new(), Err(error)),
    }
}

#[cfg(feature = "termcolor")]
fn render_in_color<'files, F: Files<'files>>(
    case: &Case,
    files: &'files F,
    diagnostic: &Diagnostic<F::FileId>,
) -> (String, Result<(), Error>) {
    use codespan_reporting::term::termcolor::Ansi;
    use codespan_reporting::term::{emit_to_write_style, Styles, StylesWriter};

    let styles = Styles::default();
    let mut output = Ansi::new(Vec::new());
    let mut writer = StylesWriter::new(&mut output, &styles);
    let result = emit_to_write_style(&mut writer, &case.config, files, diagnostic);
    (String::from_utf8(output.into_inner()).unwrap(), result)
}
