//! Custom file databases: which lookups are made, and what is written where one fails.

mod common;

use std::cell::RefCell;
use std::ops::Range;

use codespan_reporting::diagnostic::{Diagnostic, Label};
use codespan_reporting::files::{Error, Files, Location, SimpleFile};
use codespan_reporting::term::{
    emit_into_string, emit_to_io_write, emit_to_string, Config, DisplayStyle,
};

use common::ten_lines;

/// A text whose lookups are recorded, one of which may fail.
struct Recorded {
    file: SimpleFile<&'static str, String>,
    lookups: RefCell<Vec<String>>,
    failing: &'static str,
}

impl Recorded {
    fn new(text: &str, failing: &'static str) -> Recorded {
        Recorded {
            file: SimpleFile::new("f", text.to_owned()),
            lookups: RefCell::default(),
            failing,
        }
    }

    fn record(&self, lookup: String) -> Result<(), Error> {
        let fails = lookup == self.failing;
        self.lookups.borrow_mut().push(lookup);
        // An error that the lookups of `SimpleFile` do not return.
        if fails {
            Err(Error::IndexTooLarge { given: 77, max: 7 })
        } else {
            Ok(())
        }
    }

    fn lookups(&self) -> Vec<String> {
        self.lookups.take()
    }
}

impl<'a> Files<'a> for Recorded {
    type FileId = ();
    type Name = &'static str;
    type Source = &'a str;

    fn name(&'a self, (): ()) -> Result<&'static str, Error> {
        self.record("name".to_owned())?;
        Ok(self.file.name())
    }

    fn source(&'a self, (): ()) -> Result<&'a str, Error> {
        self.record("source".to_owned())?;
        Ok(self.file.source())
    }

    fn line_index(&'a self, (): (), byte: usize) -> Result<usize, Error> {
        self.record(format!("index {byte}"))?;
        self.file.line_index((), byte)
    }

    fn line_number(&'a self, (): (), line: usize) -> Result<usize, Error> {
        self.record(format!("number {line}"))?;
        Ok(line + 1)
    }

    fn location(&'a self, (): (), byte: usize) -> Result<Location, Error> {
        self.record(format!("location {byte}"))?;
        self.file.location((), byte)
    }

    fn line_range(&'a self, (): (), line: usize) -> Result<Range<usize>, Error> {
        self.record(format!("range {line}"))?;
        self.file.line_range((), line)
    }
}

fn short() -> Config {
    Config {
        display_style: DisplayStyle::Short,
        ..Config::default()
    }
}

#[test]
fn rich_looks_up_the_lines_of_labels() {
    let files = Recorded::new(&ten_lines(), "");
    let diagnostic = Diagnostic::error().with_label(Label::primary((), 13..26));
    emit_into_string(&Config::default(), &files, &diagnostic).unwrap();
    let lookups = files.lookups();
    let start = ["index 13", "number 2", "range 2"];
    let end = ["index 26", "number 4", "range 4"];
    let file = ["name", "location 13"];
    let between = ["range 3", "number 3"];
    assert_eq!(
        lookups,
        [&start[..], &end, &file, &between, &["source"]].concat()
    );
}

#[test]
fn short_looks_up_names_and_locations() {
    let files = Recorded::new(&ten_lines(), "");
    let diagnostic = Diagnostic::error()
        .with_label(Label::secondary((), 0..1))
        .with_label(Label::primary((), 13..26));
    let output = emit_into_string(&short(), &files, &diagnostic).unwrap();
    assert_eq!(output, "f:3:2: error: \n");
    assert_eq!(files.lookups(), ["name", "location 13"]);
}

#[test]
fn a_diagnostic_without_labels_looks_up_nothing() {
    let files = Recorded::new("", "name");
    let diagnostic = Diagnostic::<()>::help().with_message("m").with_note("n");
    for (config, output) in [
        (Config::default(), "help: m\n = n\n\n"),
        (short(), "help: m\n"),
    ] {
        assert_eq!(
            emit_into_string(&config, &files, &diagnostic).unwrap(),
            output
        );
    }
    assert!(files.lookups().is_empty());
}

#[test]
fn the_error_is_that_of_the_lookup() {
    let lookups = [
        "index 13",
        "number 2",
        "range 2",
        "index 26",
        "number 4",
        "range 4",
        "name",
        "location 13",
        "range 3",
        "number 3",
        "source",
    ];
    for failing in lookups {
        let files = Recorded::new(&ten_lines(), failing);
        let diagnostic = Diagnostic::error().with_label(Label::primary((), 13..26));
        let mut written = Vec::new();
        let result = emit_to_io_write(&mut written, &Config::default(), &files, &diagnostic);
        let given_77 = matches!(result, Err(Error::IndexTooLarge { given: 77, max: 7 }));
        assert!(given_77, "{failing}: {result:?}");
        assert_eq!(files.lookups().last().unwrap(), failing);
        assert!(written.is_empty(), "{failing}");
    }
}

#[test]
fn a_line_between_two_labels_is_looked_up_alone() {
    let diagnostic = Diagnostic::error()
        .with_label(Label::primary((), 0..1))
        .with_label(Label::primary((), 12..13));
    for failing in ["number 1", "range 1"] {
        let files = Recorded::new(&ten_lines(), failing);
        assert!(emit_into_string(&Config::default(), &files, &diagnostic).is_err());
    }
    let files = Recorded::new(&ten_lines(), "");
    let output = emit_into_string(&Config::default(), &files, &diagnostic).unwrap();
    let shown = "\
error: 
  ┌─ f:1:1
  │
1 │ line0
  │ ^
2 │ line1
3 │ line2
  │ ^

";
    assert_eq!(output, shown);
    let mut lookups = files.lookups();
    lookups.retain(|lookup| lookup == "number 1" || lookup == "range 1");
    assert_eq!(lookups, ["number 1", "range 1"]);
}

#[test]
fn lines_far_apart_are_shown_with_a_break() {
    let mut text = ten_lines();
    text.push_str(&"x".repeat(1_000_000));
    text.push_str("\nlast");
    let files = Recorded::new(&text, "");
    let last = text.len() - 4;
    let diagnostic = Diagnostic::error()
        .with_label(Label::primary((), last..last + 4).with_message("b"))
        .with_label(Label::secondary((), 6..9).with_message("a"));
    let output = emit_into_string(&Config::default(), &files, &diagnostic).unwrap();
    let shown = "\
error: 
   ┌─ f:12:1
   │
 2 │ line1
   │ --- a
   ·
12 │ last
   │ ^^^^ b

";
    assert_eq!(output, shown);
}

#[test]
fn context_ends_with_the_file() {
    let files = Recorded::new("a\nb\nc", "");
    let config = Config {
        before_label_lines: usize::MAX,
        after_label_lines: usize::MAX,
        ..Config::default()
    };
    let diagnostic = Diagnostic::error().with_label(Label::primary((), 2..3));
    let output = emit_into_string(&config, &files, &diagnostic).unwrap();
    assert_eq!(
        output,
        "error: \n  ┌─ f:2:1\n  │\n1 │ a\n2 │ b\n  │ ^\n3 │ c\n\n"
    );
}

#[test]
fn short_writes_the_headers_before_a_lookup_that_fails() {
    let files = Recorded::new(&ten_lines(), "location 12");
    let diagnostic = Diagnostic::error()
        .with_message("m")
        .with_label(Label::primary((), 0..1))
        .with_label(Label::primary((), 6..7))
        .with_label(Label::primary((), 12..13))
        .with_note("n");
    for display_style in [DisplayStyle::Short, DisplayStyle::Medium] {
        let config = Config {
            display_style,
            ..Config::default()
        };
        let mut written = Vec::new();
        let result = emit_to_io_write(&mut written, &config, &files, &diagnostic);
        assert!(matches!(
            result,
            Err(Error::IndexTooLarge { given: 77, max: 7 })
        ));
        assert_eq!(
            String::from_utf8(written).unwrap(),
            "f:1:1: error: m\nf:2:1: error: m\n"
        );

        let mut text = "before".to_owned();
        assert!(emit_to_string(&mut text, &config, &files, &diagnostic).is_err());
        assert_eq!(text, "before");
    }
}

#[test]
fn context_ends_where_a_line_fails_unless_a_later_line_is_shown() {
    let config = Config {
        after_label_lines: 2,
        ..Config::default()
    };
    let one = Diagnostic::error().with_label(Label::primary((), 6..7));
    let files = Recorded::new(&ten_lines(), "range 2");
    let output = emit_into_string(&config, &files, &one).unwrap();
    assert_eq!(output, "error: \n  ┌─ f:2:1\n  │\n2 │ line1\n  │ ^\n\n");
    assert_eq!(
        files
            .lookups()
            .iter()
            .filter(|lookup| *lookup == "range 2")
            .count(),
        1
    );

    let two = one.with_label(Label::primary((), 54..55));
    let files = Recorded::new(&ten_lines(), "range 2");
    let result = emit_into_string(&config, &files, &two);
    assert!(matches!(
        result,
        Err(Error::IndexTooLarge { given: 77, max: 7 })
    ));
}
