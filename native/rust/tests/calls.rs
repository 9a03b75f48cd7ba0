//! Data types, file databases, long outputs, and calls from several threads.

use std::error::Error as _;
use std::io;
use std::ops::Range;
use std::thread;

use codespan_reporting::diagnostic::{Diagnostic, Label, LabelStyle, Severity};
use codespan_reporting::files::{line_starts, Error, Files, Location, SimpleFile, SimpleFiles};
use codespan_reporting::term::{emit_into_string, emit_to_string, Chars, Config};

#[test]
fn label_builders_set_their_fields() {
    let label = Label::new(LabelStyle::Secondary, 'a', 1..2).with_message(3);
    assert_eq!(
        (label.style, label.file_id, label.range.clone()),
        (LabelStyle::Secondary, 'a', 1..2)
    );
    assert_eq!(label.message, "3");
    assert_eq!(
        Label::primary('b', 0..9),
        Label::new(LabelStyle::Primary, 'b', 0..9)
    );
    assert_eq!(
        Label::secondary('b', 0..9),
        Label::new(LabelStyle::Secondary, 'b', 0..9)
    );
}

#[test]
fn diagnostic_builders_set_their_fields() {
    let label = Label::secondary('a', 1..2).with_message(3);
    let diagnostic = Diagnostic::error()
        .with_code("E")
        .with_message("m")
        .with_label(label.clone())
        .with_labels(vec![Label::primary('b', 0..0)])
        .with_labels_iter([Label::primary('c', 0..0)])
        .with_note("x")
        .with_notes(vec!["y".to_owned()])
        .with_notes_iter(["z".to_owned()]);
    assert_eq!(diagnostic.severity, Severity::Error);
    assert_eq!(diagnostic.code.as_deref(), Some("E"));
    assert_eq!(diagnostic.message, "m");
    assert_eq!(diagnostic.labels[0], label);
    assert_eq!(
        diagnostic
            .labels
            .iter()
            .map(|label| label.file_id)
            .collect::<String>(),
        "abc"
    );
    assert_eq!(diagnostic.notes, ["x", "y", "z"]);
}

#[test]
fn new_diagnostics_have_only_a_severity() {
    let severities = [
        (Diagnostic::<()>::bug(), Severity::Bug),
        (Diagnostic::error(), Severity::Error),
        (Diagnostic::warning(), Severity::Warning),
        (Diagnostic::note(), Severity::Note),
        (Diagnostic::help(), Severity::Help),
    ];
    for (diagnostic, severity) in severities {
        assert_eq!(diagnostic, Diagnostic::new(severity));
        assert!(diagnostic.message.is_empty() && diagnostic.code.is_none());
        assert!(diagnostic.labels.is_empty() && diagnostic.notes.is_empty());
    }
}

#[test]
fn errors_say_what_is_wrong() {
    let (given, max) = (9, 5);
    let texts = [
        (Error::FileMissing, "file missing"),
        (
            Error::IndexTooLarge { given, max },
            "invalid index 9, maximum index is 5",
        ),
        (
            Error::LineTooLarge { given, max },
            "invalid line 9, maximum line is 5",
        ),
        (
            Error::ColumnTooLarge { given, max },
            "invalid column 9, maximum column 5",
        ),
        (
            Error::InvalidCharBoundary { given },
            "index is not a code point boundary",
        ),
        (Error::from(std::fmt::Error), "formatting error"),
    ];
    for (error, text) in texts {
        assert_eq!(error.to_string(), text);
        assert!(error.source().is_none());
    }
    let error = Error::from(io::Error::other("disk full"));
    assert_eq!(error.to_string(), "disk full");
    assert_eq!(error.source().unwrap().to_string(), "disk full");
}

#[test]
fn lines_contain_their_line_breaks() {
    let source = "one\ntwo\r\n\nsix";
    assert_eq!(line_starts(source).collect::<Vec<_>>(), [0, 4, 9, 10]);
    let file = SimpleFile::new("numbers", source);
    let lines = (0..4).map(|line| &source[file.line_range((), line).unwrap()]);
    assert_eq!(lines.collect::<Vec<_>>(), ["one\n", "two\r\n", "\n", "six"]);
}

#[test]
fn simple_files_find_lines() {
    let mut files = SimpleFiles::new();
    assert_eq!(files.add("a", "é\n\nz"), 0);
    assert_eq!(files.add("b", ""), 1);
    assert_eq!(
        (files.name(0).unwrap(), files.source(0).unwrap()),
        ("a", "é\n\nz")
    );
    let lines: Vec<usize> = (0..7)
        .map(|byte| files.line_index(0, byte).unwrap())
        .collect();
    assert_eq!(lines, [0, 0, 0, 1, 2, 2, 2]);
    let ranges: Vec<_> = (0..3)
        .map(|line| files.line_range(0, line).unwrap())
        .collect();
    assert_eq!(ranges, [0..3, 3..4, 4..5]);
    assert!(matches!(
        files.line_range(0, 3),
        Err(Error::LineTooLarge { max: 2, .. })
    ));
    assert_eq!(files.line_range(1, 0).unwrap(), 0..0);
    let end = Location {
        line_number: 3,
        column_number: 2,
    };
    assert_eq!(files.location(0, 5).unwrap(), end);
    assert_eq!(files.get(1).unwrap().name(), &"b");
    assert!(matches!(files.get(2), Err(Error::FileMissing)));
    assert!(matches!(files.line_index(2, 0), Err(Error::FileMissing)));
    assert!(matches!(files.location(2, 0), Err(Error::FileMissing)));
}

#[test]
fn an_output_of_any_length_is_whole() {
    for length in [4_000, 4_096, 5_000, 100_000] {
        let note = "é".repeat(length);
        let diagnostic = Diagnostic::help().with_message("m").with_note(&note);
        let mut output = "before\n".to_owned();
        let file = SimpleFile::new("f", "");
        emit_to_string(&mut output, &Config::default(), &file, &diagnostic).unwrap();
        assert_eq!(output, format!("before\nhelp: m\n = {note}\n\n"));
    }
}

#[test]
fn a_tab_is_at_most_1024_cells_wide() {
    let file = SimpleFile::new("f", "\tx");
    let diagnostic = Diagnostic::error().with_label(Label::primary((), 1..2));
    let config = Config {
        tab_width: 5000,
        ..Config::default()
    };
    let output = emit_into_string(&config, &file, &diagnostic).unwrap();
    let spaces = " ".repeat(1024);
    let rows = format!("error: \n  ┌─ f:1:2\n  │\n1 │ {spaces}x\n  │ {spaces}^\n\n");
    assert!(output == rows, "{} bytes", output.len());
}

#[test]
fn an_output_may_be_longer_than_expected() {
    let file = SimpleFile::new("f", "\t".repeat(20) + "x");
    let diagnostic = Diagnostic::error().with_label(Label::primary((), 20..21));
    let config = Config {
        tab_width: 1000,
        ..Config::default()
    };
    let output = emit_into_string(&config, &file, &diagnostic).unwrap();
    let spaces = " ".repeat(20_000);
    let rows = format!("error: \n  ┌─ f:1:21\n  │\n1 │ {spaces}x\n  │ {spaces}^\n\n");
    assert!(output == rows, "{} bytes", output.len());
}

/// Characters of which no two are the same.
fn distinct() -> Chars {
    Chars {
        snippet_start: "S>".into(),
        source_border_left: 'B',
        source_border_left_break: 'K',
        note_bullet: 'N',
        single_primary_caret: 'P',
        single_secondary_caret: 'Q',
        multi_primary_caret_start: '1',
        multi_primary_caret_end: '2',
        multi_secondary_caret_start: '3',
        multi_secondary_caret_end: '4',
        multi_top_left: 'T',
        multi_top: 't',
        multi_bottom_left: 'U',
        multi_bottom: 'u',
        multi_left: 'L',
        pointer_left: 'I',
    }
}

#[test]
fn each_character_is_that_of_the_configuration() {
    let config = Config {
        chars: distinct(),
        start_context_lines: 1,
        end_context_lines: 0,
        ..Config::default()
    };
    let file = SimpleFile::new("f", "one two\nx\nx\nx\nx\nx\nlast line\n");
    for (style, start, end) in [(LabelStyle::Primary, 1, 2), (LabelStyle::Secondary, 3, 4)] {
        let label = Label::new(style, (), 4..22).with_message("m");
        let diagnostic = Diagnostic::error().with_label(label).with_note("n");
        let output = emit_into_string(&config, &file, &diagnostic).unwrap();
        let rows = format!(
            "error: \n  S> f:1:5\n  B  \n1 B   one two\n  B Tttttt{start}\n2 B L x\n  K L\n\
             7 B L last line\n  B Uuuuu{end} m\n  B  \n  N n\n\n"
        );
        assert_eq!(output, rows);
    }
    let diagnostic = Diagnostic::error()
        .with_label(Label::primary((), 0..3).with_message("p"))
        .with_label(Label::secondary((), 4..7).with_message("s"));
    let output = emit_into_string(&config, &file, &diagnostic).unwrap();
    let rows = "error: \n  S> f:1:1\n  B\n1 B one two\n  B PPP QQQ s\n  B I    \n  B p\n\n";
    assert_eq!(output, rows);
}

/// A text whose lines are numbered from 0.
struct FromZero(SimpleFile<&'static str, &'static str>);

impl<'a> Files<'a> for FromZero {
    type FileId = ();
    type Name = &'static str;
    type Source = &'a str;

    fn name(&'a self, (): ()) -> Result<&'static str, Error> {
        Ok(self.0.name())
    }

    fn source(&'a self, (): ()) -> Result<&'a str, Error> {
        Ok(self.0.source())
    }

    fn line_index(&'a self, (): (), byte: usize) -> Result<usize, Error> {
        self.0.line_index((), byte)
    }

    fn line_number(&'a self, (): (), line: usize) -> Result<usize, Error> {
        Ok(line)
    }

    fn line_range(&'a self, (): (), line: usize) -> Result<Range<usize>, Error> {
        self.0.line_range((), line)
    }
}

#[test]
fn line_number_0_has_one_digit() {
    let files = FromZero(SimpleFile::new("f", "ab\n"));
    let diagnostic = Diagnostic::error().with_label(Label::primary((), 1..2));
    let output = emit_into_string(&Config::default(), &files, &diagnostic).unwrap();
    assert_eq!(output, "error: \n  ┌─ f:0:2\n  │\n0 │ ab\n  │  ^\n\n");
}

#[test]
fn threads_render_at_once() {
    let render = |thread: usize| {
        let file = SimpleFile::new(thread, "let x = 1;\n");
        let diagnostic = Diagnostic::note().with_label(Label::primary((), thread..thread + 1));
        emit_into_string(&Config::default(), &file, &diagnostic).unwrap()
    };
    thread::scope(|scope| {
        let threads: Vec<_> = (0..8)
            .map(|thread| scope.spawn(move || (0..200).map(|_| render(thread)).collect::<Vec<_>>()))
            .collect();
        for (thread, outputs) in threads.into_iter().enumerate() {
            let caret = format!("{}^", " ".repeat(thread));
            let expected = format!(
                "note: \n  ┌─ {thread}:1:{}\n  │\n1 │ let x = 1;\n  │ {caret}\n\n",
                thread + 1
            );
            assert!(outputs
                .join()
                .unwrap()
                .iter()
                .all(|output| *output == expected));
        }
    });
}
