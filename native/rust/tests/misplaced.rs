//! Custom file databases: bytes that are outside their lines.

#[path = "common/lines.rs"]
mod given_lines;

use std::ops::Range;

use codespan_reporting::diagnostic::{Diagnostic, Label};
use codespan_reporting::files::{Error, Files};
use codespan_reporting::term::{emit_into_string, Config};

use given_lines::Lines;

/// A file whose `line_index` returns the last line for the end of the text, and the first line for
/// any other byte.
struct Misplaced(Lines);

impl<'a> Files<'a> for Misplaced {
    type FileId = ();
    type Name = &'static str;
    type Source = &'a str;

    fn name(&'a self, (): ()) -> Result<&'static str, Error> {
        self.0.name(())
    }

    fn source(&'a self, (): ()) -> Result<&'a str, Error> {
        self.0.source(())
    }

    fn line_index(&'a self, (): (), byte: usize) -> Result<usize, Error> {
        let Misplaced(file) = self;
        let is_last = byte == file.text.len();
        Ok(if is_last { file.last_line() } else { 0 })
    }

    fn line_range(&'a self, (): (), line: usize) -> Result<Range<usize>, Error> {
        self.0.line_range((), line)
    }
}

#[test]
fn a_byte_far_past_its_line_adds_no_output() {
    let files = Misplaced(Lines::new("a b c d", vec![0..1, 2..3, 4..5, 6..7]));
    let diagnostic = Diagnostic::error()
        .with_label(Label::primary((), 0..usize::MAX))
        .with_label(Label::primary((), 7..7).with_message("here"));
    let output = emit_into_string(&Config::default(), &files, &diagnostic).unwrap();
    assert!(output.contains(" d\n"), "{output}");
    assert!(output.len() < 1_000, "{output}");
}

#[test]
fn a_byte_before_its_line_counts_as_the_start() {
    let output = |first: Range<usize>, both: Range<usize>| {
        let files = Lines::new("\u{feff}ab\ncd", vec![3..6, 6..8]);
        let diagnostic = Diagnostic::error()
            .with_label(Label::primary((), first).with_message("the first line"))
            .with_label(Label::secondary((), both).with_message("both"));
        emit_into_string(&Config::default(), &files, &diagnostic).unwrap()
    };
    assert!(output(0..5, 0..5).starts_with("error: \n  ┌─ f:1:1\n  │\n1 │ ab\n  │ ^^\n"));
    assert_eq!(output(0..5, 1..7), output(3..5, 3..7));
    assert_eq!(output(2..2, 1..1), output(3..3, 3..3));
}

#[test]
fn a_byte_far_past_its_line_is_before_the_next_one() {
    let text = "a".repeat(3_000) + "b";
    let files = Misplaced(Lines::new(text.leak(), vec![0..1, 1..2, 3_000..3_001]));
    let diagnostic = Diagnostic::error()
        .with_label(Label::primary((), 2_999..3_000).with_message("here"))
        .with_label(Label::primary((), 3_001..3_001));
    let output = emit_into_string(&Config::default(), &files, &diagnostic).unwrap();
    let shown = "\
error: 
  ┌─ f:1:2
  │
1 │ a
  │    here
2 │ a
3 │ b
  │  ^

";
    assert_eq!(output, shown);
}
