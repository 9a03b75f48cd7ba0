//! Custom file databases: lines that end before their line breaks, locations that are not
//! computed, lines that are no lines of the source, and many labels.

mod common;
#[path = "common/lines.rs"]
mod given_lines;

use std::ops::Range;

use codespan_reporting::diagnostic::{Diagnostic, Label};
use codespan_reporting::files::{column_index, Error, Files, Location, SimpleFile, SimpleFiles};
use codespan_reporting::term::{emit_into_string, Config};

use common::ten_lines;
use given_lines::Lines;

/// Returns a file whose lines end before their separator, which is two bytes long.
fn separated() -> Lines {
    Lines::new(
        "ab; cd; ef; gh; ij",
        vec![0..2, 4..6, 8..10, 12..14, 16..18],
    )
}

#[test]
fn a_label_may_end_between_two_lines() {
    let files = separated();
    let diagnostic = Diagnostic::error()
        .with_label(Label::primary((), 1..4).with_message("over two"))
        .with_label(Label::secondary((), 2..3).with_message("after"))
        .with_label(Label::secondary((), 16..18));
    let output = emit_into_string(&Config::default(), &files, &diagnostic).unwrap();
    let shown = "\
error: 
  ┌─ f:1:2
  │  
1 │   ab
  │     - after
  │ ╭──^
2 │ │ cd
  │ ╰^ over two
  ·  
5 │   ij
  │   --

";
    assert_eq!(output, shown);
}

#[test]
fn an_empty_label_may_be_between_two_lines() {
    let files = separated();
    let diagnostic = Diagnostic::error()
        .with_label(Label::primary((), 3..3).with_message("x"))
        .with_label(Label::primary((), 17..17).with_message("y"));
    let output = emit_into_string(&Config::default(), &files, &diagnostic).unwrap();
    let shown = "\
error: 
  ┌─ f:1:3
  │
1 │ ab
  │     x
  ·
5 │ ij
  │  ^ y

";
    assert_eq!(output, shown);
}

#[test]
fn a_break_may_follow_an_empty_line() {
    let files = Lines::new("\na\nb\nc\n", vec![0..0, 1..2, 3..4, 5..6, 7..7]);
    let diagnostic = Diagnostic::error()
        .with_label(Label::primary((), 0..0))
        .with_label(Label::primary((), 7..7));
    let output = emit_into_string(&Config::default(), &files, &diagnostic).unwrap();
    let shown = "\
error: 
  ┌─ f:1:1
  │
1 │ 
  │ ^
  ·
5 │ 
  │ ^

";
    assert_eq!(output, shown);
}

#[test]
fn a_break_may_follow_an_empty_line_of_context() {
    let files = Lines::new("a\n\nb\nc\nd", vec![0..1, 2..2, 3..4, 5..6, 7..8]);
    let diagnostic = Diagnostic::error()
        .with_label(Label::primary((), 0..1))
        .with_label(Label::primary((), 7..8));
    let config = Config {
        after_label_lines: 1,
        ..Config::default()
    };
    let output = emit_into_string(&config, &files, &diagnostic).unwrap();
    let shown = "\
error: 
  ┌─ f:1:1
  │
1 │ a
  │ ^
2 │ 
  ·
5 │ d
  │ ^

";
    assert_eq!(output, shown);
}

/// A file that states the line 1000 + b and the column 2000 + b for a byte b.
struct Bytes(SimpleFile<&'static str, String>);

impl<'a> Files<'a> for Bytes {
    type FileId = ();
    type Name = &'static str;
    type Source = &'a str;

    fn name(&'a self, (): ()) -> Result<&'static str, Error> {
        Ok(self.0.name())
    }

    fn source(&'a self, (): ()) -> Result<&'a str, Error> {
        Ok(self.0.source())
    }

    fn line_index(&'a self, (): (), byte: usize) -> Result<usize, Error> {
        self.0.line_index((), byte)
    }

    fn location(&'a self, (): (), byte: usize) -> Result<Location, Error> {
        Ok(Location {
            line_number: 1000 + byte,
            column_number: 2000 + byte,
        })
    }

    fn line_range(&'a self, (): (), line: usize) -> Result<Range<usize>, Error> {
        self.0.line_range((), line)
    }
}

#[test]
fn the_location_is_that_of_the_first_primary_label() {
    let files = Bytes(SimpleFile::new("f", ten_lines()));
    let locus = |labels: Vec<Label<()>>| {
        let diagnostic = Diagnostic::error().with_labels(labels);
        let output = emit_into_string(&Config::default(), &files, &diagnostic).unwrap();
        output.lines().nth(1).unwrap().trim_start().to_owned()
    };
    let secondary = |start| Label::secondary((), start..start + 1);
    let primary = |start| Label::primary((), start..start + 1);
    assert_eq!(
        locus(vec![secondary(1), primary(50), primary(8)]),
        "┌─ f:1008:2008"
    );
    assert_eq!(locus(vec![primary(50), secondary(1)]), "┌─ f:1050:2050");
    assert_eq!(locus(vec![secondary(32), secondary(31)]), "┌─ f:1031:2031");
    // A label past the end is in the last line.
    assert_eq!(locus(vec![primary(700), secondary(1)]), "┌─ f:1700:2700");
}

#[test]
#[allow(clippy::single_range_in_vec_init)]
fn a_line_that_is_no_part_of_the_source_is_an_error() {
    let past_end = Lines::new("ab", vec![0..9]);
    let off_boundary = Lines::new("é", vec![0..1]);
    let inside_a_block = Lines::new("aéb", vec![0..2, 2..4]);
    #[allow(clippy::reversed_empty_ranges)]
    let reversed = Lines::new("abc", vec![0..2, 2..1]);
    let diagnostic = Diagnostic::error().with_label(Label::primary((), 0..1));
    let over_two_lines = Diagnostic::error().with_label(Label::primary((), 0..3));
    let config = Config::default();
    assert!(matches!(
        emit_into_string(&config, &past_end, &diagnostic),
        Err(Error::IndexTooLarge { given: 9, max: 2 })
    ));
    assert!(matches!(
        emit_into_string(&config, &off_boundary, &diagnostic),
        Err(Error::InvalidCharBoundary { given: 1 })
    ));
    assert!(matches!(
        emit_into_string(&config, &inside_a_block, &over_two_lines),
        Err(Error::InvalidCharBoundary { given: 2 })
    ));
    assert!(matches!(
        emit_into_string(&config, &reversed, &over_two_lines),
        Err(Error::IndexTooLarge { given: 2, max: 1 })
    ));
}

#[test]
fn many_labels_in_turn_in_two_files() {
    const COUNT: usize = 2_000;
    let mut files = SimpleFiles::new();
    for name in ["f", "g"] {
        files.add(name, "abc\n\n\n\n".repeat(COUNT));
    }
    let starts = (0..COUNT).rev().map(|index| 7 * index);
    let labels = starts.flat_map(|start| [0, 1].map(|id| Label::primary(id, start..start + 3)));
    let diagnostic = Diagnostic::error().with_labels_iter(labels);
    let output = emit_into_string(&Config::default(), &files, &diagnostic).unwrap();

    let line = |index| format!("{:4} │ abc\n     │ ^^^\n", 4 * index + 1);
    let lines: Vec<_> = (0..COUNT).map(line).collect();
    let lines = lines.join("     ·\n");
    let snippet = |name| format!("     ┌─ {name}:1:1\n     │\n{lines}");
    let shown = format!("error: \n{}     │\n{}\n", snippet("f"), snippet("g"));
    assert!(output == shown, "{} bytes", output.len());
}

/// Returns the number of characters of a line that end at or before a byte, one by one.
fn column_by_characters(source: &str, line: Range<usize>, byte: usize) -> usize {
    let starts = source[line.clone()].char_indices();
    let ends = starts.map(|(start, char)| line.start + start + char.len_utf8());
    ends.filter(|&end| end <= byte).count()
}

#[test]
fn columns_count_characters() {
    let lengths = [0, 1, 7, 8, 9, 15, 16, 17, 31, 32, 33, 63, 64, 65, 300];
    for (length, chars) in lengths
        .iter()
        .zip(["a", "é", "→", "𐐀", "aé→𐐀", "→a"].iter().cycle())
    {
        let text: String = chars.chars().cycle().take(*length).collect();
        let source = format!("{text}→\n{text}{chars}");
        for line in [0..source.len(), 0..text.len(), text.len() + 4..source.len()] {
            for byte in 0..=source.len() + 1 {
                let expected = column_by_characters(&source, line.clone(), byte);
                let column = column_index(&source, line.clone(), byte);
                assert_eq!(column, expected, "{source:?} {line:?} {byte}");
            }
        }
    }
}
