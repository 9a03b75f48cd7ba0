//! Databases whose lines are no lines of a text: empty ones at the byte where the next one starts,
//! and lines that overlap, descend, or are hidden and outside the text; and line numbers that do
//! not ascend.

use std::ops::Range;

use codespan_reporting::diagnostic::{Diagnostic, Label};
use codespan_reporting::files::{Error, Files};

use super::Data;

/// A file whose lines have the given ranges, and whose bytes are on the given lines.
pub struct Lines {
    text: &'static str,
    lines: &'static [Range<usize>],
    /// The line of each byte up to the length of the text.
    of_bytes: &'static [usize],
    /// Line numbers that are not those from 1 on.
    numbers: &'static [usize],
}

impl<'a> Files<'a> for Lines {
    type FileId = ();
    type Name = &'static str;
    type Source = &'a str;

    fn name(&'a self, (): ()) -> Result<&'static str, Error> {
        Ok("lines")
    }

    fn source(&'a self, (): ()) -> Result<&'a str, Error> {
        Ok(self.text)
    }

    fn line_index(&'a self, (): (), byte: usize) -> Result<usize, Error> {
        Ok(self.of_bytes[byte.min(self.text.len())])
    }

    fn line_number(&'a self, (): (), line: usize) -> Result<usize, Error> {
        Ok(self.numbers.get(line).copied().unwrap_or(line + 1))
    }

    fn line_range(&'a self, (): (), given: usize) -> Result<Range<usize>, Error> {
        let max = self.lines.len() - 1;
        let line = self.lines.get(given).cloned();
        line.ok_or(Error::LineTooLarge { given, max })
    }
}

/// Returns the labels from each byte to each one after it, in one diagnostic.
fn all_labels(length: usize) -> Diagnostic<()> {
    let ranges = (0..=length).flat_map(|start| (start..=length).map(move |end| start..end));
    let labels = ranges.enumerate().map(|(index, range)| {
        let message = format!("{}..{}", range.start, range.end);
        if index % 3 == 0 {
            Label::primary((), range).with_message(message)
        } else {
            Label::secondary((), range).with_message(message)
        }
    });
    Diagnostic::warning()
        .with_message("each range")
        .with_labels_iter(labels)
}

/// Returns a diagnostic for each range of bytes up to a length, and one for all of them.
fn diagnostics(length: usize) -> Vec<Diagnostic<()>> {
    let all = all_labels(length);
    let one = |label: &Label<()>| Diagnostic::note().with_label(label.clone());
    let mut diagnostics: Vec<_> = all.labels.iter().map(one).collect();
    diagnostics.push(all);
    diagnostics
}

pub fn empty_line_at_next_start() -> Data<Lines, ()> {
    let files = Lines {
        text: "abcd",
        lines: &[0..2, 2..2, 2..4],
        of_bytes: &[0, 0, 1, 2, 2],
        numbers: &[],
    };
    Data {
        files,
        diagnostics: diagnostics(4),
    }
}

pub fn overlapping_lines() -> Data<Lines, ()> {
    let files = Lines {
        text: "abcde",
        lines: &[0..4, 2..5, 2..3, 0..5],
        of_bytes: &[0, 0, 0, 2, 1, 3],
        numbers: &[],
    };
    Data {
        files,
        diagnostics: diagnostics(5),
    }
}

pub fn descending_lines() -> Data<Lines, ()> {
    let files = Lines {
        text: "ab\nc\nd",
        lines: &[5..6, 3..5, 0..3],
        of_bytes: &[2, 2, 2, 1, 1, 0, 0],
        numbers: &[],
    };
    Data {
        files,
        diagnostics: diagnostics(6),
    }
}

// One of the lines starts after its end.
#[allow(clippy::reversed_empty_ranges)]
pub fn hidden_lines_outside() -> Data<Lines, ()> {
    let files = Lines {
        text: "aé\nbc\nde",
        lines: &[0..4, 4..6, 4..7, 90..95, 7..4, 1..2, 5..7, 4..7, 7..9],
        of_bytes: &[0, 0, 0, 0, 7, 7, 7, 8, 8, 8],
        numbers: &[],
    };
    let label = |range: Range<usize>| Label::secondary((), range).with_message("over them");
    let single = Label::primary((), 4..5).with_message("before the last");
    let diagnostics = vec![
        Diagnostic::bug().with_label(label(0..6)),
        Diagnostic::bug().with_label(label(1..8)).with_label(single),
    ];
    Data { files, diagnostics }
}

pub fn numbers_of_hidden_lines() -> Data<Lines, ()> {
    let files = Lines {
        text: "abcdefgh",
        lines: &[0..1, 1..2, 2..3, 3..4, 4..5, 5..6, 6..7, 7..8],
        of_bytes: &[0, 1, 2, 3, 4, 5, 6, 7, 7],
        numbers: &[7, 70, 8, 7_000, 70_000, 5, 9, 60],
    };
    let label = |range: Range<usize>| Label::primary((), range).with_message("over them");
    let diagnostics = vec![
        Diagnostic::help().with_label(label(0..7)),
        Diagnostic::help().with_label(label(1..7)),
        Diagnostic::help().with_label(label(0..3)),
        Diagnostic::help()
            .with_label(label(0..1))
            .with_label(label(5..6)),
        Diagnostic::help()
            .with_label(label(4..6))
            .with_label(label(0..7)),
    ];
    Data { files, diagnostics }
}
