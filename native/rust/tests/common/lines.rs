//! A file database of given lines.

use std::ops::Range;

use codespan_reporting::files::{Error, Files};

/// A file whose lines have the given ranges.
pub struct Lines {
    pub text: &'static str,
    lines: Vec<Range<usize>>,
}

impl Lines {
    pub fn new(text: &'static str, lines: Vec<Range<usize>>) -> Lines {
        Lines { text, lines }
    }

    pub fn last_line(&self) -> usize {
        self.lines.len() - 1
    }
}

impl<'a> Files<'a> for Lines {
    type FileId = ();
    type Name = &'static str;
    type Source = &'a str;

    fn name(&'a self, (): ()) -> Result<&'static str, Error> {
        Ok("f")
    }

    fn source(&'a self, (): ()) -> Result<&'a str, Error> {
        Ok(self.text)
    }

    fn line_index(&'a self, (): (), byte: usize) -> Result<usize, Error> {
        Ok(self
            .lines
            .iter()
            .rposition(|line| line.start <= byte)
            .unwrap_or(0))
    }

    fn line_range(&'a self, (): (), given: usize) -> Result<Range<usize>, Error> {
        let max = self.last_line();
        self.lines
            .get(given)
            .cloned()
            .ok_or(Error::LineTooLarge { given, max })
    }
}
