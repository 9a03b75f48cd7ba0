//! A file with set line numbers: the crate has no such file database, so it is a custom one of this
//! tool.

use codespan_reporting::files::{line_starts, Error, Files};
use std::collections::BTreeMap;
use std::ops::Range;

/// A file, the starts of its lines, and the numbers that were set, by the index of the line.
pub struct MappedFile<'text> {
    name: &'text str,
    source: &'text str,
    starts: Vec<usize>,
    numbers: BTreeMap<usize, usize>,
}

impl<'text> MappedFile<'text> {
    pub fn new(name: &'text str, source: &'text str, numbers: &[(usize, usize)]) -> Self {
        let starts = line_starts(source).collect();
        MappedFile { name, source, starts, numbers: numbers.iter().copied().collect() }
    }

    /// The start of a line.
    fn start(&self, index: usize) -> Result<usize, Error> {
        let max = self.starts.len() - 1;
        self.starts.get(index).copied().ok_or(Error::LineTooLarge { given: index, max })
    }
}

impl<'a> Files<'a> for MappedFile<'_> {
    type FileId = ();
    type Name = &'a str;
    type Source = &'a str;

    fn name(&'a self, (): ()) -> Result<&'a str, Error> {
        Ok(self.name)
    }

    fn source(&'a self, (): ()) -> Result<&'a str, Error> {
        Ok(self.source)
    }

    fn line_index(&'a self, (): (), byte: usize) -> Result<usize, Error> {
        Ok(self.starts.partition_point(|&start| start <= byte) - 1)
    }

    /// The number that was set last before the line goes on from line to line; without one lines are numbered from 1.
    fn line_number(&'a self, (): (), index: usize) -> Result<usize, Error> {
        let (line, number) = match self.numbers.range(..=index).next_back() {
            Some((&line, &number)) => (line, number),
            None => (0, 1),
        };
        let max = line.saturating_add(usize::MAX - number);
        number.checked_add(index - line).ok_or(Error::LineTooLarge { given: index, max })
    }

    /// A line without its newline.
    fn line_range(&'a self, (): (), index: usize) -> Result<Range<usize>, Error> {
        let start = self.start(index)?;
        let end = match self.starts.get(index + 1) {
            Some(next) => next - 1,
            None => self.source.len(),
        };
        Ok(start..end)
    }
}
