//! File databases of texts, whose lines start after newlines.

use alloc::vec::Vec;
use core::fmt::Display;
use core::ops::Range;

use super::{line_starts, Error, Files};

/// A file database of one file, whose id is `()`.
#[derive(Debug, Clone)]
pub struct SimpleFile<Name, Source> {
    name: Name,
    source: Source,
    /// The byte index of the start of each line, ascending from 0.
    line_starts: Vec<usize>,
}

impl<Name, Source> SimpleFile<Name, Source>
where
    Name: Display,
    Source: AsRef<str>,
{
    /// Returns the database of a file with a name and a text.
    pub fn new(name: Name, source: Source) -> SimpleFile<Name, Source> {
        let line_starts = line_starts(source.as_ref()).collect();
        SimpleFile {
            name,
            source,
            line_starts,
        }
    }

    /// Returns the name.
    pub fn name(&self) -> &Name {
        &self.name
    }

    /// Returns the text.
    pub fn source(&self) -> &Source {
        &self.source
    }

    /// Returns the byte index of the start of a line, or the length of the text for the index after
    /// the last line.
    fn line_start(&self, line_index: usize) -> Result<usize, Error> {
        let count = self.line_starts.len();
        match self.line_starts.get(line_index) {
            Some(&start) => Ok(start),
            None if line_index == count => Ok(self.source.as_ref().len()),
            None => Err(Error::LineTooLarge {
                given: line_index,
                max: count - 1,
            }),
        }
    }
}

impl<'a, Name, Source> Files<'a> for SimpleFile<Name, Source>
where
    Name: 'a + Display + Clone,
    Source: 'a + AsRef<str>,
{
    type FileId = ();
    type Name = Name;
    type Source = &'a str;

    fn name(&self, (): ()) -> Result<Name, Error> {
        Ok(self.name.clone())
    }

    fn source(&self, (): ()) -> Result<&str, Error> {
        Ok(self.source.as_ref())
    }

    fn line_index(&self, (): (), byte_index: usize) -> Result<usize, Error> {
        // The first line starts at 0, so at least one line starts at or before the byte.
        Ok(self
            .line_starts
            .partition_point(|&start| start <= byte_index)
            - 1)
    }

    fn line_range(&self, (): (), line_index: usize) -> Result<Range<usize>, Error> {
        let start = self.line_start(line_index)?;
        let end = self.line_start(line_index.saturating_add(1))?;

        Ok(start..end)
    }
}

/// A file database of many files, whose ids are their indices, from 0.
#[derive(Debug, Default, Clone)]
pub struct SimpleFiles<Name, Source> {
    files: Vec<SimpleFile<Name, Source>>,
}

impl<Name, Source> SimpleFiles<Name, Source>
where
    Name: Display,
    Source: AsRef<str>,
{
    /// Returns a database of no files.
    #[must_use]
    pub fn new() -> SimpleFiles<Name, Source> {
        SimpleFiles { files: Vec::new() }
    }

    /// Appends a file, and returns its id.
    pub fn add(&mut self, name: Name, source: Source) -> usize {
        let id = self.files.len();
        self.files.push(SimpleFile::new(name, source));
        id
    }

    /// Returns the file of an id.
    ///
    /// # Errors
    ///
    /// [`Error::FileMissing`] where there is no such file.
    pub fn get(&self, file_id: usize) -> Result<&SimpleFile<Name, Source>, Error> {
        self.files.get(file_id).ok_or(Error::FileMissing)
    }
}

impl<'a, Name, Source> Files<'a> for SimpleFiles<Name, Source>
where
    Name: 'a + Display + Clone,
    Source: 'a + AsRef<str>,
{
    type FileId = usize;
    type Name = Name;
    type Source = &'a str;

    fn name(&self, file_id: usize) -> Result<Name, Error> {
        Ok(self.get(file_id)?.name().clone())
    }

    fn source(&self, file_id: usize) -> Result<&str, Error> {
        Ok(self.get(file_id)?.source().as_ref())
    }

    fn line_index(&self, file_id: usize, byte_index: usize) -> Result<usize, Error> {
        self.get(file_id)?.line_index((), byte_index)
    }

    fn line_range(&self, file_id: usize, line_index: usize) -> Result<Range<usize>, Error> {
        self.get(file_id)?.line_range((), line_index)
    }
}
