//! The lines of a file that its labels show, and the lookups of them.

use alloc::collections::BTreeMap;
use alloc::string::{String, ToString};
use alloc::vec::Vec;
use core::ops::Range;
use core::slice;

use crate::diagnostic::{Label, LabelStyle};
use crate::files::{Error, Files, Location};
use crate::native;
use crate::term::excerpt::Excerpt;
use crate::term::Config;

/// A line as it is looked up.
pub(super) struct LineInfo {
    /// The line number that is shown.
    pub(super) number: usize,
    /// The byte indices of its start and its end in the file.
    pub(super) range: Range<usize>,
    /// The byte index after the greatest one at which a label on this line starts or ends, or 0.
    pub(super) reach: usize,
}

impl LineInfo {
    /// Returns a line on which no label starts or ends.
    fn new(number: usize, range: Range<usize>) -> LineInfo {
        LineInfo {
            number,
            range,
            reach: 0,
        }
    }

    /// Returns true where this line is after another one, and after the labels on that one.
    pub(super) fn follows(&self, line: &LineInfo) -> bool {
        let Range { start, end } = line.range;
        self.range.start >= end.max(line.reach) && self.range.start > start
    }
}

/// A byte of a file, and the index of its line, both from 0.
#[derive(Clone, Copy)]
pub(super) struct Position {
    pub(super) byte: usize,
    pub(super) line_index: usize,
}

/// A label whose location may be shown. That of the least one is: primary labels come before
/// secondary ones, and among these an earlier start comes first.
#[derive(Clone, Copy, PartialEq, PartialOrd)]
pub(super) struct LocationLabel {
    pub(super) style: LabelStyle,
    /// The byte index of its start.
    pub(super) start: usize,
}

impl LocationLabel {
    fn new<FileId>(label: &Label<FileId>) -> LocationLabel {
        LocationLabel {
            style: label.style,
            start: label.range.start,
        }
    }
}

/// A file that has labels.
pub(super) struct LabeledFile<FileId> {
    id: FileId,
    name: String,
    /// The label whose location is shown.
    location_label: LocationLabel,
    /// The location of the start of that label.
    location: Location,
    /// The lines that are shown, by their indices, from 0.
    lines: BTreeMap<usize, LineInfo>,
    /// The greatest number of a line inside a label that is not shown, or 0.
    hidden_number: usize,
    /// The least index at which lines after a label ended, with the error.
    end_of_context: Option<(usize, Error)>,
}

impl<FileId: Copy + PartialEq> LabeledFile<FileId> {
    /// Looks up the name of the file of a label, and the label's location.
    pub(super) fn look_up<'files>(
        label: &Label<FileId>,
        files: &'files (impl Files<'files, FileId = FileId> + ?Sized),
    ) -> Result<Self, Error> {
        Ok(LabeledFile {
            id: label.file_id,
            name: files.name(label.file_id)?.to_string(),
            location_label: LocationLabel::new(label),
            location: files.location(label.file_id, label.range.start)?,
            lines: BTreeMap::new(),
            hidden_number: 0,
            end_of_context: None,
        })
    }

    /// Looks up the location of another label, if it is to be shown in place of the one so far.
    pub(super) fn show_if_before<'files>(
        &mut self,
        label: &Label<FileId>,
        files: &'files (impl Files<'files, FileId = FileId> + ?Sized),
    ) -> Result<(), Error> {
        let location_label = LocationLabel::new(label);
        if location_label < self.location_label {
            self.location_label = location_label;
            self.location = files.location(self.id, label.range.start)?;
        }
        Ok(())
    }

    /// Returns the id.
    pub(super) fn id(&self) -> FileId {
        self.id
    }

    /// Returns an excerpt of the lines that are shown, and the location.
    ///
    /// # Errors
    ///
    /// [`Error::IndexTooLarge`] and [`Error::InvalidCharBoundary`] where a line that is shown is no
    /// part of the source.
    pub(super) fn excerpt<'source>(&self, source: &'source str) -> Result<Excerpt<'source>, Error> {
        Excerpt::new(&self.lines, self.hidden_number, source, self.location)
    }

    /// Returns this file with the text of an excerpt.
    pub(super) fn native<'a>(&'a self, excerpt: &'a Excerpt<'_>) -> native::File<'a> {
        native::File {
            name: self.name.as_str().into(),
            source: excerpt.text().into(),
            first_byte: 0,
            first_line: 0,
            lines: native::Slice::new(excerpt.lines()),
            locations: native::Slice::new(slice::from_ref(excerpt.location())),
            reserved: [0; 2],
        }
    }

    /// Adds the line of a position at which a label starts or ends.
    pub(super) fn insert_line(&mut self, position: Position, line: LineInfo) {
        let line = self.lines.entry(position.line_index).or_insert(line);
        line.reach = line.reach.max(position.byte.saturating_add(1));
    }

    /// Looks up the lines inside a label over more than one line. Some of these are shown: those of
    /// context after its first line, and before its last one.
    pub(super) fn add_lines_between<'files>(
        &mut self,
        first: usize,
        last: usize,
        config: &Config,
        files: &'files (impl Files<'files, FileId = FileId> + ?Sized),
    ) -> Result<(), Error> {
        for line_index in first + 1..last {
            let range = files.line_range(self.id, line_index)?;
            let number = files.line_number(self.id, line_index)?;
            if line_index - first <= config.start_context_lines
                || last - line_index <= config.end_context_lines
            {
                let line = self.lines.entry(line_index);
                line.or_insert_with(|| LineInfo::new(number, range));
            } else {
                self.hidden_number = self.hidden_number.max(number);
            }
        }
        Ok(())
    }

    /// Looks up a line, unless it is known.
    fn add_line<'files>(
        &mut self,
        line_index: usize,
        files: &'files (impl Files<'files, FileId = FileId> + ?Sized),
    ) -> Result<(), Error> {
        if !self.lines.contains_key(&line_index) {
            let range = files.line_range(self.id, line_index)?;
            let number = files.line_number(self.id, line_index)?;
            self.lines.insert(line_index, LineInfo::new(number, range));
        }
        Ok(())
    }

    /// Looks up the lines of context before a line, upwards.
    pub(super) fn add_lines_before<'files>(
        &mut self,
        line_index: usize,
        count: usize,
        files: &'files (impl Files<'files, FileId = FileId> + ?Sized),
    ) -> Result<(), Error> {
        let first = line_index.saturating_sub(count);
        (first..line_index)
            .rev()
            .try_for_each(|line_index| self.add_line(line_index, files))
    }

    /// Looks up the lines of context after a line, downwards. They end at the first one that has no
    /// range.
    pub(super) fn add_lines_after<'files>(
        &mut self,
        line_index: usize,
        count: usize,
        files: &'files (impl Files<'files, FileId = FileId> + ?Sized),
    ) -> Result<(), Error> {
        for line_index in (line_index + 1..).take(count) {
            if self.lines.contains_key(&line_index) {
                continue;
            }
            match files.line_range(self.id, line_index) {
                Ok(range) => {
                    let number = files.line_number(self.id, line_index)?;
                    self.lines.insert(line_index, LineInfo::new(number, range));
                }
                Err(error) => {
                    self.end_context(line_index, error);
                    break;
                }
            }
        }
        Ok(())
    }

    fn end_context(&mut self, line_index: usize, error: Error) {
        match &self.end_of_context {
            Some((least, _)) if *least <= line_index => {}
            _ => self.end_of_context = Some((line_index, error)),
        }
    }

    /// Looks up each line that is alone between two known ones: it is shown in place of a break.
    ///
    /// # Errors
    ///
    /// That of a lookup, or the one at which the lines of context ended, if a later line was looked
    /// up.
    pub(super) fn fill<'files>(
        &mut self,
        files: &'files (impl Files<'files, FileId = FileId> + ?Sized),
    ) -> Result<(), Error> {
        let mut alone = Vec::new();
        let mut previous = usize::MAX;
        for &line_index in self.lines.keys() {
            if previous.checked_add(2) == Some(line_index) {
                alone.push(previous + 1);
            }
            previous = line_index;
        }
        for line_index in alone {
            let number = files.line_number(self.id, line_index)?;
            let range = files.line_range(self.id, line_index)?;
            self.lines.insert(line_index, LineInfo::new(number, range));
        }
        match (self.end_of_context.take(), self.lines.keys().next_back()) {
            // A line that has no range is before one that has.
            (Some((line_index, error)), Some(&last)) if line_index < last => Err(error),
            _ => Ok(()),
        }
    }
}

/// Looks up the line of a byte. A byte before the line counts as its start.
pub(super) fn line_at<'files, F: Files<'files> + ?Sized>(
    files: &'files F,
    id: F::FileId,
    byte: usize,
) -> Result<(Position, LineInfo), Error> {
    let line_index = files.line_index(id, byte)?;
    let number = files.line_number(id, line_index)?;
    let range = files.line_range(id, line_index)?;
    let byte = byte.max(range.start);
    Ok((Position { byte, line_index }, LineInfo::new(number, range)))
}
