//! The text of a file that the archive is passed: the lines that are shown. Where the file has
//! other lines between them, two empty lines stand for these in the text, so that the archive sees
//! that lines are left out.

use alloc::borrow::Cow;
use alloc::collections::BTreeMap;
use alloc::vec::Vec;
use core::iter;
use core::ops::Range;

use crate::diagnostic::LabelStyle;
use crate::files::{Error, Location};
use crate::native::{self, Line};
use crate::term::labeled_file::{LineInfo, LocationLabel, Position};

/// The greatest number of bytes that are kept of those after a line: a label may start or end at
/// any byte that the file database counts to the line.
const MAX_GAP: usize = 1024;

/// Lines that follow one another, which have been copied to the text of an excerpt at once.
struct Block {
    /// The index of its first line in the file, from 0.
    first_line: usize,
    /// The byte index in the file at which it starts.
    source_start: usize,
    /// The byte index in the text of the excerpt at which it starts.
    text_start: usize,
    /// The greatest byte index in the text that is before the next block.
    last_byte: usize,
}

impl Block {
    /// Returns where the text has a byte of the file.
    fn byte(&self, byte: usize) -> usize {
        let in_block = byte.saturating_sub(self.source_start);
        in_block.saturating_add(self.text_start).min(self.last_byte)
    }
}

/// The lines of a file that are passed to the archive.
pub(super) struct Excerpt<'source> {
    text: Cow<'source, str>,
    /// The lines of `text`, with the line numbers that are shown.
    lines: Vec<Line>,
    /// The blocks of `text`, in ascending order.
    blocks: Vec<Block>,
    /// The label whose location is shown, with its start in `text`.
    location_label: Option<LocationLabel>,
    location: native::Location,
}

impl<'source> Excerpt<'source> {
    /// Returns the excerpt of the lines of a source. The lines that stand for hidden ones have the
    /// number `hidden_number`, so that it counts for the padding.
    ///
    /// # Errors
    ///
    /// [`Error::IndexTooLarge`] and [`Error::InvalidCharBoundary`] where a line is no part of the
    /// source.
    pub(super) fn new(
        lines: &BTreeMap<usize, LineInfo>,
        hidden_number: usize,
        source: &'source str,
        location: Location,
    ) -> Result<Self, Error> {
        let mut excerpt = Excerpt {
            text: Cow::Borrowed(""),
            lines: Vec::with_capacity(lines.len()),
            blocks: Vec::with_capacity(1),
            location_label: None,
            location: native::Location {
                byte: 0,
                line_number: location.line_number,
                column_number: location.column_number,
            },
        };
        let mut lines = lines.iter().peekable();
        while let Some((&first_index, first)) = lines.next() {
            let (mut last_index, mut last) = (first_index, first);
            excerpt.start_block(first_index, first, source)?;
            while let Some((&index, line)) =
                lines.next_if(|(&index, line)| index - last_index == 1 && line.follows(last))
            {
                excerpt.add_line(line, source)?;
                (last_index, last) = (index, line);
            }
            excerpt.text += slice(source, first.range.start..last.range.end)?;
            if let Some((&next, _)) = lines.peek() {
                excerpt.end_block(last);
                if next - last_index > 1 {
                    excerpt.add_break(hidden_number);
                }
            }
        }
        Ok(excerpt)
    }

    /// Starts a block with a line.
    fn start_block(
        &mut self,
        first_line: usize,
        line: &LineInfo,
        source: &str,
    ) -> Result<(), Error> {
        self.blocks.push(Block {
            first_line,
            source_start: line.range.start,
            text_start: self.text.len(),
            last_byte: usize::MAX,
        });
        self.add_line(line, source)
    }

    /// Adds a line to the last block, whose text is copied once the block is known.
    fn add_line(&mut self, line: &LineInfo, source: &str) -> Result<(), Error> {
        slice(source, line.range.clone())?;
        if let Some(block) = self.blocks.last() {
            self.lines.push(Line {
                start: block.byte(line.range.start),
                end: block.byte(line.range.end),
                number: line.number,
            });
        }
        Ok(())
    }

    /// Ends the last block, another one after which follows. There is a byte of no line between
    /// them at least, since lines may be empty, and no two start at one byte; and there are the
    /// bytes at which labels on its last line start or end.
    fn end_block(&mut self, last: &LineInfo) {
        let gap = last.reach.saturating_sub(last.range.end).clamp(1, MAX_GAP);
        self.text.to_mut().extend(iter::repeat('\n').take(gap));
        if let Some(block) = self.blocks.last_mut() {
            block.last_byte = self.text.len() - 1;
        }
    }

    /// Appends two empty lines, which stand for those that are not shown.
    fn add_break(&mut self, number: usize) {
        let start = self.text.len();
        self.text += "\n\n";
        self.lines.extend([start, start + 1].map(|byte| Line {
            start: byte,
            end: byte,
            number,
        }));
    }

    /// Returns the text that is passed.
    pub(super) fn text(&self) -> &str {
        &self.text
    }

    /// Returns the lines of that text.
    pub(super) fn lines(&self) -> &[Line] {
        &self.lines
    }

    /// Returns the location that is shown, of a byte of that text.
    pub(super) fn location(&self) -> &native::Location {
        &self.location
    }

    /// Returns where that text has a byte of the file.
    pub(super) fn byte(&self, position: Position) -> usize {
        let after = self
            .blocks
            .partition_point(|block| block.first_line <= position.line_index);
        self.blocks[after - 1].byte(position.byte)
    }

    /// Returns where that text has the start of a label, whose location may be shown.
    pub(super) fn start_of_label(&mut self, style: LabelStyle, start: Position) -> usize {
        let start = self.byte(start);
        let label = LocationLabel { style, start };
        if self.location_label.map_or(true, |least| label < least) {
            self.location_label = Some(label);
            self.location.byte = start;
        }
        start
    }
}

/// Returns the bytes of a range of a source.
pub(crate) fn slice(source: &str, range: Range<usize>) -> Result<&str, Error> {
    source.get(range.clone()).ok_or_else(|| {
        let max = source.len();
        let off_boundary = [range.start, range.end]
            .into_iter()
            .find(|&byte| byte <= max && !source.is_char_boundary(byte));
        match off_boundary {
            Some(given) => Error::InvalidCharBoundary { given },
            None if range.end <= max => Error::IndexTooLarge {
                given: range.start,
                max: range.end,
            },
            None => Error::IndexTooLarge {
                given: range.start.max(range.end),
                max,
            },
        }
    })
}
