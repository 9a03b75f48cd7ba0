//! What a rich output shows of files: the lookups, in the original's order. Each line that a label
//! spans is looked up, those of context around labels, and a single line between two that are
//! shown. The archive is passed those that are shown.

use alloc::vec::Vec;

use crate::diagnostic::{Diagnostic, Label, LabelStyle};
use crate::files::{Error, Files};
use crate::native::{self, Read, Request};
use crate::term::excerpt::Excerpt;
use crate::term::labeled_file::{line_at, LabeledFile, Position};
use crate::term::Config;

/// The bytes that a label is expected to add at most, besides its message and its lines.
const LABEL: usize = 400;

/// A label, with the positions of its start and its end.
struct LabelSpan<'diagnostic> {
    style: LabelStyle,
    message: &'diagnostic str,
    /// The index of its file among the labeled ones, from 0.
    file: usize,
    start: Position,
    /// The end, exclusive.
    end: Position,
}

impl<'diagnostic> LabelSpan<'diagnostic> {
    /// Returns the label over the excerpt of its file.
    fn native(&self, excerpt: &mut Excerpt<'_>) -> native::Label<'diagnostic> {
        native::Label {
            style: native::label_style_number(self.style),
            file: self.file,
            start: excerpt.start_of_label(self.style, self.start),
            end: excerpt.byte(self.end),
            message: self.message.into(),
            reserved: [0; 2],
        }
    }
}

/// The files that have labels, and the labels.
pub(super) struct Snippets<'diagnostic, FileId> {
    /// The files, in the order of the first label of each.
    files: Vec<LabeledFile<FileId>>,
    /// The ids of these files, beside one another for a fast search.
    ids: Vec<FileId>,
    /// The labels, in the order of the diagnostic.
    labels: Vec<LabelSpan<'diagnostic>>,
}

impl<'diagnostic, FileId: Copy + PartialEq> Snippets<'diagnostic, FileId> {
    /// Looks up the lines of the labels of a diagnostic.
    pub(super) fn look_up<'files>(
        diagnostic: &'diagnostic Diagnostic<FileId>,
        config: &Config,
        files: &'files (impl Files<'files, FileId = FileId> + ?Sized),
    ) -> Result<Self, Error> {
        let mut snippets = Snippets {
            files: Vec::with_capacity(1),
            ids: Vec::with_capacity(1),
            labels: Vec::with_capacity(diagnostic.labels.len()),
        };
        for label in &diagnostic.labels {
            snippets.add(label, config, files)?;
        }
        Ok(snippets)
    }

    fn add<'files>(
        &mut self,
        label: &'diagnostic Label<FileId>,
        config: &Config,
        files: &'files (impl Files<'files, FileId = FileId> + ?Sized),
    ) -> Result<(), Error> {
        let (start, start_line) = line_at(files, label.file_id, label.range.start)?;
        let (end, end_line) = line_at(files, label.file_id, label.range.end)?;
        let index = self.file_of(label, files)?;
        let file = &mut self.files[index];
        file.add_lines_before(start.line_index, config.before_label_lines, files)?;
        file.add_lines_after(end.line_index, config.after_label_lines, files)?;
        file.insert_line(start, start_line);
        file.add_lines_between(start.line_index, end.line_index, config, files)?;
        file.insert_line(end, end_line);
        self.labels.push(LabelSpan {
            style: label.style,
            message: &label.message,
            file: index,
            start,
            end,
        });
        Ok(())
    }

    /// Returns the index of the file of a label, whose name and location are looked up where they
    /// are not known yet.
    fn file_of<'files>(
        &mut self,
        label: &Label<FileId>,
        files: &'files (impl Files<'files, FileId = FileId> + ?Sized),
    ) -> Result<usize, Error> {
        let previous = self.labels.last().map(|previous| previous.file);
        let known = match previous {
            Some(index) if self.ids[index] == label.file_id => previous,
            _ => index_of(&self.ids, label.file_id),
        };
        if let Some(index) = known {
            self.files[index].show_if_before(label, files)?;
            return Ok(index);
        }
        self.files.push(LabeledFile::look_up(label, files)?);
        self.ids.push(label.file_id);
        Ok(self.files.len() - 1)
    }

    /// Looks up the sources, and the single lines between two shown ones, renders all, and passes
    /// the output to `read`.
    pub(super) fn render<'files, F: Files<'files, FileId = FileId> + ?Sized>(
        mut self,
        files: &'files F,
        request: &Request<'_>,
        read: Read<'_>,
    ) -> Result<(), Error> {
        let mut sources: Vec<F::Source> = Vec::with_capacity(self.files.len());
        for file in &mut self.files {
            sources.push(files.source(file.id())?);
            file.fill(files)?;
        }
        let mut excerpts = Vec::with_capacity(self.files.len());
        for (file, source) in self.files.iter().zip(&sources) {
            excerpts.push(file.excerpt(source.as_ref())?);
        }
        // The archive finds the file of the label before at once. The order of two labels of
        // different files changes nothing but the order of the files, which stays.
        if self.files.len() > 1 {
            self.labels.sort_by_key(|label| label.file);
        }
        let labels: Vec<_> = (self.labels.iter())
            .map(|label| label.native(&mut excerpts[label.file]))
            .collect();
        let files = self.files.iter().zip(&excerpts);
        let files: Vec<_> = files.map(|(file, excerpt)| file.native(excerpt)).collect();
        let texts = excerpts.iter().map(|excerpt| excerpt.text().len());
        let messages = self.labels.iter().map(|label| label.message.len());
        let length = 2 * texts.sum::<usize>() + messages.sum::<usize>() + LABEL * labels.len();
        Ok(request.render(&files, &labels, length, read)?)
    }
}

/// Returns the index of the first item that equals one. For numbers `contains` compares several at
/// once.
fn index_of<T: Copy + PartialEq>(items: &[T], item: T) -> Option<usize> {
    const CHUNK: usize = 64;
    let mut chunks = items.chunks(CHUNK);
    let chunk = chunks.position(|chunk| chunk.contains(&item))?;
    let (first, rest) = (CHUNK * chunk, &items[CHUNK * chunk..]);
    let in_rest = rest.iter().position(|&other| other == item)?;
    Some(first + in_rest)
}
