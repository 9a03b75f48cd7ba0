//! The views: what each display style renders of a diagnostic.

use alloc::string::{String, ToString};
use alloc::vec;
use alloc::vec::Vec;
use core::{iter, slice};

use crate::diagnostic::{Diagnostic, Label, LabelStyle};
use crate::files::{Error, Files};
use crate::native::{self, replay, Form, Line, Read, Request, Slice, Spelling};
use crate::term::renderer::Renderer;
use crate::term::snippets::Snippets;
use crate::term::{Config, DisplayStyle};

/// The bytes that a header in short style is expected to have at most, besides its message.
const HEADER: usize = 150;

/// The view of [`DisplayStyle::Rich`].
pub struct RichDiagnostic<'diagnostic, 'config, FileId> {
    diagnostic: &'diagnostic Diagnostic<FileId>,
    config: &'config Config,
}

impl<'diagnostic, 'config, FileId> RichDiagnostic<'diagnostic, 'config, FileId>
where
    FileId: Copy + PartialEq,
{
    /// Returns the view of a diagnostic, with the lines of context of a configuration.
    #[must_use]
    pub fn new(
        diagnostic: &'diagnostic Diagnostic<FileId>,
        config: &'config Config,
    ) -> RichDiagnostic<'diagnostic, 'config, FileId> {
        RichDiagnostic { diagnostic, config }
    }

    /// Renders the header, the labeled lines of each file, and the notes, and then an empty line.
    ///
    /// # Errors
    ///
    /// The error of the first lookup that fails, before anything is written; or that of the writer.
    pub fn render<'files>(
        &self,
        files: &'files (impl Files<'files, FileId = FileId> + ?Sized),
        renderer: &mut Renderer<'_, '_>,
    ) -> Result<(), Error>
    where
        FileId: 'files,
    {
        let characters = renderer.config();
        self.output(
            files,
            characters,
            Spelling::StyleMarks.into(),
            &mut |output| replay(output.bytes(), renderer),
        )
    }

    /// Renders with the characters and the tab width of a configuration, and passes the output to
    /// `read`.
    pub(super) fn output<'files>(
        &self,
        files: &'files (impl Files<'files, FileId = FileId> + ?Sized),
        characters: &Config,
        form: Form,
        read: Read<'_>,
    ) -> Result<(), Error>
    where
        FileId: 'files,
    {
        let request = Request {
            display_style: &DisplayStyle::Rich,
            form,
            characters,
            context: self.config,
            severity: self.diagnostic.severity,
            code: self.diagnostic.code.as_deref().unwrap_or_default(),
            message: &self.diagnostic.message,
            notes: &self.diagnostic.notes,
        };
        if self.diagnostic.labels.is_empty() {
            return Ok(request.render(&[], &[], 0, read)?);
        }
        let snippets = Snippets::look_up(self.diagnostic, self.config, files)?;
        snippets.render(files, &request, read)
    }
}

/// The view of [`DisplayStyle::Short`] and [`DisplayStyle::Medium`].
pub struct ShortDiagnostic<'diagnostic, FileId> {
    diagnostic: &'diagnostic Diagnostic<FileId>,
    show_notes: bool,
}

impl<'diagnostic, FileId> ShortDiagnostic<'diagnostic, FileId>
where
    FileId: Copy + PartialEq,
{
    /// Returns the view of a diagnostic, with its notes if `show_notes` is true.
    #[must_use]
    pub fn new(
        diagnostic: &'diagnostic Diagnostic<FileId>,
        show_notes: bool,
    ) -> ShortDiagnostic<'diagnostic, FileId> {
        ShortDiagnostic {
            diagnostic,
            show_notes,
        }
    }

    /// Renders a header for each primary label, or one without a location where there is none, and
    /// then the notes if they are shown.
    ///
    /// # Errors
    ///
    /// The error of the first lookup that fails, after the headers of the labels before; or that of
    /// the writer.
    pub fn render<'files>(
        &self,
        files: &'files (impl Files<'files, FileId = FileId> + ?Sized),
        renderer: &mut Renderer<'_, '_>,
    ) -> Result<(), Error>
    where
        FileId: 'files,
    {
        let characters = renderer.config();
        self.output(
            files,
            characters,
            Spelling::StyleMarks.into(),
            &mut |output| replay(output.bytes(), renderer),
        )
    }

    /// Renders with the characters of a configuration, and passes the output to `read`. Where a
    /// lookup fails it is the headers before.
    pub(super) fn output<'files>(
        &self,
        files: &'files (impl Files<'files, FileId = FileId> + ?Sized),
        characters: &Config,
        form: Form,
        read: Read<'_>,
    ) -> Result<(), Error>
    where
        FileId: 'files,
    {
        let labels = self.diagnostic.labels.iter();
        let mut primary = labels.filter(|label| label.style == LabelStyle::Primary);
        let Some(first) = primary.next() else {
            let request = self.request(self.show_notes, characters, form);
            return Ok(request.render(&[], &[], 0, read)?);
        };
        let header = Header::look_up(files, first)?;
        let Some(second) = primary.next() else {
            // No vector is needed for one header.
            let request = self.request(self.show_notes, characters, form);
            let (files, labels) = ([header.file()], [label_at_start(0)]);
            return Ok(request.render(&files, &labels, self.length(1), read)?);
        };
        let (headers, result) = headers(files, header, iter::once(second).chain(primary));
        let files: Vec<_> = headers.iter().map(Header::file).collect();
        let labels: Vec<_> = (0..headers.len()).map(label_at_start).collect();
        self.request(self.show_notes && result.is_ok(), characters, form)
            .render(&files, &labels, self.length(headers.len()), read)?;
        result
    }

    /// Returns the length in bytes that some headers are expected not to exceed.
    fn length(&self, headers: usize) -> usize {
        headers * (HEADER + self.diagnostic.message.len())
    }

    /// Returns what is rendered besides the headers' files and labels.
    fn request<'a>(&'a self, show_notes: bool, characters: &'a Config, form: Form) -> Request<'a> {
        let (display_style, notes): (_, &[String]) = if show_notes {
            (&DisplayStyle::Medium, &self.diagnostic.notes)
        } else {
            (&DisplayStyle::Short, &[])
        };
        Request {
            display_style,
            form,
            characters,
            context: characters,
            severity: self.diagnostic.severity,
            code: self.diagnostic.code.as_deref().unwrap_or_default(),
            message: &self.diagnostic.message,
            notes,
        }
    }
}

/// Looks up what more headers show, up to the first lookup that fails.
fn headers<'files, 'a, F: Files<'files> + ?Sized>(
    files: &'files F,
    first: Header,
    labels: impl Iterator<Item = &'a Label<F::FileId>>,
) -> (Vec<Header>, Result<(), Error>)
where
    'files: 'a,
{
    let mut headers = vec![first];
    for label in labels {
        match Header::look_up(files, label) {
            Ok(header) => headers.push(header),
            Err(error) => return (headers, Err(error)),
        }
    }
    (headers, Ok(()))
}

/// The line of a file without a text, which the archive need not look for so.
const EMPTY_LINE: Line = Line {
    start: 0,
    end: 0,
    number: 1,
};

/// What a header shows of its label: the file's name and a location.
struct Header {
    name: String,
    location: native::Location,
}

impl Header {
    fn look_up<'files, F: Files<'files> + ?Sized>(
        files: &'files F,
        label: &Label<F::FileId>,
    ) -> Result<Header, Error> {
        let name = files.name(label.file_id)?.to_string();
        let location = files.location(label.file_id, label.range.start)?;
        Ok(Header {
            name,
            location: native::Location {
                byte: 0,
                line_number: location.line_number,
                column_number: location.column_number,
            },
        })
    }

    /// Returns a file without a text, whose start has the location. A header shows nothing else of
    /// its label.
    fn file(&self) -> native::File<'_> {
        native::File {
            name: self.name.as_str().into(),
            source: "".into(),
            first_byte: 0,
            first_line: 0,
            lines: Slice::new(&[EMPTY_LINE]),
            locations: Slice::new(slice::from_ref(&self.location)),
            reserved: [0; 2],
        }
    }
}

/// Returns a primary label at the start of a file.
fn label_at_start(file: usize) -> native::Label<'static> {
    native::Label {
        style: native::label_style_number(LabelStyle::Primary),
        file,
        start: 0,
        end: 0,
        message: "".into(),
        reserved: [0; 2],
    }
}
