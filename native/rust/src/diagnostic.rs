//! Diagnostics as data: severities, labels on ranges of files, messages and notes.

use alloc::string::{String, ToString};
use alloc::vec::Vec;
use core::fmt::Display;
use core::ops::Range;

#[cfg(feature = "serialization")]
use serde::{Deserialize, Serialize};

/// The severity of a diagnostic, from the least severe to the most severe.
///
/// ```
/// use codespan_reporting::diagnostic::Severity;
///
/// let mut severities = [Severity::Error, Severity::Help, Severity::Bug, Severity::Note];
/// severities.sort();
/// assert_eq!(severities, [Severity::Help, Severity::Note, Severity::Error, Severity::Bug]);
/// assert!(Severity::Warning < Severity::Error);
/// ```
#[derive(Copy, Clone, Debug, Hash, PartialEq, Eq, PartialOrd, Ord)]
#[cfg_attr(feature = "serialization", derive(Serialize, Deserialize))]
pub enum Severity {
    /// Advice on what to do.
    Help,
    /// Information.
    Note,
    /// A possible error.
    Warning,
    /// An error in the input.
    Error,
    /// An error in the program that reports.
    Bug,
}

/// The style of a label.
#[derive(Copy, Clone, Debug, PartialEq, Eq, PartialOrd)]
#[cfg_attr(feature = "serialization", derive(Serialize, Deserialize))]
pub enum LabelStyle {
    /// Labels what the diagnostic is about. Short and medium style render a header for each
    /// primary label.
    Primary,
    /// Labels a range that explains more of it.
    Secondary,
}

/// A labeled range of a file's text, with a message.
#[derive(Clone, Debug, PartialEq, Eq)]
#[cfg_attr(feature = "serialization", derive(Serialize, Deserialize))]
pub struct Label<FileId> {
    /// Whether the label is primary or secondary.
    pub style: LabelStyle,
    /// The id of the file, in the file database that the diagnostic is rendered with.
    pub file_id: FileId,
    /// The labeled bytes of the file's text, from 0, with an exclusive end.
    pub range: Range<usize>,
    /// The message, without line breaks. An empty one is not rendered.
    pub message: String,
}

impl<FileId> Label<FileId> {
    /// Returns a label of a style, with an empty message.
    pub fn new(
        style: LabelStyle,
        file_id: FileId,
        range: impl Into<Range<usize>>,
    ) -> Label<FileId> {
        Label {
            style,
            file_id,
            range: range.into(),
            message: String::new(),
        }
    }

    /// Returns a primary label, with an empty message.
    pub fn primary(file_id: FileId, range: impl Into<Range<usize>>) -> Label<FileId> {
        Label::new(LabelStyle::Primary, file_id, range)
    }

    /// Returns a secondary label, with an empty message.
    pub fn secondary(file_id: FileId, range: impl Into<Range<usize>>) -> Label<FileId> {
        Label::new(LabelStyle::Secondary, file_id, range)
    }

    /// Replaces the message.
    #[must_use]
    pub fn with_message(mut self, message: impl Display) -> Label<FileId> {
        self.message = message.to_string();
        self
    }
}

/// A diagnostic: a severity, a message, and what explains it.
///
/// ```
/// use codespan_reporting::diagnostic::{Diagnostic, Label, Severity};
///
/// let diagnostic = Diagnostic::warning()
///     .with_message("unused variable `x`")
///     .with_label(Label::primary("main.rs", 4..5))
///     .with_note("start its name with an underscore to keep it");
/// assert_eq!(diagnostic.severity, Severity::Warning);
/// assert_eq!(diagnostic.labels[0].range, 4..5);
/// ```
#[derive(Clone, Debug, PartialEq, Eq)]
#[cfg_attr(feature = "serialization", derive(Serialize, Deserialize))]
pub struct Diagnostic<FileId> {
    /// The severity, which is the first word of a header.
    pub severity: Severity,
    /// The code, which a header has in brackets. An empty one is not rendered.
    pub code: Option<String>,
    /// The message, without line breaks. Short style shows neither source nor labels, so it has
    /// to be clear without them.
    pub message: String,
    /// The labels. Their order decides the order of the files, of lanes, of headers in short
    /// style, and which of two labels of one range comes first.
    pub labels: Vec<Label<FileId>>,
    /// The notes, which may have several lines each.
    pub notes: Vec<String>,
}

impl<FileId> Diagnostic<FileId> {
    /// Returns a diagnostic of a severity, with an empty message, and no code, labels or notes.
    pub fn new(severity: Severity) -> Diagnostic<FileId> {
        Diagnostic {
            severity,
            code: None,
            message: String::new(),
            labels: Vec::new(),
            notes: Vec::new(),
        }
    }

    /// Returns an empty diagnostic of severity [`Severity::Bug`].
    #[must_use]
    pub fn bug() -> Diagnostic<FileId> {
        Diagnostic::new(Severity::Bug)
    }

    /// Returns an empty diagnostic of severity [`Severity::Error`].
    #[must_use]
    pub fn error() -> Diagnostic<FileId> {
        Diagnostic::new(Severity::Error)
    }

    /// Returns an empty diagnostic of severity [`Severity::Warning`].
    #[must_use]
    pub fn warning() -> Diagnostic<FileId> {
        Diagnostic::new(Severity::Warning)
    }

    /// Returns an empty diagnostic of severity [`Severity::Note`].
    #[must_use]
    pub fn note() -> Diagnostic<FileId> {
        Diagnostic::new(Severity::Note)
    }

    /// Returns an empty diagnostic of severity [`Severity::Help`].
    #[must_use]
    pub fn help() -> Diagnostic<FileId> {
        Diagnostic::new(Severity::Help)
    }

    /// Replaces the code.
    #[must_use]
    pub fn with_code(mut self, code: impl Display) -> Diagnostic<FileId> {
        self.code = Some(code.to_string());
        self
    }

    /// Replaces the message.
    #[must_use]
    pub fn with_message(mut self, message: impl Display) -> Diagnostic<FileId> {
        self.message = message.to_string();
        self
    }

    /// Appends a label.
    #[must_use]
    pub fn with_label(mut self, label: Label<FileId>) -> Diagnostic<FileId> {
        self.labels.push(label);
        self
    }

    /// Appends the labels of a vector.
    #[must_use]
    pub fn with_labels(self, labels: Vec<Label<FileId>>) -> Diagnostic<FileId> {
        self.with_labels_iter(labels)
    }

    /// Appends the labels of an iterator.
    #[must_use]
    pub fn with_labels_iter(
        mut self,
        labels: impl IntoIterator<Item = Label<FileId>>,
    ) -> Diagnostic<FileId> {
        self.labels.extend(labels);
        self
    }

    /// Appends a note.
    #[must_use]
    #[allow(clippy::needless_pass_by_value)]
    pub fn with_note(mut self, note: impl ToString) -> Diagnostic<FileId> {
        self.notes.push(note.to_string());
        self
    }

    /// Appends the notes of a vector.
    #[must_use]
    pub fn with_notes(self, notes: Vec<String>) -> Diagnostic<FileId> {
        self.with_notes_iter(notes)
    }

    /// Appends the notes of an iterator.
    #[must_use]
    pub fn with_notes_iter(
        mut self,
        notes: impl IntoIterator<Item = String>,
    ) -> Diagnostic<FileId> {
        self.notes.extend(notes);
        self
    }
}
