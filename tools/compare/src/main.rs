//! `compare < CASES` renders cases of the gallery by the Rust crate, and writes for each `NAME KIND
//! LENGTH`, and then a text of that many bytes and a newline. KIND is `rendered`, and the text is
//! the output; or `failed`, and the text is the error, a newline, and what was written before it; or
//! `panicked`, with an empty text. A case in colors is rendered with escape sequences.

mod case;
mod mapped;

use case::{Case, DatabaseKind};
use codespan_reporting::diagnostic::{Diagnostic, Label};
use codespan_reporting::files::{Files, SimpleFile, SimpleFiles};
use codespan_reporting::term::{self, termcolor::Ansi, Styles, StylesWriter};
use mapped::MappedFile;
use std::io::{self, Read, Write};
use std::panic;

/// What the crate renders of a case: its output, or an error and what was written before it.
type Outcome = Result<Vec<u8>, (String, Vec<u8>)>;

/// Renders a case.
fn render(case: &Case) -> Outcome {
    let mut files = case.files.iter().map(|file| (file.name.as_str(), file.text.as_str()));
    match case.database_kind {
        DatabaseKind::Several => {
            let mut database = SimpleFiles::new();
            for (name, text) in files {
                database.add(name, text);
            }
            render_over(case, &database, |file| file)
        }
        DatabaseKind::One => {
            let (name, text) = files.next().expect("one file");
            render_over(case, &SimpleFile::new(name, text), |_| ())
        }
        DatabaseKind::Mapped => {
            let (name, text) = files.next().expect("one file");
            render_over(case, &MappedFile::new(name, text, &case.numbers), |_| ())
        }
    }
}

/// Renders a case over its file database, in which each file has an id.
fn render_over<'files, F: Files<'files>>(
    case: &Case,
    files: &'files F,
    id: impl Fn(usize) -> F::FileId,
) -> Outcome {
    let diagnostic = diagnostic(case, id);
    if !case.in_colors {
        return term::emit_into_string(&case.config, files, &diagnostic)
            .map(String::into_bytes)
            .map_err(|error| (error.to_string(), Vec::new()));
    }
    let styles = Styles::default();
    let mut colors = Ansi::new(Vec::new());
    let mut writer = StylesWriter::new(&mut colors, &styles);
    let returned = term::emit_to_write_style(&mut writer, &case.config, files, &diagnostic);
    drop(writer);
    let output = colors.into_inner();
    match returned {
        Ok(()) => Ok(output),
        Err(error) => Err((error.to_string(), output)),
    }
}

/// Returns the diagnostic of a case.
fn diagnostic<Id>(case: &Case, id: impl Fn(usize) -> Id) -> Diagnostic<Id> {
    let labels = case.labels.iter().map(|label| {
        Label::new(label.style, id(label.file), label.start..label.end).with_message(&label.message)
    });
    let bare = Diagnostic::new(case.severity)
        .with_message(&case.message)
        .with_labels(labels.collect())
        .with_notes(case.notes.clone());
    match &case.code {
        Some(code) => bare.with_code(code),
        None => bare,
    }
}

/// Writes the outcome of a case.
fn write(output: &mut impl Write, name: &str, kind: &str, text: &[u8]) -> io::Result<()> {
    writeln!(output, "{name} {kind} {}", text.len())?;
    output.write_all(text)?;
    writeln!(output)
}

fn main() -> io::Result<()> {
    let mut input = String::new();
    io::stdin().read_to_string(&mut input)?;
    let cases = case::read(&input).map_err(io::Error::other)?;
    panic::set_hook(Box::new(|_| ()));
    let mut output = io::stdout().lock();
    for case in &cases {
        match panic::catch_unwind(|| render(case)) {
            Ok(Ok(text)) => write(&mut output, &case.name, "rendered", &text)?,
            Ok(Err((error, written))) => {
                let text = [error.as_bytes(), b"\n", &written].concat();
                write(&mut output, &case.name, "failed", &text)?
            }
            Err(_) => write(&mut output, &case.name, "panicked", b"")?,
        }
    }
    Ok(())
}
