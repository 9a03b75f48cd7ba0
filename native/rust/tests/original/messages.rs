//! Diagnostics without labels.

use codespan_reporting::diagnostic::Diagnostic;
use codespan_reporting::files::SimpleFiles;

use super::Data;

type Messages = Data<SimpleFiles<&'static str, &'static str>, usize>;

fn without_files(diagnostics: Vec<Diagnostic<usize>>) -> Messages {
    Data {
        files: SimpleFiles::new(),
        diagnostics,
    }
}

fn one_of_each() -> [Diagnostic<usize>; 4] {
    [
        Diagnostic::error(),
        Diagnostic::warning(),
        Diagnostic::note(),
        Diagnostic::help(),
    ]
}

pub fn empty() -> Messages {
    let mut diagnostics = vec![Diagnostic::bug()];
    diagnostics.extend(one_of_each());
    diagnostics.push(Diagnostic::bug());
    without_files(diagnostics)
}

pub fn message() -> Messages {
    let diagnostics = one_of_each().map(|diagnostic| diagnostic.with_message("some text"));
    without_files(diagnostics.into())
}

pub fn message_and_notes() -> Messages {
    let diagnostics = one_of_each().map(|diagnostic| {
        let notes = vec!["remark".to_owned()];
        diagnostic.with_message("some text").with_notes(notes)
    });
    without_files(diagnostics.into())
}

pub fn message_errorcode() -> Messages {
    let mut diagnostics = Vec::new();
    for (diagnostic, code) in one_of_each()
        .into_iter()
        .zip(["E0042", "W123", "N0007", "H1000"])
    {
        diagnostics.push(diagnostic.with_message("some text").with_code(code));
    }
    for diagnostic in one_of_each() {
        let message = "this code is an empty text";
        diagnostics.push(diagnostic.with_message(message).with_code(""));
    }
    without_files(diagnostics)
}
