//! A linter, written for the original crate.

use codespan_reporting::diagnostic::{Diagnostic, Label};
use codespan_reporting::files::SimpleFile;
use codespan_reporting::term::termcolor::{Ansi, NoColor, WriteColor};
use codespan_reporting::term::{emit_to_write_style, Config, Styles, StylesWriter};

/// Returns a diagnostic for each line that ends with a blank.
pub fn lint(source: &str) -> Vec<Diagnostic<()>> {
    let mut start = 0;
    let mut found = Vec::new();
    for line in source.split_inclusive('\n') {
        let text = line.trim_end_matches('\n');
        let kept = text.trim_end().len();
        if kept < text.len() {
            let label = Label::primary((), start + kept..start + text.len());
            found.push(
                Diagnostic::warning()
                    .with_message("a line ends with blanks")
                    .with_label(label.with_message("remove these")),
            );
        }
        start += line.len();
    }
    found
}

fn written<W: WriteColor>(mut writer: W, name: &str, source: &str) -> W {
    let file = SimpleFile::new(name, source);
    let styles = Styles::default();
    for diagnostic in lint(source) {
        let mut styled = StylesWriter::new(&mut writer, &styles);
        emit_to_write_style(&mut styled, &Config::default(), &file, &diagnostic)
            .expect("the file has the ranges");
    }
    writer
}

/// Returns the report of a source, in colors or not.
pub fn report(name: &str, source: &str, colors: bool) -> Vec<u8> {
    if colors {
        written(Ansi::new(Vec::new()), name, source).into_inner()
    } else {
        written(NoColor::new(Vec::new()), name, source).into_inner()
    }
}
