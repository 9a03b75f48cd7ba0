//! The program `timing` of this repository, over the Rust crate: it reads the same input, which crates/timing/src/fields.rt describes, renders the
//! diagnostic as often as that says, writes the last output, and reports on standard error how many nanoseconds that took, with the file database
//! where it is made anew for each time.

use codespan_reporting::diagnostic::{Diagnostic, Label, LabelStyle};
use codespan_reporting::files::SimpleFiles;
use codespan_reporting::term::{emit_into_string, Config};
use std::io::{self, Read, Write};
use std::time::Instant;

/// The fields that are left to be read.
struct Fields<'a>(&'a str);

impl<'a> Fields<'a> {
    /// Reads a line.
    fn line(&mut self) -> &'a str {
        let (line, left) = self.0.split_once('\n').expect("a line");
        self.0 = left;
        line
    }

    /// Reads a number.
    fn number(&mut self) -> usize {
        self.line().parse().expect("a number")
    }

    /// Reads a text.
    fn text(&mut self) -> &'a str {
        let length = self.number();
        let (text, left) = self.0.split_at(length);
        self.0 = left.strip_prefix('\n').expect("a newline");
        text
    }
}

/// Reads whether the file database is made anew for each rendering.
fn read_is_made_anew(fields: &mut Fields<'_>) -> bool {
    match fields.line() {
        "once" => false,
        "anew" => true,
        other => panic!("neither once nor anew: {other}"),
    }
}

/// Reads the files: the name and the source of each.
fn read_files<'a>(fields: &mut Fields<'a>) -> Vec<(&'a str, &'a str)> {
    (0..fields.number()).map(|_| (fields.text(), fields.text())).collect()
}

/// Makes the database of the files.
fn database<'a>(files: &[(&'a str, &'a str)]) -> SimpleFiles<&'a str, &'a str> {
    let mut database = SimpleFiles::new();
    for &(name, source) in files {
        database.add(name, source);
    }
    database
}

/// Reads the diagnostic, an error.
fn read_diagnostic(fields: &mut Fields<'_>) -> Diagnostic<usize> {
    let mut diagnostic = Diagnostic::error();
    let code = fields.text();
    if !code.is_empty() {
        diagnostic = diagnostic.with_code(code);
    }
    diagnostic = diagnostic.with_message(fields.text());
    for _ in 0..fields.number() {
        diagnostic = diagnostic.with_label(read_label(fields));
    }
    for _ in 0..fields.number() {
        diagnostic = diagnostic.with_note(fields.text());
    }
    diagnostic
}

/// Reads a label.
fn read_label(fields: &mut Fields<'_>) -> Label<usize> {
    let style = match fields.line() {
        "primary" => LabelStyle::Primary,
        "secondary" => LabelStyle::Secondary,
        other => panic!("no style: {other}"),
    };
    let (file, start, end) = (fields.number(), fields.number(), fields.number());
    Label::new(style, file, start..end).with_message(fields.text())
}

fn main() -> io::Result<()> {
    let mut input = String::new();
    io::stdin().read_to_string(&mut input)?;
    let mut fields = Fields(&input);
    let times = fields.number();
    let is_made_anew = read_is_made_anew(&mut fields);
    let width = fields.number();
    assert_eq!(width, 0, "the crate has no width");
    let files = read_files(&mut fields);
    let diagnostic = read_diagnostic(&mut fields);
    let mut made = database(&files);

    let config = Config::default();
    let mut output = String::new();
    let start = Instant::now();
    for _ in 0..times {
        if is_made_anew {
            made = database(&files);
        }
        output = emit_into_string(&config, &made, &diagnostic).expect("an output");
    }
    let nanos = start.elapsed().as_nanos();

    io::stdout().write_all(output.as_bytes())?;
    eprintln!("{nanos}");
    Ok(())
}
