//! Labels that begin and end on one line.

use codespan_reporting::diagnostic::{Diagnostic, Label};
use codespan_reporting::files::{SimpleFile, SimpleFiles};

use super::Data;

const QUEUE: &str = "\
fn wait() {
    let mut q = Queue::of([\"north\", \"harbor\"]);
    q.join(q.cut().expect());
}
";

pub fn same_line() -> Data<SimpleFiles<&'static str, String>, usize> {
    let mut files = SimpleFiles::new();
    let file = files.add("queues.lang", QUEUE.to_owned());
    let diagnostics = vec![
        Diagnostic::error()
            .with_code("E0731")
            .with_message("`q` is changed by two calls at the same time")
            .with_labels(vec![
                Label::primary(file, 71..72).with_message("the second change begins here"),
                Label::secondary(file, 64..65).with_message("needed once more by this call"),
                Label::secondary(file, 66..70).with_message("the first change begins here"),
            ]),
        Diagnostic::error()
            .with_message("nothing was built, as there is an error")
            .with_notes(vec!["Every error is explained by `manual CODE`.".to_owned()]),
    ];
    Data { files, diagnostics }
}

pub fn empty_ranges() -> Data<SimpleFile<&'static str, &'static str>, ()> {
    let files = SimpleFile::new("stars", "Comet passes\nVega sets.\n   ");
    let end = files.source().len();
    let diagnostics = [
        (6, "inside a line"),
        (12, "ends a line"),
        (23, "ends a line"),
        (end, "ends the file"),
    ];
    let diagnostics = diagnostics.map(|(byte, message)| {
        let label = Label::primary((), byte..byte).with_message(message);
        Diagnostic::note()
            .with_message(message)
            .with_labels(vec![label])
    });
    Data {
        files,
        diagnostics: diagnostics.into(),
    }
}

pub fn same_ranges() -> Data<SimpleFile<&'static str, &'static str>, ()> {
    let diagnostic = Diagnostic::error()
        .with_message("Misplaced brace")
        .with_labels(vec![
            Label::primary((), 4..4).with_message("This is a '{'"),
            Label::secondary((), 4..4).with_message("A number goes here"),
        ]);
    Data {
        files: SimpleFile::new("equal_keys", "a = { }"),
        diagnostics: vec![diagnostic],
    }
}

const BINARY: &str = "\
library Base.Bin with

type Bin of Kind with
    none : Bin
    next : Bin → Bin

{-# DERIVED BINRAY Bin #-}

order 6: _*_ _/_

_*_ : Bin → Bin → Bin
none    * b₂ = b₂
next b₁ * b₂ = next (b₁ * b₂)

_/_ : Bin → Bin → Bin
b₁      / none    = b₁
none    / next b₂ = none
next b₁ / next b₂ = b₁ / b₂
";
const DEMO: &str = "\
library Demo with

_ : Bin
_ = 123 * \"seven\"
";

pub fn multifile() -> Data<SimpleFiles<&'static str, String>, usize> {
    let mut files = SimpleFiles::new();
    let binary = files.add("Base/Bin.lib", BINARY.to_owned());
    let demo = files.add("Demo.lib", DEMO.to_owned());
    let diagnostics = vec![
        Diagnostic::error()
            .with_message("no derivation is named `BINRAY`")
            .with_labels(vec![
                Label::primary(binary, 96..102).with_message("not a derivation")
            ])
            .with_notes(vec!["the closest name of one is `BINARY`".to_owned()]),
        Diagnostic::warning()
            .with_message("the variable `b₂` is not used")
            .with_labels(vec![
                Label::primary(binary, 285..289).with_message("not used")
            ])
            .with_notes(vec!["write `_` where no name is needed".to_owned()]),
        Diagnostic::error()
            .with_message("an operand of `_*_` has another type")
            .with_code("E0009")
            .with_labels(vec![
                Label::primary(demo, 37..44).with_message("this is a `Text`, and no `Bin`"),
                Label::secondary(binary, 130..155).with_message("`_*_` is declared here"),
            ])
            .with_notes(vec!["declared as `Bin`\n   used as `Text`\n".to_owned()]),
    ];
    Data { files, diagnostics }
}

const PLOT: &str = "\
option exact;
var none=0;
procedure draw {
  option exact;
  top=1;
}";

pub fn position_indicator() -> Data<SimpleFile<&'static str, String>, ()> {
    let diagnostic = Diagnostic::warning()
        .with_code("CheckerNotice")
        .with_message(
            "The option `exact` of procedure `draw` has no effect, because the file that contains \
             the procedure has the option already",
        )
        .with_labels(vec![
            Label::primary((), 45..57).with_message("This option has no effect"),
            Label::secondary((), 0..12).with_message("It is set for the whole file here"),
        ]);
    Data {
        files: SimpleFile::new("tools/plot.ex", PLOT.to_owned()),
        diagnostics: vec![diagnostic],
    }
}
