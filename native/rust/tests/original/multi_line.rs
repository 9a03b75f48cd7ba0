//! Multi-line labels, and lines of context.

use codespan_reporting::diagnostic::{Diagnostic, Label};
use codespan_reporting::files::{SimpleFile, SimpleFiles};

use super::Data;

const WEEKDAYS: &str = "\
library Weekdays with

name₁ : Day → Phrase
name₁ day = when (day mod 7) (day mod 2) is
    6 1 => \"restless\"
    6 _ => \"rest\"
    _ 1 => \"work\"
    _ _ => day

name₂ : Day → Phrase
name₂ day =
    when (day mod 7) (day mod 2) is
        6 1 => \"restless\"
        6 _ => \"rest\"
        _ 1 => \"work\"
        _ _ => day
";

pub fn fizz_buzz() -> Data<SimpleFiles<&'static str, String>, usize> {
    let mut files = SimpleFiles::new();
    let file = files.add("Weekdays.lib", WEEKDAYS.to_owned());
    let labels = [
        vec![
            Label::primary(file, 163..166).with_message("this is a `Day`, and no `Phrase`"),
            Label::secondary(file, 62..166).with_message("the branches of this `when`"),
            Label::secondary(file, 41..47).with_message("declared as `Phrase` here"),
        ],
        vec![
            Label::primary(file, 328..331).with_message("this is a `Day`, and no `Phrase`"),
            Label::secondary(file, 211..331).with_message("the branches of this `when`"),
            Label::secondary(file, 258..268).with_message("this branch is a `Phrase`"),
            Label::secondary(file, 284..290).with_message("this branch is a `Phrase`"),
            Label::secondary(file, 306..312).with_message("this branch is a `Phrase`"),
            Label::secondary(file, 186..192).with_message("declared as `Phrase` here"),
        ],
    ];
    let diagnostics = labels.map(|labels| {
        Diagnostic::error()
            .with_message("the branches of `when` have two types")
            .with_code("E0417")
            .with_labels(labels)
            .with_notes(vec!["most are `Phrase`\n   one is `Day`\n".to_owned()])
    });
    Data {
        files,
        diagnostics: diagnostics.into(),
    }
}

const SHAPES: &str = "        switch shape.compare_to(drawing.largest_shape()) {
            Relation.Below => Found(drawing.list_of_shapes()[shape.number]),
            Relation.Within => Found(drawing.edge().last()),
            Relation.Overlaps => NoShapeWithinDrawingError {
                outer: shape.edge,
                inner: drawing.outer_edge(),
            },
        }";

pub fn multiline_overlapping() -> Data<SimpleFile<&'static str, String>, ()> {
    let found = "this branch is a `Search<Shape, NoShapeWithinDrawingError>`";
    let diagnostic = Diagnostic::error()
        .with_message("the branches of `switch` have two types")
        .with_code("E0417")
        .with_labels(vec![
            // The locus is that of the primary label, though this one comes first.
            Label::secondary((), 89..134).with_message(found),
            Label::primary((), 230..351)
                .with_message("this branch is a record `NoShapeWithinDrawingError`"),
            Label::secondary((), 8..362).with_message("the branches of this `switch`"),
            Label::secondary((), 167..195).with_message(found),
        ])
        .with_notes(vec![
            "most are `Search<Shape, NoShapeWithinDrawingError>`\n   \
             one is `NoShapeWithinDrawingError`\n"
                .to_owned(),
        ]);
    Data {
        files: SimpleFile::new("shapes/src/search.ex", SHAPES.to_owned()),
        diagnostics: vec![diagnostic],
    }
}

const SUM: &str = "\
total = sum
    4
    + 2
    + 2
    + 2
    + 2
    +3
    + 2
    + 2
    + 2
;";

pub fn multiline_omit() -> Data<SimpleFiles<&'static str, String>, usize> {
    let mut files = SimpleFiles::new();
    let lines = format!("until 9 times{}done", "\n".repeat(9));
    let loops = files.add("empty_loop_bodies.src", lines);
    let sum = files.add("sums/a.lst", SUM.to_owned());
    let diagnostics = vec![
        Diagnostic::error()
            .with_message("this loop does nothing")
            .with_code("empty_loop")
            .with_labels(vec![
                Label::primary(loops, 0..23),
                Label::secondary(loops, 15..21).with_message("a statement goes here"),
            ]),
        Diagnostic::error()
            .with_message("a number where none is needed")
            .with_code("E0417")
            .with_labels(vec![
                Label::primary(sum, 17..80).with_message("this is a number"),
                Label::secondary(sum, 55..55).with_message("a space is missing"),
            ])
            .with_notes(vec![
                "rule:\tneeded is `nothing`\n\tthere is `{number}`".to_owned()
            ]),
    ];
    Data { files, diagnostics }
}

const REPORT: &str = "\
@(run)
to report {
    write_in(
        \"<>\",
        Map
    );
}

record Map";

pub fn surrounding_lines() -> Data<SimpleFiles<&'static str, String>, usize> {
    let mut files = SimpleFiles::new();
    let file = files.add("neighboringRows.text", REPORT.to_owned());
    let diagnostics = vec![
        Diagnostic::error()
            .with_message("There is no such mark")
            .with_labels(vec![
                Label::primary(file, 2..5).with_message("No mark is named `run`")
            ]),
        Diagnostic::error()
            .with_message("A value has no text")
            .with_labels(vec![
                Label::primary(file, 55..58).with_message("`Map` does not say how it is written"),
                Label::secondary(file, 42..44).with_message("`Map` is to be written at this `<>`"),
            ]),
        Diagnostic::error()
            .with_message("Unfinished record")
            .with_labels(vec![
                Label::primary(file, 79..79).with_message("Its fields go here")
            ]),
    ];
    Data { files, diagnostics }
}
