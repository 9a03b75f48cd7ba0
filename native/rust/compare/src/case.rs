//! A diagnostic, its files and a configuration, in types of neither crate.

use std::ops::Range;

use crate::lines::Lines;
use crate::random::Random;

/// A label.
#[derive(Debug)]
pub struct Label {
    pub primary: bool,
    pub file: usize,
    pub range: Range<usize>,
    pub message: String,
}

impl Label {
    /// Returns what the order of labels on a line depends on.
    fn key(&self) -> (usize, usize, usize) {
        let Range { start, end } = self.range;
        (self.file, start, end.max(start + 1))
    }
}

/// A lookup.
#[derive(Clone, Copy, Debug, PartialEq)]
pub enum Lookup {
    Name(usize),
    Source(usize),
    LineIndex(usize, usize),
    LineNumber(usize, usize),
    LineRange(usize, usize),
    ColumnNumber(usize, usize),
}

/// The file database of the files.
#[derive(Debug)]
pub enum Database {
    /// The crate's `SimpleFiles`.
    Simple,
    /// A custom one, whose line numbers start at `first_number`, and a lookup of which may fail.
    Custom {
        lines: Vec<Lines>,
        first_number: usize,
        failing: Option<Lookup>,
    },
}

/// The characters of an output.
#[derive(Clone, Copy, Debug)]
pub enum Characters {
    Box,
    Ascii,
    Custom,
}

/// How much is rendered.
#[derive(Clone, Copy, Debug, PartialEq)]
pub enum Style {
    Rich,
    Medium,
    Short,
}

/// The lines of context: of the starts and ends of multi-line labels, and before and after
/// each label.
#[derive(Clone, Copy, Debug)]
pub struct Context {
    pub start: usize,
    pub end: usize,
    pub before: usize,
    pub after: usize,
}

#[derive(Debug)]
pub struct Case {
    /// Names and texts.
    pub files: Vec<(String, String)>,
    pub database: Database,
    pub severity: usize,
    pub code: Option<String>,
    pub message: String,
    pub labels: Vec<Label>,
    pub notes: Vec<String>,
    pub style: Style,
    pub characters: Characters,
    pub tab_width: usize,
    pub context: Context,
}

const LINES: [&str; 12] = [
    "",
    "x",
    "let a = 1;",
    "\tif é {",
    "  }",
    "路径 = y",
    "a\u{301}e\u{308}",
    "\t\tab\tc",
    "    ",
    "🦀🦀 = crab",
    "fn main() {}",
    "end\0",
];
const MESSAGES: [&str; 5] = [
    "",
    "here",
    "expected `é`, found `路`",
    "m",
    "a longer message",
];
const NOTES: [&str; 4] = ["note", "two\nlines", "", "three\n  indented\nlines\n"];

impl Case {
    /// Returns a diagnostic over a file database that is lawful, or one that is not.
    pub fn random(random: &mut Random, is_lawful: bool) -> Case {
        let count = 1 + random.below(3);
        let files: Vec<_> = (0..count)
            .map(|index| (format!("f{index}.x"), text(random)))
            .collect();
        let database = if is_lawful {
            database(random, &files)
        } else {
            unlawful_database(random, &files)
        };
        let fails = matches!(
            database,
            Database::Custom {
                failing: Some(_),
                ..
            }
        );
        let labels = labels(random, &files);
        let notes = random.pick(&[0, 0, 0, 1, 2]);
        Case {
            database,
            severity: random.below(5),
            code: random.pick(&[None, Some("E0001".to_owned()), Some(String::new())]),
            message: random.pick(&MESSAGES).to_owned(),
            labels,
            notes: (0..notes).map(|_| random.pick(&NOTES).to_owned()).collect(),
            style: random.pick(&[
                Style::Rich,
                Style::Rich,
                Style::Rich,
                Style::Medium,
                Style::Short,
            ]),
            characters: random.pick(&[Characters::Box, Characters::Ascii, Characters::Custom]),
            tab_width: random.pick(&[4, 4, 0, 1, 3, 8]),
            context: context(random, fails),
            files,
        }
    }

    pub fn is_rich(&self) -> bool {
        self.style == Style::Rich
    }
}

fn context(random: &mut Random, fails: bool) -> Context {
    // Where a line of context can not be looked up, other errors are returned here.
    let mut around = || {
        if fails {
            0
        } else {
            random.pick(&[0, 0, 1, 2, 5])
        }
    };
    let (before, after) = (around(), around());
    Context {
        start: random.below(4),
        end: random.below(4),
        before,
        after,
    }
}

fn text(random: &mut Random) -> String {
    let count = random.pick(&[1, 3, 8, 20, 60, 120]);
    let mut text = String::new();
    for _ in 0..random.below(count + 1) {
        text += random.pick(&LINES);
        text += random.pick(&["\n", "\n", "\n", "\r\n"]);
    }
    text += random.pick(&LINES);
    text
}

fn database(random: &mut Random, files: &[(String, String)]) -> Database {
    if random.one_in(2) {
        return Database::Simple;
    }
    let file = random.below(files.len());
    let text = &files[file].1;
    let byte = random.below(text.len() + 3);
    let line = random.below(1 + text.matches('\n').count());
    let failing = random.pick(&[
        Lookup::Name(file),
        Lookup::Source(file),
        Lookup::LineIndex(file, byte),
        Lookup::LineNumber(file, line),
        Lookup::LineRange(file, line),
        Lookup::ColumnNumber(file, byte),
    ]);
    let with_newlines = random.one_in(2);
    let lines = |(_, text): &(String, String)| Lines::of_text(text, with_newlines);
    Database::Custom {
        lines: files.iter().map(lines).collect(),
        first_number: first_number(random),
        failing: random.one_in(2).then_some(failing),
    }
}

fn first_number(random: &mut Random) -> usize {
    random.pick(&[1, 1, 7, 95, 998, 99_997])
}

fn unlawful_database(random: &mut Random, files: &[(String, String)]) -> Database {
    let lines = files.iter().map(|(_, text)| Lines::unlawful(random, text));
    Database::Custom {
        lines: lines.collect(),
        first_number: first_number(random),
        failing: None,
    }
}

fn labels(random: &mut Random, files: &[(String, String)]) -> Vec<Label> {
    let mut labels: Vec<Label> = Vec::new();
    for _ in 0..random.pick(&[0, 1, 1, 2, 3, 5, 8]) {
        let file = random.below(files.len());
        let length = files[file].1.len();
        let start = random.below(length + 3);
        let end = match random.below(10) {
            0..=5 => start + random.below(8),
            6 | 7 => start + random.below(90),
            8 => start + random.below(length + 3),
            _ => random.below(length + 3),
        };
        let label = Label {
            primary: random.one_in(2),
            file,
            range: start..end,
            message: random.pick(&MESSAGES).to_owned(),
        };
        // The order of three labels of one range is another one here.
        if labels
            .iter()
            .filter(|other| other.key() == label.key())
            .count()
            < 2
        {
            labels.push(label);
        }
    }
    labels
}
