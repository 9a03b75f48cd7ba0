//! How long each crate takes for some diagnostics.

use std::hint::black_box;
use std::time::Instant;

use crate::case::{Case, Characters, Context, Database, Label, Style};
use crate::sides::{original, proved};

/// The time of a measured round, in nanoseconds.
const ROUND: f64 = 10e6;

/// The number of rounds, of which the shortest one counts.
const ROUNDS: usize = 15;

/// What is measured: a name, the number of calls whose instructions are counted within seconds, and
/// the case.
const ROWS: [(&str, usize, fn() -> Case); 9] = [
    ("no label", 50, || program(Style::Rich, &[])),
    ("one label", 50, || program(Style::Rich, ONE_LABEL)),
    ("six labels", 50, || program(Style::Rich, SIX_LABELS)),
    ("short, one label", 50, || program(Style::Short, ONE_LABEL)),
    ("one label in 9 MB", 50, || {
        let labels = &[(4_480_028, 4_480_042, "no numbers")];
        case(&[&PROGRAM.repeat(150_000)], Style::Rich, labels)
    }),
    ("a label over 10,000 lines", 2, || {
        let labels = &[(28, 28 + 2_500 * PROGRAM.len(), "a tall one")];
        case(&[&PROGRAM.repeat(2_501)], Style::Rich, labels)
    }),
    ("100 labels in a line", 2, || {
        let labels: Vec<_> = (0..100)
            .map(|word| (6 * word, 6 * word + 5, "a word"))
            .collect();
        case(&[&"words ".repeat(100)], Style::Rich, &labels)
    }),
    ("32,000 labels in a file", 1, || {
        let labels: Vec<_> = (0..32_000)
            .map(|program| program * PROGRAM.len() + 28)
            .map(|start| (start, start + 14, "no numbers"))
            .collect();
        case(&[&PROGRAM.repeat(32_000)], Style::Rich, &labels)
    }),
    ("32,000 labels in 16,000 files", 1, || {
        let labels = vec![ONE_LABEL[0]; 32_000];
        case(&[PROGRAM; 16_000], Style::Rich, &labels)
    }),
];

const PROGRAM: &str = "fn main() {\n    let total = first + second;\n    print(total);\n}\n";

/// The range of a label, and its message.
type Range = (usize, usize, &'static str);

const ONE_LABEL: &[Range] = &[(28, 42, "no numbers")];

const SIX_LABELS: &[Range] = &[
    (28, 33, "`str`"),
    (36, 42, "`int`"),
    (34, 35, "no sum of these"),
    (20, 25, "has no type"),
    (10, 63, "in this function"),
    (54, 59, "used here"),
];

pub fn run() {
    println!(
        "{:<38} {:>12} {:>12} {:>7}",
        "nanoseconds a call", "original", "here", "ratio"
    );
    for (name, _, case) in ROWS {
        let case = case();
        for kind in KINDS {
            let theirs = least(|calls| original_calls(&case, kind, calls));
            let ours = least(|calls| proved_calls(&case, kind, calls));
            let ratio = theirs / ours;
            println!(
                "{:<38} {theirs:>12.0} {ours:>12.0} {ratio:>7.2}",
                format!("{name}, {kind}")
            );
        }
    }
}

/// How an output is rendered.
const KINDS: [&str; 2] = ["text", "colors"];

/// Prints the names of what is measured, each after a number of calls.
pub fn print_rows() {
    ROWS.iter()
        .for_each(|(name, calls, _)| println!("{calls}:{name}"));
}

/// Renders what has a name, by one of the crates, as text or in colors. Returns whether there is
/// such a one.
pub fn repeat(name: &str, side: &str, kind: &str, calls: usize) -> bool {
    let Some((_, _, case)) = ROWS.iter().find(|(other, ..)| *other == name) else {
        return false;
    };
    match side {
        "original" => original_calls(&case(), kind, calls),
        "proved" => proved_calls(&case(), kind, calls),
        _ => return false,
    };
    KINDS.contains(&kind)
}

macro_rules! calls {
    ($name:ident, $side:ident) => {
        /// Renders a case some times, and returns the time of a call in nanoseconds.
        fn $name(case: &Case, kind: &str, calls: usize) -> f64 {
            use ::$side::term::{emit_into_string, emit_to_write_style, termcolor::Ansi};

            let files = $side::simple_files(case);
            let (config, diagnostic) = ($side::config(case), $side::diagnostic(case));
            let start = Instant::now();
            for _ in 0..calls {
                let diagnostic = black_box(&diagnostic);
                if kind == "text" {
                    black_box(emit_into_string(&config, &files, diagnostic)).unwrap();
                } else {
                    let mut output = Ansi::new(Vec::new());
                    emit_to_write_style(&mut output, &config, &files, diagnostic).unwrap();
                    black_box(output);
                }
            }
            start.elapsed().as_nanos() as f64 / calls as f64
        }
    };
}

calls!(original_calls, original);
calls!(proved_calls, proved);

/// Returns the least time of a call over some rounds, in nanoseconds.
fn least(time: impl Fn(usize) -> f64) -> f64 {
    let calls = (ROUND / time(1).max(1.0)).clamp(1.0, 1e5) as usize;
    (0..ROUNDS)
        .map(|_| time(calls))
        .fold(f64::INFINITY, f64::min)
}

fn program(style: Style, labels: &[Range]) -> Case {
    case(&[PROGRAM], style, labels)
}

/// Returns a diagnostic over files, in turn one label in each.
fn case(texts: &[&str], style: Style, labels: &[Range]) -> Case {
    let labels = labels
        .iter()
        .enumerate()
        .map(|(index, &(start, end, message))| Label {
            primary: index == 0,
            file: index % texts.len(),
            range: start..end,
            message: message.to_owned(),
        });
    let files = texts.iter().enumerate();
    Case {
        files: files
            .map(|(index, &text)| (format!("main{index}.x"), text.to_owned()))
            .collect(),
        database: Database::Simple,
        severity: 3,
        code: Some("E0308".to_owned()),
        message: "mismatched types".to_owned(),
        labels: labels.collect(),
        notes: Vec::new(),
        style,
        characters: Characters::Box,
        tab_width: 4,
        context: Context {
            start: 3,
            end: 1,
            before: 0,
            after: 0,
        },
    }
}
