//! Compares this crate with the original one.
//!
//! - `compare check SEED COUNT` renders random diagnostics by both, and fails where one differs that
//!   should not;
//! - `compare unlawful SEED COUNT` does so over file databases whose lines are no lines of their
//!   texts;
//! - `compare bench` prints the time that each takes for some diagnostics;
//! - `compare rows` prints the names of these;
//! - `compare repeat NAME CRATE KIND COUNT` renders one of these some times, by the crate `original`
//!   or `proved`, as `text` or in `colors`;
//! - `compare outputs` prints what the original renders of the groups in `tests/original`.

// The name by which the groups use a crate.
extern crate original as codespan_reporting;

mod bench;
mod case;
#[path = "../../tests/original/groups.rs"]
mod groups;
mod lines;
mod random;
mod sides;

use std::fmt;
use std::panic;
use std::process::ExitCode;

use case::Case;
use random::Random;
use sides::Outcome;

fn main() -> ExitCode {
    let words: Vec<String> = std::env::args().skip(1).collect();
    match words.iter().map(String::as_str).collect::<Vec<_>>()[..] {
        [kind @ ("check" | "unlawful"), seed, count] => match (seed.parse(), count.parse()) {
            (Ok(seed), Ok(count)) => check(seed, count, kind == "check"),
            _ => usage(),
        },
        ["bench"] => {
            bench::run();
            ExitCode::SUCCESS
        }
        ["rows"] => {
            bench::print_rows();
            ExitCode::SUCCESS
        }
        ["repeat", name, side, kind, calls] => match calls.parse() {
            Ok(calls) if bench::repeat(name, side, kind, calls) => ExitCode::SUCCESS,
            _ => usage(),
        },
        ["outputs"] => {
            for (name, output) in groups::outputs() {
                println!("== {name}\n{output}");
            }
            ExitCode::SUCCESS
        }
        _ => usage(),
    }
}

fn usage() -> ExitCode {
    eprintln!("usage: compare check|unlawful|bench|rows|repeat|outputs, as src/main.rs says");
    ExitCode::from(2)
}

/// How many cases ended in an output, in an error, and in a panic of the original.
#[derive(Default)]
struct Counts {
    outputs: usize,
    errors: usize,
    panics: usize,
}

impl fmt::Display for Counts {
    fn fmt(&self, f: &mut fmt::Formatter<'_>) -> fmt::Result {
        write!(
            f,
            "{} outputs and {} errors are the original's, which panicked for the other {}",
            self.outputs, self.errors, self.panics
        )
    }
}

/// Compares random cases.
fn check(seed: u64, count: usize, is_lawful: bool) -> ExitCode {
    panic::set_hook(Box::new(|_| ()));
    let mut random = Random::new(seed);
    let mut counts = Counts::default();
    for index in 0..count {
        let case = Case::random(&mut random, is_lawful);
        let theirs = panic::catch_unwind(|| sides::original::render(&case));
        let ours = panic::catch_unwind(|| sides::proved::render(&case));
        let Ok(theirs) = theirs else {
            counts.panics += 1;
            if ours.is_ok() {
                continue;
            }
            println!("case {index} of seed {seed} panics, as in the original:\n{case:#?}");
            return ExitCode::FAILURE;
        };
        let Ok(ours) = ours else {
            println!("case {index} of seed {seed} panics:\n{case:#?}\nthe original:\n{theirs}");
            // Once more, with the message.
            drop(panic::take_hook());
            sides::proved::render(&case);
            return ExitCode::FAILURE;
        };
        if let Some(problem) = difference(&case, &ours, &theirs) {
            println!("case {index} of seed {seed}: {problem}\n{case:#?}");
            println!("the original:\n{theirs}\nhere:\n{ours}");
            return ExitCode::FAILURE;
        }
        match theirs.plain {
            Ok(_) => counts.outputs += 1,
            Err(_) => counts.errors += 1,
        }
    }
    println!("{count} random diagnostics: {counts}");
    ExitCode::SUCCESS
}

/// Returns what should not differ between two outcomes, and does.
fn difference(case: &Case, ours: &Outcome, theirs: &Outcome) -> Option<&'static str> {
    if ours.plain != theirs.plain {
        return Some("the text differs");
    }
    let writes = [
        (&ours.written, &theirs.written),
        (&ours.colored, &theirs.colored),
    ];
    for (ours, theirs) in writes.into_iter().chain([(&ours.view, &theirs.view)]) {
        if ours.error != theirs.error {
            return Some("the error differs");
        }
        // Where a lookup fails that the original makes after the header, it has written more.
        let same = if ours.error.is_some() && case.is_rich() {
            theirs.bytes.starts_with(&ours.bytes)
        } else {
            ours.bytes == theirs.bytes
        };
        if !same {
            return Some("what is written differs");
        }
    }
    None
}
