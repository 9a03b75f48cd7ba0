//! The groups of diagnostics of the original crate's test, in each of its configurations, and of
//! databases whose lines overlap, descend or are outside the text: each output is the one that the
//! original rendered, byte by byte.
//!
//! The stored outputs, `tests/original/outputs`, are not this crate's: `./test outputs` has the
//! original write them. None of them shows a difference between the crates.

use std::collections::BTreeMap;

#[path = "original/groups.rs"]
mod groups;

#[test]
fn outputs_are_those_of_the_original() {
    let stored = stored();
    let outputs = groups::outputs();
    for (name, output) in &outputs {
        assert_eq!(output, stored[name.as_str()], "{name}");
    }
    let in_color = if cfg!(feature = "termcolor") { 30 } else { 0 };
    assert_eq!((outputs.len(), stored.len()), (67 + in_color, 97));
}

/// Returns the stored outputs by their names.
fn stored() -> BTreeMap<&'static str, &'static str> {
    let text = include_str!("original/outputs");
    let sections = text.strip_prefix("== ").unwrap().strip_suffix('\n');
    let sections = sections.unwrap().split("\n== ");
    sections
        .map(|section| section.split_once('\n').unwrap())
        .collect()
}
