//! Prints the report of a linter that was written for the original crate.

use std::io::{self, Write};

fn main() -> io::Result<()> {
    let colors = std::env::args().any(|arg| arg == "--colors");
    let report = linter::report("notes.txt", "one\ntwo  \n日本 \n", colors);
    io::stdout().write_all(&report)
}
