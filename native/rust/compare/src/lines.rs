//! The lines of a file, as a custom file database has them.

use std::ops::Range;

use crate::random::Random;

/// The lines of a file.
#[derive(Debug)]
pub struct Lines {
    pub ranges: Vec<Range<usize>>,
    /// The line of each byte up to the length of the text.
    of_bytes: Vec<usize>,
}

impl Lines {
    /// Returns the lines of a text, with their newlines or without.
    pub fn of_text(text: &str, with_newlines: bool) -> Lines {
        let newlines = text.match_indices('\n').map(|(byte, _)| byte);
        let starts: Vec<_> = std::iter::once(0)
            .chain(newlines.clone().map(|byte| byte + 1))
            .collect();
        let ends = newlines.map(|byte| byte + usize::from(with_newlines));
        let ends = ends.chain([text.len()]);
        let ranges = starts.iter().zip(ends).map(|(&start, end)| start..end);
        Lines::with_last_starts(text, ranges.collect())
    }

    /// Returns lines that are no lines of the text: some are empty, overlap others, are in another
    /// order, or are no part of the text. No byte is before its line, as it has no caret in the
    /// original then.
    pub fn unlawful(random: &mut Random, text: &str) -> Lines {
        let mut ranges = Lines::of_text(text, random.one_in(2)).ranges;
        for _ in 0..=random.below(6) {
            let line = random.below(ranges.len());
            let start = ranges[line].start;
            match random.below(8) {
                0 | 1 => ranges.insert(line, start..start),
                2 | 3 => ranges[line].end = boundary(random, text, start),
                4 => {
                    let other = random.below(ranges.len());
                    ranges.swap(line, other);
                }
                5 => {
                    let start = boundary(random, text, 0);
                    ranges[line] = start..boundary(random, text, start);
                }
                6 => ranges.insert(line, 0..boundary(random, text, 0)),
                _ => ranges[line].end += random.below(4),
            }
        }
        // At least one line starts at or before each byte.
        ranges.push(0..boundary(random, text, 0));
        let mut lines = Lines::with_last_starts(text, ranges);
        if random.one_in(2) {
            for byte in 0..lines.of_bytes.len() {
                let starts = |line: &usize| lines.ranges[*line].start <= byte;
                let candidates: Vec<_> = (0..lines.ranges.len()).filter(starts).collect();
                lines.of_bytes[byte] = random.pick(&candidates);
            }
        }
        lines
    }

    /// Returns lines of which each byte is on the last one that starts at or before it.
    fn with_last_starts(text: &str, ranges: Vec<Range<usize>>) -> Lines {
        let line_of = |byte| ranges.iter().rposition(|line| line.start <= byte);
        let of_bytes = (0..=text.len()).map(|byte| line_of(byte).unwrap_or(0));
        Lines {
            of_bytes: of_bytes.collect(),
            ranges,
        }
    }

    /// Returns the line of a byte.
    pub fn line_of(&self, byte: usize) -> usize {
        self.of_bytes[byte.min(self.of_bytes.len() - 1)]
    }
}

/// Returns a character boundary of a text, from a byte on.
fn boundary(random: &mut Random, text: &str, from: usize) -> usize {
    let boundaries = (from..=text.len()).filter(|&byte| text.is_char_boundary(byte));
    let boundaries: Vec<_> = boundaries.take(40).collect();
    if boundaries.is_empty() {
        return from;
    }
    random.pick(&boundaries)
}
