//! The characters of an output: one of the archive's sets, which it does not check anew, or others.

use super::layout;
use crate::term::Chars;

/// A set of characters that the archive has.
struct Set {
    /// Its number in the header.
    number: u32,
    snippet_start: &'static str,
    /// The other characters, in the order of the fields.
    others: [char; 15],
}

/// `CODESPAN_BOX_CHARS`: those of [`Chars::box_drawing`].
const BOX: Set = Set {
    number: 0,
    snippet_start: "┌─",
    others: [
        '│', '·', '=', '^', '-', '^', '^', '\'', '\'', '╭', '─', '╰', '─', '│', '│',
    ],
};

/// `CODESPAN_ASCII_CHARS`: those of [`Chars::ascii`].
const ASCII: Set = Set {
    number: 1,
    snippet_start: "-->",
    others: [
        '|', '.', '=', '^', '-', '^', '^', '\'', '\'', '/', '-', '\\', '-', '|', '|',
    ],
};

/// Returns the number of the set that has these characters, or that of characters that are passed.
#[inline]
pub(super) fn number(chars: &Chars) -> u32 {
    let (set, is_set) = if chars.source_border_left == BOX.others[0] {
        (&BOX, BOX.is(chars))
    } else {
        (&ASCII, ASCII.is(chars))
    };
    if is_set {
        set.number
    } else {
        layout::CUSTOM_CHARS
    }
}

impl Set {
    /// Returns true for the characters of this set. Inlined for a constant set, it compares them
    /// where they are, several at once.
    #[inline(always)]
    fn is(&self, chars: &Chars) -> bool {
        let others = &self.others;
        let differs = |char: char, index: usize| u32::from(char) ^ u32::from(others[index]);
        let difference = differs(chars.source_border_left, 0)
            | differs(chars.source_border_left_break, 1)
            | differs(chars.note_bullet, 2)
            | differs(chars.single_primary_caret, 3)
            | differs(chars.single_secondary_caret, 4)
            | differs(chars.multi_primary_caret_start, 5)
            | differs(chars.multi_primary_caret_end, 6)
            | differs(chars.multi_secondary_caret_start, 7)
            | differs(chars.multi_secondary_caret_end, 8)
            | differs(chars.multi_top_left, 9)
            | differs(chars.multi_top, 10)
            | differs(chars.multi_bottom_left, 11)
            | differs(chars.multi_bottom, 12)
            | differs(chars.multi_left, 13)
            | differs(chars.pointer_left, 14);
        difference == 0 && chars.snippet_start == self.snippet_start
    }
}

/// Returns the characters by their code points.
pub(super) fn native(chars: &Chars) -> layout::Chars<'_> {
    layout::Chars {
        snippet_start: chars.snippet_start.as_str().into(),
        source_border_left: chars.source_border_left.into(),
        source_border_left_break: chars.source_border_left_break.into(),
        note_bullet: chars.note_bullet.into(),
        single_primary_caret: chars.single_primary_caret.into(),
        single_secondary_caret: chars.single_secondary_caret.into(),
        multi_primary_caret_start: chars.multi_primary_caret_start.into(),
        multi_primary_caret_end: chars.multi_primary_caret_end.into(),
        multi_secondary_caret_start: chars.multi_secondary_caret_start.into(),
        multi_secondary_caret_end: chars.multi_secondary_caret_end.into(),
        multi_top_left: chars.multi_top_left.into(),
        multi_top: chars.multi_top.into(),
        multi_bottom_left: chars.multi_bottom_left.into(),
        multi_bottom: chars.multi_bottom.into(),
        multi_left: chars.multi_left.into(),
        pointer_left: chars.pointer_left.into(),
    }
}

#[cfg(all(test, feature = "std"))]
mod tests {
    use super::*;

    const HEADER: &str = include_str!("../../../include/codespan.h");

    #[test]
    fn default_sets_have_their_numbers() {
        for (name, chars) in [("BOX", Chars::box_drawing()), ("ASCII", Chars::ascii())] {
            let number = number(&chars);
            assert!(HEADER.contains(&format!("CODESPAN_{name}_CHARS = {number},")));
        }
    }

    #[test]
    fn other_characters_are_custom() {
        for set in [Chars::box_drawing, Chars::ascii] {
            let change: [fn(&mut Chars) -> &mut char; 15] = [
                |chars| &mut chars.source_border_left,
                |chars| &mut chars.source_border_left_break,
                |chars| &mut chars.note_bullet,
                |chars| &mut chars.single_primary_caret,
                |chars| &mut chars.single_secondary_caret,
                |chars| &mut chars.multi_primary_caret_start,
                |chars| &mut chars.multi_primary_caret_end,
                |chars| &mut chars.multi_secondary_caret_start,
                |chars| &mut chars.multi_secondary_caret_end,
                |chars| &mut chars.multi_top_left,
                |chars| &mut chars.multi_top,
                |chars| &mut chars.multi_bottom_left,
                |chars| &mut chars.multi_bottom,
                |chars| &mut chars.multi_left,
                |chars| &mut chars.pointer_left,
            ];
            for change in change {
                let mut chars = set();
                *change(&mut chars) = 'x';
                assert_eq!(number(&chars), layout::CUSTOM_CHARS);
            }
            let mut chars = set();
            chars.snippet_start.push(' ');
            assert_eq!(number(&chars), layout::CUSTOM_CHARS);
        }
    }
}
