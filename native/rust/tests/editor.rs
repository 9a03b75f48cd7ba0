//! Positions and edits, beside what the standard library computes: `encode_utf16`, slices, and
//! `String::replace_range`.

use std::ops::Range;

use codespan_reporting::extra::{apply_edits, byte, position};
use codespan_reporting::extra::{Edit, EditError, Encoding, Position};
use codespan_reporting::files::{Error, Files, SimpleFile, SimpleFiles};

const ENCODINGS: [Encoding; 3] = [Encoding::Utf16, Encoding::Utf8, Encoding::Utf32];

const TEXTS: [&str; 7] = [
    "",
    "\n",
    "one\na𐐀b\né",
    "𐐀𐐀\r\n\r\n→",
    "no newline",
    "ends with one\n",
    "\u{feff}é→𐐀\u{301}x\n\n\n𝄞",
];

/// Returns the code units of a text.
fn units(text: &str, encoding: Encoding) -> usize {
    match encoding {
        Encoding::Utf16 => text.encode_utf16().count(),
        Encoding::Utf8 => text.len(),
        Encoding::Utf32 => text.chars().count(),
    }
}

fn position_at(line: usize, character: usize) -> Position {
    Position {
        line: line.try_into().unwrap(),
        character: character.try_into().unwrap(),
    }
}

#[test]
fn each_byte_has_its_position() {
    for text in TEXTS {
        let file = SimpleFile::new("f", text);
        for encoding in ENCODINGS {
            for at in (0..=text.len()).filter(|&at| text.is_char_boundary(at)) {
                let before = &text[..at];
                let line = before.rsplit('\n').next().unwrap();
                let index = before.matches('\n').count();
                let expected = position_at(index, units(line, encoding));
                assert_eq!(position(&file, (), encoding, at).unwrap(), expected);
                assert_eq!(byte(&file, (), encoding, expected).unwrap(), at);
            }
        }
    }
}

#[test]
fn bytes_without_a_position() {
    for text in TEXTS {
        let file = SimpleFile::new("f", text);
        let last = text.rsplit('\n').next().unwrap().len();
        for encoding in ENCODINGS {
            for at in (0..text.len()).filter(|&at| !text.is_char_boundary(at)) {
                assert!(matches!(
                    position(&file, (), encoding, at),
                    Err(Error::InvalidCharBoundary { given }) if given == at
                ));
            }
            for past in [1, 2, 1_000] {
                let at = text.len() + past;
                assert!(matches!(
                    position(&file, (), encoding, at),
                    Err(Error::ColumnTooLarge { given, max }) if given == last + past && max == last
                ));
            }
        }
    }
}

/// Returns the byte of a line at which a character starts whose code units a position is between,
/// if it is, or else the code units of the line.
fn no_byte(line: &str, encoding: Encoding, character: usize) -> Result<usize, usize> {
    let mut starts = line.char_indices();
    let inside = starts.find(|(start, char)| {
        let before = units(&line[..*start], encoding);
        before < character && character < before + units(&char.to_string(), encoding)
    });
    inside
        .map(|(start, _)| start)
        .ok_or_else(|| units(line, encoding))
}

#[test]
fn positions_without_a_byte() {
    for text in TEXTS {
        let file = SimpleFile::new("f", text);
        for encoding in ENCODINGS {
            let mut start = 0;
            for (index, line) in text.split_inclusive('\n').enumerate() {
                for character in 0..units(line, encoding) + 5 {
                    let result = byte(&file, (), encoding, position_at(index, character));
                    match (result, no_byte(line, encoding, character)) {
                        (Err(Error::InvalidCharBoundary { given }), Ok(inside)) => {
                            assert_eq!(given, start + inside);
                        }
                        (Err(Error::ColumnTooLarge { given, max }), Err(end)) => {
                            assert!(given == character && max == end && character > end);
                        }
                        (result, expected) => {
                            assert!(expected.is_err_and(|end| character <= end));
                            let line = &line[..result.unwrap() - start];
                            assert_eq!(units(line, encoding), character);
                        }
                    }
                }
                start += line.len();
            }
        }
    }
}

#[test]
fn lookups_that_fail() {
    let mut files = SimpleFiles::new();
    files.add("f", "one\ntwo");
    let utf8 = Encoding::Utf8;
    assert!(matches!(
        position(&files, 1, utf8, 0),
        Err(Error::FileMissing)
    ));
    assert!(matches!(
        byte(&files, 1, utf8, position_at(0, 0)),
        Err(Error::FileMissing)
    ));
    assert!(matches!(
        byte(&files, 0, utf8, position_at(3, 0)),
        Err(Error::LineTooLarge { given: 3, max: 1 })
    ));
}

/// A file whose bytes are all on one line.
struct OneLine {
    index: usize,
    range: Range<usize>,
}

impl<'a> Files<'a> for OneLine {
    type FileId = ();
    type Name = &'static str;
    type Source = &'static str;

    fn name(&self, (): ()) -> Result<&'static str, Error> {
        Err(Error::FileMissing)
    }

    fn source(&self, (): ()) -> Result<&'static str, Error> {
        Ok("é; two")
    }

    fn line_index(&self, (): (), _: usize) -> Result<usize, Error> {
        Ok(self.index)
    }

    fn line_range(&self, (): (), _: usize) -> Result<Range<usize>, Error> {
        Ok(self.range.clone())
    }
}

#[test]
fn lines_are_those_of_the_database() {
    let (index, range) = (7, 4..6);
    let files = OneLine { index, range };
    let utf16 = Encoding::default();
    assert_eq!(position(&files, (), utf16, 5).unwrap(), position_at(7, 1));
    assert_eq!(byte(&files, (), utf16, position_at(9, 2)).unwrap(), 6);
    assert!(matches!(
        position(&files, (), utf16, 7),
        Err(Error::ColumnTooLarge { given: 3, max: 2 })
    ));
    assert!(matches!(
        byte(&files, (), utf16, position_at(0, 3)),
        Err(Error::ColumnTooLarge { given: 3, max: 2 })
    ));
}

#[test]
fn lines_that_are_no_lines_of_the_source() {
    let utf16 = Encoding::Utf16;
    let at = |index, range| position(&OneLine { index, range }, (), utf16, 0);
    assert!(matches!(
        at(0, 0..9),
        Err(Error::IndexTooLarge { given: 9, max: 7 })
    ));
    assert!(matches!(
        at(0, 1..2),
        Err(Error::InvalidCharBoundary { given: 1 })
    ));
    let (index, max) = (u32::MAX as usize, u32::MAX as usize);
    assert_eq!(at(index, 0..2).unwrap(), position_at(index, 0));
    assert!(matches!(
        at(index + 1, 0..2),
        Err(Error::LineTooLarge { given, max: most }) if given == index + 1 && most == max
    ));
}

/// Returns a text after edits: by one replacement after another, from the last one on.
fn replaced(source: &str, edits: &[Edit<'_>]) -> String {
    let mut edits: Vec<_> = edits.iter().collect();
    edits.sort_by_key(|edit| (edit.range.start, edit.range.end));
    let mut text = source.to_owned();
    for edit in edits.iter().rev() {
        text.replace_range(edit.range.clone(), edit.replacement);
    }
    text
}

#[test]
fn edits_in_any_order() {
    let source = "use a;\n\nfn main() {\n    é(x);\n}\n";
    let edits = [
        Edit::new(24..26, "e"),
        Edit::new(7..7, "use b;\n"),
        Edit::new(26..29, ""),
        Edit::new(7..7, "use c;\n"),
        Edit::new(7..8, "\n\n"),
        Edit::new(0..0, "𐐀"),
        Edit::new(source.len()..source.len(), "\n"),
    ];
    assert_eq!(
        apply_edits(source, &edits).unwrap(),
        "𐐀use a;\nuse b;\nuse c;\n\n\nfn main() {\n    e;\n}\n\n"
    );
    for first in 0..edits.len() {
        for last in first..edits.len() {
            let some = &edits[first..=last];
            assert_eq!(apply_edits(source, some).unwrap(), replaced(source, some));
        }
    }
    assert_eq!(apply_edits(source, &[]).unwrap(), source);
    assert_eq!(apply_edits("", &[Edit::new(0..0, "")]).unwrap(), "");
}

#[test]
fn many_edits() {
    let source = "0123456789".repeat(1_000);
    let edits: Vec<_> = (0..1_000)
        .map(|index| index * 7_919 % 1_000)
        .map(|place| Edit::new(10 * place + 1..10 * place + 1 + place % 10, "é→"))
        .collect();
    assert_eq!(
        apply_edits(&source, &edits).unwrap(),
        replaced(&source, &edits)
    );
}

#[test]
fn edits_that_are_invalid() {
    #[allow(clippy::reversed_empty_ranges)]
    let reversed = Edit::new(2..1, "");
    let good = Edit::new(0..1, "x");
    let (edit, source) = (1, "aé");
    for (bad, error, text) in [
        (
            reversed,
            EditError::Reversed { edit },
            "edit 1 ends before it starts",
        ),
        (
            Edit::new(1..4, ""),
            EditError::PastEnd { edit },
            "edit 1 ends past the text",
        ),
        (
            Edit::new(1..2, ""),
            EditError::NotCharBoundary { edit },
            "edit 1 starts or ends inside a character",
        ),
        (
            Edit::new(0..3, ""),
            EditError::Overlap { edit },
            "edit 1 overlaps one before it",
        ),
    ] {
        assert_eq!(apply_edits(source, &[good.clone(), bad]), Err(error));
        assert_eq!(error.to_string(), text);
    }
}
