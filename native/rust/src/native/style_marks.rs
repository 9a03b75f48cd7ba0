//! Outputs with style marks: a byte that UTF-8 never has, and then the number of the style mark.

use super::layout::{
    STYLE_MARK_BYTE, STYLE_MARK_HEADER, STYLE_MARK_HEADER_MESSAGE, STYLE_MARK_LINE_NUMBER,
    STYLE_MARK_NOTE_BULLET, STYLE_MARK_PRIMARY_LABEL, STYLE_MARK_RESET, STYLE_MARK_SECONDARY_LABEL,
    STYLE_MARK_SOURCE_BORDER,
};
use crate::diagnostic::{LabelStyle, Severity};
use crate::term::{GeneralWrite, GeneralWriteResult, WriteStyle};

/// The severities, by their numbers.
const SEVERITIES: [Severity; 5] = [
    Severity::Help,
    Severity::Note,
    Severity::Warning,
    Severity::Error,
    Severity::Bug,
];

/// Writes an output with style marks: its texts by writes, and its style marks by the calls that
/// set a style.
pub(crate) fn replay<W: WriteStyle + ?Sized>(output: &[u8], writer: &mut W) -> GeneralWriteResult {
    let mut rest = output;
    loop {
        let (text, marks) = rest.split_at(text_length(rest));
        write_bytes(writer, text)?;
        // The byte of a style mark is never the last one: its number follows.
        let [_, mark, after @ ..] = marks else {
            return Ok(());
        };
        set_style(writer, *mark)?;
        rest = after;
    }
}

/// Returns the number of bytes before the first style mark.
#[inline]
fn text_length(output: &[u8]) -> usize {
    const LOW: u64 = u64::from_ne_bytes([1; 8]);
    const HIGH: u64 = u64::from_ne_bytes([128; 8]);
    let mut words = output.chunks_exact(8);
    let mut length = 0;
    for bytes in words.by_ref() {
        let word = u64::from_le_bytes(bytes.try_into().expect("a word has 8 bytes"));
        // Inverted, the byte of a style mark is 0. The least bit here is that of the first such
        // byte.
        let marks = (!word).wrapping_sub(LOW) & word & HIGH;
        if marks != 0 {
            return length + marks.trailing_zeros() as usize / 8;
        }
        length += 8;
    }
    let is_mark = |&byte: &u8| byte == STYLE_MARK_BYTE;
    let rest = words.remainder();
    length + rest.iter().position(is_mark).unwrap_or(rest.len())
}

/// Writes the bytes of a text, unless it is empty.
fn write_bytes<W: GeneralWrite + ?Sized>(writer: &mut W, text: &[u8]) -> GeneralWriteResult {
    if text.is_empty() {
        return Ok(());
    }
    #[cfg(feature = "std")]
    return writer.write_all(text);
    #[cfg(not(feature = "std"))]
    return writer.write_str(core::str::from_utf8(text).expect("the output is UTF-8"));
}

/// Writes a text, unless it is empty.
pub(crate) fn write_text<W: GeneralWrite + ?Sized>(
    writer: &mut W,
    text: &str,
) -> GeneralWriteResult {
    if text.is_empty() {
        return Ok(());
    }
    #[cfg(feature = "std")]
    return writer.write_all(text.as_bytes());
    #[cfg(not(feature = "std"))]
    return writer.write_str(text);
}

/// Sets the style of a style mark.
fn set_style<W: WriteStyle + ?Sized>(writer: &mut W, mark: u8) -> GeneralWriteResult {
    let severity = |first: u8| SEVERITIES[usize::from(mark - first)];
    match mark {
        STYLE_MARK_HEADER..STYLE_MARK_HEADER_MESSAGE => {
            writer.set_header(severity(STYLE_MARK_HEADER))
        }
        STYLE_MARK_HEADER_MESSAGE => writer.set_header_message(),
        STYLE_MARK_LINE_NUMBER => writer.set_line_number(),
        STYLE_MARK_NOTE_BULLET => writer.set_note_bullet(),
        STYLE_MARK_SOURCE_BORDER => writer.set_source_border(),
        STYLE_MARK_PRIMARY_LABEL..STYLE_MARK_SECONDARY_LABEL => {
            writer.set_label(severity(STYLE_MARK_PRIMARY_LABEL), LabelStyle::Primary)
        }
        STYLE_MARK_SECONDARY_LABEL..STYLE_MARK_RESET => {
            writer.set_label(severity(STYLE_MARK_SECONDARY_LABEL), LabelStyle::Secondary)
        }
        STYLE_MARK_RESET => writer.reset(),
        _ => unreachable!("style mark {mark}"),
    }
}

#[cfg(test)]
mod tests {
    use super::*;

    #[test]
    fn texts_end_before_style_marks() {
        let bytes: Vec<u8> = (0..40).map(|index| [1, 127, 128, 254][index % 4]).collect();
        for length in 0..bytes.len() {
            assert_eq!(text_length(&bytes[..length]), length);
            for mark in 0..length {
                let mut output = bytes[..length].to_owned();
                output[mark] = STYLE_MARK_BYTE;
                output[length - 1] = STYLE_MARK_BYTE;
                assert_eq!(text_length(&output), mark, "{output:?}");
            }
        }
    }
}
