//! The structs and the numbers here beside those of the header: the layouts of its structs are
//! computed from its text.

use core::mem::{align_of, offset_of, size_of};
use std::collections::BTreeMap;

use super::*;
use crate::diagnostic::{LabelStyle, Severity};
use crate::native::{display_style_number, label_style_number, severity_number, Spelling};
use crate::term::DisplayStyle;

const HEADER: &str = concat!(
    include_str!("../../../../include/codespan.h"),
    include_str!("../../../../include/codespan_editor.h")
);

/// How C lays out a type.
#[derive(Clone, Default)]
struct CLayout {
    size: usize,
    align: usize,
    offsets: BTreeMap<String, usize>,
}

impl CLayout {
    fn of_scalar(size: usize) -> CLayout {
        CLayout {
            size,
            align: size,
            offsets: BTreeMap::new(),
        }
    }

    /// Computes the layout of a struct of the header.
    fn of_struct(name: &str) -> CLayout {
        let start = format!("typedef struct {name} {{");
        let (_, rest) = HEADER.split_once(&start).expect(name);
        let (body, _) = rest.split_once(&format!("}} {name};")).expect(name);
        let mut layout = CLayout::default();
        let body = without_comments(body);
        for field in body
            .split(';')
            .map(str::trim)
            .filter(|field| !field.is_empty())
        {
            let (kind, names) = field.rsplit_once(' ').expect(field);
            let (name, count) = names.split_once('[').unwrap_or((names, "1]"));
            let count = count.trim_end_matches(']').parse().expect(field);
            let kind = CLayout::of_type(kind, name.starts_with('*')).of_array(count);
            layout.push(name.trim_start_matches('*'), &kind);
        }
        layout.size = layout.size.next_multiple_of(layout.align);
        layout
    }

    fn of_type(kind: &str, is_pointer: bool) -> CLayout {
        match kind {
            _ if is_pointer => CLayout::of_scalar(size_of::<*const u8>()),
            "size_t" => CLayout::of_scalar(size_of::<usize>()),
            "uint32_t" => CLayout::of_scalar(4),
            name => CLayout::of_struct(name),
        }
    }

    fn of_array(mut self, count: usize) -> CLayout {
        self.size *= count;
        self
    }

    fn push(&mut self, name: &str, field: &CLayout) {
        let offset = self.size.next_multiple_of(field.align);
        self.offsets.insert(name.to_owned(), offset);
        self.size = offset + field.size;
        self.align = self.align.max(field.align);
    }
}

fn without_comments(text: &str) -> String {
    let mut parts = text.split("/*");
    let mut rest = parts.next().unwrap_or_default().to_owned();
    for part in parts {
        rest += part.split_once("*/").expect("a comment ends").1;
    }
    rest
}

macro_rules! assert_layout {
    ($name:literal, $type:ty, $($field:ident)+) => {
        let layout = CLayout::of_struct($name);
        assert_eq!((size_of::<$type>(), align_of::<$type>()), (layout.size, layout.align), $name);
        $(assert_eq!(offset_of!($type, $field), layout.offsets[stringify!($field)], $name);)+
    };
}

#[test]
fn structs_are_those_of_the_header() {
    assert_layout!("codespan_text", Text<'_>, length);
    assert_layout!("codespan_line", Line, start end number);
    assert_layout!("codespan_location", Location, byte line_number column_number);
    assert_layout!("codespan_file", File<'_>, name source first_byte first_line lines locations reserved);
    assert_layout!("codespan_label", Label<'_>, style file start end message reserved);
    assert_layout!("codespan_diagnostic", Diagnostic<'_>, severity code message labels notes reserved);
    assert_layout!("codespan_color_spec", ColorSpec, fg bg bold intense);
    assert_eq!(
        CLayout::of_struct("codespan_styles").size,
        size_of::<Styles>()
    );
    assert_layout!("codespan_detail", Detail, argument index);
    assert_layout!("codespan_editor_position", EditorPosition, line character);
    assert_layout!("codespan_edit", Edit<'_>, start end replacement reserved);
    assert_layout!(
        "codespan_chars", Chars<'_>,
        snippet_start source_border_left source_border_left_break note_bullet
        single_primary_caret single_secondary_caret
        multi_primary_caret_start multi_primary_caret_end
        multi_secondary_caret_start multi_secondary_caret_end
        multi_top_left multi_top multi_bottom_left multi_bottom multi_left pointer_left
    );
    assert_layout!(
        "codespan_config", Config<'_>,
        abi display_style layout form color_mode characters tab_width
        start_context_lines end_context_lines before_label_lines after_label_lines chars styles
        max_width reserved
    );
}

/// Returns the number of a constant of the header's enumerations.
fn constant(name: &str) -> u32 {
    let start = format!("CODESPAN_{name} = ");
    let (_, rest) = HEADER.split_once(&start).expect(name);
    let digits = rest.split(|c: char| !c.is_ascii_digit()).next();
    digits.unwrap_or_default().parse().expect(name)
}

#[test]
fn numbers_are_those_of_the_header() {
    assert!(HEADER.contains(&format!("#define CODESPAN_ABI {ABI}u\n")));
    assert_eq!(OK, constant("OK"));
    assert_eq!(TOO_SMALL, constant("TOO_SMALL"));
    assert_eq!(OUT_OF_MEMORY, constant("OUT_OF_MEMORY"));
    assert_eq!(FILE_LINES, constant("ARGUMENT_FILE_LINES"));
    for (argument, name) in [
        (LINE_TOO_LARGE, "LINE_TOO_LARGE"),
        (COLUMN_TOO_LARGE, "COLUMN_TOO_LARGE"),
        (CHAR_BOUNDARY, "CHAR_BOUNDARY"),
        (EDIT_REVERSED, "EDIT_REVERSED"),
        (EDIT_PAST_END, "EDIT_PAST_END"),
        (EDIT_BOUNDARY, "EDIT_BOUNDARY"),
        (EDIT_OVERLAP, "EDIT_OVERLAP"),
    ] {
        assert_eq!(argument, constant(&format!("ARGUMENT_{name}")), "{name}");
    }
    assert_eq!(CLASSIC, constant("CLASSIC"));
    assert_eq!(COLORS_OFF, constant("COLORS_OFF"));
    assert_eq!(CUSTOM_CHARS, constant("CUSTOM_CHARS"));
    assert_eq!(DEFAULT_STYLES, constant("DEFAULT_STYLES"));
    for (spelling, name) in [
        (Spelling::Safe, "TERMINAL"),
        (Spelling::SafeInColor, "TERMINAL"),
        (Spelling::Plain, "TEXT"),
        (Spelling::StyleMarks, "STYLE_MARKS"),
        (Spelling::Html, "HTML"),
        (Spelling::Svg, "SVG"),
    ] {
        assert_eq!(spelling.form(), constant(name), "{name}");
    }
    for (style, name) in [
        (DisplayStyle::Rich, "RICH"),
        (DisplayStyle::Medium, "MEDIUM"),
        (DisplayStyle::Short, "SHORT"),
    ] {
        assert_eq!(display_style_number(&style), constant(name), "{name}");
    }
    for (severity, name) in [
        (Severity::Help, "HELP"),
        (Severity::Note, "NOTE"),
        (Severity::Warning, "WARNING"),
        (Severity::Error, "ERROR"),
        (Severity::Bug, "BUG"),
    ] {
        assert_eq!(severity_number(severity), constant(name), "{name}");
    }
    assert_eq!(label_style_number(LabelStyle::Primary), constant("PRIMARY"));
    assert_eq!(
        label_style_number(LabelStyle::Secondary),
        constant("SECONDARY")
    );
}

#[test]
fn style_marks_are_those_of_the_header() {
    assert!(HEADER.contains(&format!(
        "#define CODESPAN_STYLE_MARK_BYTE {STYLE_MARK_BYTE}u\n"
    )));
    for (mark, name) in [
        (STYLE_MARK_HEADER, "HEADER"),
        (STYLE_MARK_HEADER_MESSAGE, "HEADER_MESSAGE"),
        (STYLE_MARK_LINE_NUMBER, "LINE_NUMBER"),
        (STYLE_MARK_NOTE_BULLET, "NOTE_BULLET"),
        (STYLE_MARK_SOURCE_BORDER, "SOURCE_BORDER"),
        (STYLE_MARK_PRIMARY_LABEL, "PRIMARY_LABEL"),
        (STYLE_MARK_SECONDARY_LABEL, "SECONDARY_LABEL"),
        (STYLE_MARK_RESET, "RESET"),
    ] {
        let number = constant(&format!("STYLE_MARK_{name}"));
        assert_eq!(u32::from(mark), number, "{name}");
    }
}
