//! What the original does not have: each form of a message that is not safe to print. The expected
//! outputs are written by hand.

use std::num::NonZeroUsize;

use codespan_reporting::diagnostic::{Diagnostic, Label};
use codespan_reporting::extra::{html_styles, html_styles_of};
use codespan_reporting::extra::{safe, safe_in_color, to_html, to_svg, Settings};
use codespan_reporting::files::{Error, SimpleFile, SimpleFiles};
use codespan_reporting::term::termcolor::{Color, ColorSpec};
use codespan_reporting::term::{Config, Styles};

fn no_files() -> SimpleFiles<&'static str, &'static str> {
    SimpleFiles::new()
}

fn hostile() -> Diagnostic<usize> {
    Diagnostic::note().with_message("a\u{1b}[2J<\u{202e}b")
}

#[test]
fn forms() -> Result<(), Error> {
    let config = Config::default();
    assert_eq!(safe(&config, &no_files(), &hostile())?, "note: a[2J<b\n\n");
    assert_eq!(
        safe_in_color(&config, &no_files(), &hostile())?,
        "\u{1b}[0m\u{1b}[1m\u{1b}[38;5;10mnote\u{1b}[0m\u{1b}[1m: a[2J<b\u{1b}[0m\n\n"
    );
    assert_eq!(
        to_html(&config, &no_files(), &hostile())?,
        "<pre class=\"diagnostic\">\n<span class=\"header-note\">note</span>\
         <span class=\"header-message\">: a[2J&lt;b</span>\n\n</pre>"
    );
    let svg = to_svg(&config, &no_files(), &hostile())?;
    assert!(svg.starts_with("<svg ") && svg.ends_with(">a[2J&lt;b</text>\n\n</svg>\n"));
    Ok(())
}

#[test]
fn a_source_that_is_not_safe() -> Result<(), Error> {
    let file = SimpleFile::new("f", "a\u{1b}b\n");
    let diagnostic = Diagnostic::note()
        .with_message("m")
        .with_label(Label::primary((), 2..3));
    assert_eq!(
        safe(&Config::default(), &file, &diagnostic)?,
        "note: m\n  ┌─ f:1:3\n  │\n1 │ ab\n  │  ^\n\n"
    );
    Ok(())
}

#[test]
fn a_line_that_does_not_fit() -> Result<(), Error> {
    let letters = "abcdefghijklmnopqrstuvwxyz".repeat(2);
    let file = SimpleFile::new("f", &letters);
    let diagnostic = Diagnostic::error()
        .with_message("m")
        .with_label(Label::primary((), 3..5).with_message("here"));
    let config = Config::default();
    let shortened = letters[..48].to_owned() + "...";
    for (max_width, row) in [
        (None, &letters),
        (Some(56), &letters),
        (Some(55), &shortened),
    ] {
        let settings = Settings {
            max_width: max_width.and_then(NonZeroUsize::new),
            ..Settings::from(&config)
        };
        assert_eq!(
            safe(settings, &file, &diagnostic)?,
            format!("error: m\n  ┌─ f:1:4\n  │\n1 │ {row}\n  │    ^^ here\n\n")
        );
    }
    Ok(())
}

#[test]
fn a_lookup_that_fails() {
    let diagnostic = Diagnostic::note().with_label(Label::primary(0, 0..1));
    assert!(matches!(
        to_html(&Config::default(), &no_files(), &diagnostic),
        Err(Error::FileMissing)
    ));
}

#[test]
fn the_style_sheet_is_that_of_the_gallery() {
    let page = include_str!("../../../docs/pictures/gallery.html");
    let css = html_styles();
    assert!(page.contains(&css) && css.lines().count() == 18);
    assert_eq!(html_styles_of(&Styles::default()), Some(css));
}

/// Returns a field.
type Field = fn(&mut Styles) -> &mut ColorSpec;

/// Each field of the styles by its class.
const CLASSES: [(&str, Field); 15] = [
    ("header-bug", |styles| &mut styles.header_bug),
    ("header-error", |styles| &mut styles.header_error),
    ("header-warning", |styles| &mut styles.header_warning),
    ("header-note", |styles| &mut styles.header_note),
    ("header-help", |styles| &mut styles.header_help),
    ("header-message", |styles| &mut styles.header_message),
    ("primary-label-bug", |styles| &mut styles.primary_label_bug),
    ("primary-label-error", |styles| {
        &mut styles.primary_label_error
    }),
    ("primary-label-warning", |styles| {
        &mut styles.primary_label_warning
    }),
    ("primary-label-note", |styles| {
        &mut styles.primary_label_note
    }),
    ("primary-label-help", |styles| {
        &mut styles.primary_label_help
    }),
    ("secondary-label", |styles| &mut styles.secondary_label),
    ("line-number", |styles| &mut styles.line_number),
    ("source-border", |styles| &mut styles.source_border),
    ("note-bullet", |styles| &mut styles.note_bullet),
];

#[test]
fn each_style_has_its_rule() {
    let colors = [
        (Color::Black, "#000000"),
        (Color::Red, "#cd0000"),
        (Color::Green, "#00cd00"),
        (Color::Yellow, "#cdcd00"),
        (Color::Blue, "#0000ee"),
        (Color::Magenta, "#cd00cd"),
        (Color::Cyan, "#00cdcd"),
        (Color::White, "#e5e5e5"),
    ];
    for ((class, field), (color, rgb)) in CLASSES.iter().zip(colors.iter().cycle()) {
        let mut styles = Styles::no_color();
        field(&mut styles)
            .set_fg(Some(*color))
            .set_bg(Some(Color::White))
            .set_bold(true);
        let css = html_styles_of(&styles).unwrap();
        let rule =
            format!("{class} {{ color: {rgb}; background-color: #e5e5e5; font-weight: bold; }}");
        assert!(css.contains(&format!(".diagnostic .{rule}\n")), "{css}");
        assert_eq!(css.matches("color: #").count(), 2);
    }
}

#[test]
fn styles_that_a_sheet_does_not_have() {
    let changes: [fn(&mut ColorSpec) -> &mut ColorSpec; 3] = [
        |spec| spec.set_fg(Some(Color::Ansi256(9))),
        |spec| spec.set_bg(Some(Color::Rgb(1, 2, 3))),
        |spec| spec.set_underline(true),
    ];
    for change in changes {
        let mut styles = Styles::default();
        change(&mut styles.note_bullet);
        assert_eq!(html_styles_of(&styles), None);
    }
}
