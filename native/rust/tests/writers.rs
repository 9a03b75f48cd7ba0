//! Writers: what they receive, and their errors.

#![cfg(feature = "termcolor")]

use std::io::{self, Write};
use std::iter;

use codespan_reporting::diagnostic::{Diagnostic, Label, LabelStyle, Severity};
use codespan_reporting::files::{Error, SimpleFile};
use codespan_reporting::term::termcolor::{Ansi, Buffer, Color, ColorSpec, NoColor};
use codespan_reporting::term::{
    emit_into_string, emit_to_io_write, emit_to_write_style, Chars, Config, Renderer,
    RichDiagnostic, ShortDiagnostic, Styles, StylesWriter, WriteStyle,
};

fn file() -> SimpleFile<&'static str, &'static str> {
    SimpleFile::new("f", "let x = 1;\nlet y = x;\n")
}

fn diagnostic() -> Diagnostic<()> {
    Diagnostic::warning()
        .with_code("unused")
        .with_message("unused")
        .with_label(Label::primary((), 15..16).with_message("here"))
        .with_label(Label::secondary((), 4..5))
        .with_note("remove it")
}

/// What is written, with each style in brackets.
#[derive(Default)]
struct Spelled {
    text: String,
    /// The number of calls that succeed.
    calls: Option<usize>,
}

impl Spelled {
    fn push(&mut self, text: &str) -> io::Result<()> {
        match &mut self.calls {
            Some(0) => return Err(io::Error::other("full")),
            Some(calls) => *calls -= 1,
            None => {}
        }
        self.text += text;
        Ok(())
    }
}

impl Write for Spelled {
    fn write(&mut self, bytes: &[u8]) -> io::Result<usize> {
        self.push(std::str::from_utf8(bytes).expect("each write is whole text"))?;
        Ok(bytes.len())
    }

    fn flush(&mut self) -> io::Result<()> {
        panic!("nothing is flushed")
    }
}

impl WriteStyle for Spelled {
    fn set_header(&mut self, severity: Severity) -> io::Result<()> {
        self.push(&format!("[{severity:?}]"))
    }

    fn set_header_message(&mut self) -> io::Result<()> {
        self.push("[message]")
    }

    fn set_line_number(&mut self) -> io::Result<()> {
        self.push("[number]")
    }

    fn set_note_bullet(&mut self) -> io::Result<()> {
        self.push("[bullet]")
    }

    fn set_source_border(&mut self) -> io::Result<()> {
        self.push("[border]")
    }

    fn set_label(&mut self, severity: Severity, style: LabelStyle) -> io::Result<()> {
        self.push(&format!("[{severity:?} {style:?}]"))
    }

    fn reset(&mut self) -> io::Result<()> {
        self.push("[]")
    }
}

const SPELLED: &str = "\
[Warning]warning[unused][message]: unused[]
  [border]┌─[] f:2:5
  [border]│[]
[number]1[] [border]│[] let x = 1;
  [border]│[]     [Warning Secondary]-[]
[number]2[] [border]│[] let [Warning Primary]y[] = x;
  [border]│[]     [Warning Primary]^[] [Warning Primary]here[]
  [border]│[]
  [bullet]=[] remove it

";

#[test]
fn styles_are_set_where_texts_begin() {
    let mut writer = Spelled::default();
    emit_to_write_style(&mut writer, &Config::default(), &file(), &diagnostic()).unwrap();
    assert_eq!(writer.text, SPELLED);

    // The same by the view, and by a trait object.
    let config = Config::default();
    let mut writer = Spelled::default();
    RichDiagnostic::new(&diagnostic(), &config)
        .render(&file(), &mut Renderer::new(&mut writer, &config))
        .unwrap();
    assert_eq!(writer.text, SPELLED);

    let mut writer = Spelled::default();
    let object: &mut dyn WriteStyle = &mut writer;
    emit_to_write_style(object, &config, &file(), &diagnostic()).unwrap();
    assert_eq!(writer.text, SPELLED);
}

#[test]
fn a_view_has_its_own_lines_of_context_and_the_characters_of_the_renderer() {
    let context = Config {
        after_label_lines: 1,
        ..Config::default()
    };
    let characters = Config {
        chars: Chars::ascii(),
        before_label_lines: 9,
        ..Config::default()
    };
    let file = SimpleFile::new("f", "a\nb\nc\n");
    let diagnostic = Diagnostic::error().with_label(Label::primary((), 2..3));
    let mut output = NoColor::new(Vec::new());
    RichDiagnostic::new(&diagnostic, &context)
        .render(&file, &mut Renderer::new(&mut output, &characters))
        .unwrap();
    let rows = "error: \n  --> f:2:1\n  |\n2 | b\n  | ^\n3 | c\n\n";
    assert_eq!(String::from_utf8(output.into_inner()).unwrap(), rows);
}

#[test]
fn a_writer_that_fails_has_received_a_prefix() {
    let whole = {
        let mut writer = Spelled::default();
        emit_to_write_style(&mut writer, &Config::default(), &file(), &diagnostic()).unwrap();
        writer.text
    };
    let mut lengths = Vec::new();
    for calls in 0.. {
        let mut writer = Spelled {
            calls: Some(calls),
            ..Spelled::default()
        };
        let result = emit_to_write_style(&mut writer, &Config::default(), &file(), &diagnostic());
        assert!(whole.starts_with(&writer.text));
        lengths.push(writer.text.len());
        match result {
            Ok(()) => break,
            Err(error) => assert_eq!(error.to_string(), "full"),
        }
    }
    assert_eq!(lengths.last(), Some(&whole.len()));
    assert!(lengths.windows(2).all(|pair| pair[0] <= pair[1]));
    assert!(lengths.len() > 30);
}

#[test]
fn a_plain_writer_that_fails_is_an_io_error() {
    let mut room = [0; 16];
    let result = emit_to_io_write(
        &mut &mut room[..],
        &Config::default(),
        &file(),
        &diagnostic(),
    );
    assert!(matches!(result, Err(Error::Io(_))));
    assert_eq!(&room, b"warning[unused]:");
}

#[test]
fn a_writer_without_colors_receives_the_text() {
    let plain = emit_into_string(&Config::default(), &file(), &diagnostic()).unwrap();
    let mut uncolored = NoColor::new(Vec::new());
    emit_to_write_style(&mut uncolored, &Config::default(), &file(), &diagnostic()).unwrap();
    assert_eq!(uncolored.into_inner(), plain.as_bytes());

    let mut buffer = Buffer::no_color();
    emit_to_write_style(&mut buffer, &Config::default(), &file(), &diagnostic()).unwrap();
    assert_eq!(buffer.as_slice(), plain.as_bytes());
}

/// Returns a colored output without its escape sequences, each of which ends with `m`.
fn without_sequences(colored: &str) -> String {
    let mut parts = colored.split("\x1b[");
    let first = parts.next().unwrap_or_default();
    let texts = parts.map(|part| part.split_once('m').expect("a sequence ends").1);
    iter::once(first).chain(texts).collect()
}

#[test]
fn colors_do_not_change_the_text() {
    let plain = emit_into_string(&Config::default(), &file(), &diagnostic()).unwrap();
    let mut output = Ansi::new(Vec::new());
    emit_to_write_style(&mut output, &Config::default(), &file(), &diagnostic()).unwrap();
    let default_colors = String::from_utf8(output.into_inner()).unwrap();

    let mut line_number = ColorSpec::new();
    line_number.set_bg(Some(Color::Blue)).set_bold(true);
    let styles = Styles {
        line_number,
        ..Styles::default()
    };
    let mut output = Ansi::new(Vec::new());
    let mut writer = StylesWriter::new(&mut output, &styles);
    emit_to_write_style(&mut writer, &Config::default(), &file(), &diagnostic()).unwrap();
    let other_colors = String::from_utf8(output.into_inner()).unwrap();

    assert_ne!(default_colors, other_colors);
    for colored in [default_colors, other_colors] {
        assert!(colored.contains("\x1b[33m^"), "{colored}");
        assert_eq!(without_sequences(&colored), plain);
    }
}

#[test]
fn styles_are_those_of_the_caller() {
    let mut magenta = ColorSpec::new();
    magenta.set_fg(Some(Color::Magenta)).set_underline(true);
    let styles = Styles {
        header_help: magenta,
        ..Styles::no_color()
    };
    let mut output = Ansi::new(Vec::new());
    let config = Config::default();
    ShortDiagnostic::new(&Diagnostic::help().with_message("m"), true)
        .render(
            &file(),
            &mut Renderer::new(&mut StylesWriter::new(&mut output, &styles), &config),
        )
        .unwrap();
    let expected = "\x1b[0m\x1b[4m\x1b[35mhelp\x1b[0m: m\x1b[0m\n";
    assert_eq!(String::from_utf8(output.into_inner()).unwrap(), expected);
}

#[test]
fn default_styles_are_those_of_the_original() {
    let styles = Styles::default();
    let fg = |spec: &ColorSpec| (spec.fg().copied(), spec.bold(), spec.intense());
    let colors = [
        Color::Cyan,
        Color::Green,
        Color::Yellow,
        Color::Red,
        Color::Red,
    ];
    let severities = [
        Severity::Help,
        Severity::Note,
        Severity::Warning,
        Severity::Error,
        Severity::Bug,
    ];
    for (severity, color) in severities.into_iter().zip(colors) {
        assert_eq!(fg(styles.header(severity)), (Some(color), true, true));
        assert_eq!(
            fg(styles.label(severity, LabelStyle::Primary)),
            (Some(color), false, false)
        );
        let secondary = styles.label(severity, LabelStyle::Secondary);
        assert_eq!(fg(secondary), (Some(Color::Cyan), false, false));
    }
    assert_eq!(fg(styles.header_message()), (None, true, true));
    for spec in [
        styles.line_number(),
        styles.note_bullet(),
        styles.source_border(),
    ] {
        assert_eq!(fg(spec), (Some(Color::Cyan), false, false));
    }
}
