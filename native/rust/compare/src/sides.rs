//! What each crate renders of a case.

use std::fmt;

/// What a call wrote, and its error.
#[derive(PartialEq)]
pub struct Written {
    pub bytes: Vec<u8>,
    pub error: Option<String>,
}

/// What the calls return and write for a case.
pub struct Outcome {
    /// By `emit_into_string`.
    pub plain: Result<String, String>,
    /// By `emit_to_io_write`.
    pub written: Written,
    /// By `emit_to_write_style`.
    pub colored: Written,
    /// By a view, with another configuration for the lines of context.
    pub view: Written,
}

impl fmt::Display for Outcome {
    fn fmt(&self, f: &mut fmt::Formatter<'_>) -> fmt::Result {
        match &self.plain {
            Ok(text) => writeln!(f, "{text}")?,
            Err(error) => writeln!(f, "error: {error}")?,
        }
        for written in [&self.written, &self.colored, &self.view] {
            writeln!(f, "{:?}", String::from_utf8_lossy(&written.bytes))?;
            writeln!(f, "{:?}", written.error)?;
        }
        Ok(())
    }
}

/// Defines the module that renders by a crate. Both crates have the same interface, so one macro
/// serves both.
macro_rules! side {
    ($name:ident) => {
        pub mod $name {
            use std::ops::Range;

            use ::$name::diagnostic::{Diagnostic, Label, LabelStyle, Severity};
            use ::$name::files::{column_index, Error, Files, SimpleFiles};
            use ::$name::term::termcolor::Ansi;
            use ::$name::term::{
                emit_into_string, emit_to_io_write, emit_to_write_style, Chars, Config,
                DisplayStyle, Renderer, RichDiagnostic, ShortDiagnostic,
            };

            use super::{Outcome, Written};
            use crate::case::{Case, Characters, Database, Lookup, Style};
            use crate::lines::Lines;

            /// A custom file database.
            struct CustomFiles<'case> {
                files: &'case [(String, String)],
                lines: &'case [Lines],
                first_number: usize,
                failing: Option<Lookup>,
            }

            impl CustomFiles<'_> {
                fn look_up(&self, lookup: Lookup) -> Result<(), Error> {
                    if self.failing == Some(lookup) {
                        return Err(Error::ColumnTooLarge { given: 7, max: 5 });
                    }
                    Ok(())
                }

                fn file(&self, id: usize) -> Result<&(String, String), Error> {
                    self.files.get(id).ok_or(Error::FileMissing)
                }
            }

            impl<'a> Files<'a> for CustomFiles<'_> {
                type FileId = usize;
                type Name = &'a str;
                type Source = &'a str;

                fn name(&'a self, id: usize) -> Result<&'a str, Error> {
                    self.look_up(Lookup::Name(id))?;
                    Ok(&self.file(id)?.0)
                }

                fn source(&'a self, id: usize) -> Result<&'a str, Error> {
                    self.look_up(Lookup::Source(id))?;
                    Ok(&self.file(id)?.1)
                }

                fn line_index(&'a self, id: usize, byte: usize) -> Result<usize, Error> {
                    self.look_up(Lookup::LineIndex(id, byte))?;
                    self.file(id)?;
                    Ok(self.lines[id].line_of(byte))
                }

                fn line_number(&'a self, id: usize, line: usize) -> Result<usize, Error> {
                    self.look_up(Lookup::LineNumber(id, line))?;
                    Ok(self.first_number + line)
                }

                fn column_number(
                    &'a self,
                    id: usize,
                    line: usize,
                    byte: usize,
                ) -> Result<usize, Error> {
                    self.look_up(Lookup::ColumnNumber(id, byte))?;
                    let range = self.line_range(id, line)?;
                    Ok(10 + column_index(self.source(id)?, range, byte))
                }

                fn line_range(&'a self, id: usize, line: usize) -> Result<Range<usize>, Error> {
                    self.look_up(Lookup::LineRange(id, line))?;
                    self.file(id)?;
                    let ranges = &self.lines[id].ranges;
                    let max = ranges.len() - 1;
                    let range = ranges.get(line).cloned();
                    range.ok_or(Error::LineTooLarge { given: line, max })
                }
            }

            pub fn diagnostic(case: &Case) -> Diagnostic<usize> {
                let severities = [
                    Severity::Help,
                    Severity::Note,
                    Severity::Warning,
                    Severity::Error,
                    Severity::Bug,
                ];
                let mut diagnostic = Diagnostic::new(severities[case.severity])
                    .with_message(&case.message)
                    .with_notes(case.notes.clone());
                diagnostic.code = case.code.clone();
                for label in &case.labels {
                    let style = if label.primary {
                        LabelStyle::Primary
                    } else {
                        LabelStyle::Secondary
                    };
                    let bare = Label::new(style, label.file, label.range.clone());
                    diagnostic = diagnostic.with_label(bare.with_message(&label.message));
                }
                diagnostic
            }

            pub fn config(case: &Case) -> Config {
                Config {
                    display_style: match case.style {
                        Style::Rich => DisplayStyle::Rich,
                        Style::Medium => DisplayStyle::Medium,
                        Style::Short => DisplayStyle::Short,
                    },
                    tab_width: case.tab_width,
                    chars: match case.characters {
                        Characters::Box => Chars::box_drawing(),
                        Characters::Ascii => Chars::ascii(),
                        Characters::Custom => custom_chars(),
                    },
                    start_context_lines: case.context.start,
                    end_context_lines: case.context.end,
                    before_label_lines: case.context.before,
                    after_label_lines: case.context.after,
                }
            }

            /// Characters of which no two are the same, but for those by which the crates differ.
            fn custom_chars() -> Chars {
                Chars {
                    snippet_start: "≡≡>".into(),
                    source_border_left: '┃',
                    source_border_left_break: '┇',
                    note_bullet: '•',
                    single_primary_caret: '▲',
                    single_secondary_caret: '△',
                    multi_primary_caret_start: '◆',
                    multi_primary_caret_end: '◆',
                    multi_secondary_caret_start: '◇',
                    multi_secondary_caret_end: '◇',
                    multi_top_left: '┏',
                    multi_top: '━',
                    multi_bottom_left: '┗',
                    multi_bottom: '━',
                    multi_left: '╏',
                    pointer_left: '╎',
                }
            }

            pub fn simple_files(case: &Case) -> SimpleFiles<&str, &str> {
                let mut files = SimpleFiles::new();
                for (name, text) in &case.files {
                    files.add(name.as_str(), text.as_str());
                }
                files
            }

            /// Renders a case.
            pub fn render(case: &Case) -> Outcome {
                match &case.database {
                    Database::Simple => render_over(case, &simple_files(case)),
                    Database::Custom {
                        lines,
                        first_number,
                        failing,
                    } => {
                        let files = CustomFiles {
                            files: &case.files,
                            lines,
                            first_number: *first_number,
                            failing: *failing,
                        };
                        render_over(case, &files)
                    }
                }
            }

            fn render_over<'f>(case: &Case, files: &'f impl Files<'f, FileId = usize>) -> Outcome {
                let (config, diagnostic) = (config(case), diagnostic(case));
                let plain = emit_into_string(&config, files, &diagnostic);

                let mut bytes = Vec::new();
                let result = emit_to_io_write(&mut bytes, &config, files, &diagnostic);
                let written = written(bytes, result);

                let mut colors = Ansi::new(Vec::new());
                let result = emit_to_write_style(&mut colors, &config, files, &diagnostic);
                let colored = self::written(colors.into_inner(), result);

                let mut colors = Ansi::new(Vec::new());
                let other = Config {
                    tab_width: 2,
                    ..config.clone()
                };
                let renderer = &mut Renderer::new(&mut colors, &other);
                let result = match case.style {
                    Style::Rich => {
                        RichDiagnostic::new(&diagnostic, &config).render(files, renderer)
                    }
                    style => ShortDiagnostic::new(&diagnostic, style == Style::Medium)
                        .render(files, renderer),
                };
                Outcome {
                    plain: plain.map_err(|error| format!("{error:?}")),
                    written,
                    colored,
                    view: self::written(colors.into_inner(), result),
                }
            }

            fn written(bytes: Vec<u8>, result: Result<(), Error>) -> Written {
                Written {
                    bytes,
                    error: result.err().map(|error| format!("{error:?}")),
                }
            }
        }
    };
}

side!(original);
side!(proved);
