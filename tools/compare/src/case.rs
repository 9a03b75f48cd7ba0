//! Cases in the format of the gallery, which tools/gallery/README.md describes.

use codespan_reporting::diagnostic::{LabelStyle, Severity};
use codespan_reporting::term::{Chars, Config, DisplayStyle};

/// The file database of a case.
#[derive(Clone, Copy, PartialEq)]
pub enum DatabaseKind {
    One,
    Several,
    Mapped,
}

/// A file of a case.
pub struct Source {
    pub name: String,
    pub text: String,
}

/// A label of a case.
pub struct CaseLabel {
    pub style: LabelStyle,
    pub file: usize,
    pub start: usize,
    pub end: usize,
    pub message: String,
}

/// A case: a diagnostic, its files, and how it is rendered.
pub struct Case {
    pub name: String,
    pub database_kind: DatabaseKind,
    pub files: Vec<Source>,
    pub numbers: Vec<(usize, usize)>,
    pub config: Config,
    pub in_colors: bool,
    pub severity: Severity,
    pub code: Option<String>,
    pub message: String,
    pub labels: Vec<CaseLabel>,
    pub notes: Vec<String>,
    /// Whether suggestions are below the diagnostic. No other field has them.
    pub has_suggestions: bool,
}

impl Case {
    fn new(name: &str) -> Case {
        Case {
            name: name.to_owned(),
            database_kind: DatabaseKind::Several,
            files: Vec::new(),
            numbers: Vec::new(),
            config: Config::default(),
            in_colors: false,
            severity: Severity::Error,
            code: None,
            message: String::new(),
            labels: Vec::new(),
            notes: Vec::new(),
            has_suggestions: false,
        }
    }

    /// Applies a line. Returns `None` where it is not a line of a case.
    fn apply(&mut self, word: &str, rest: &str) -> Option<()> {
        match word {
            "database" => self.database_kind = database_kind(rest)?,
            "file" => self.files.push(Source { name: unescaped(rest)?, text: String::new() }),
            "|" => self.files.last_mut()?.text += &unescaped(rest)?,
            "number" => match numbers(rest)?.as_slice() {
                &[line, number] => self.numbers.push((line, number)),
                _ => return None,
            },
            "style" => self.config.display_style = style_of(rest)?,
            // The crate has one layout, the classic one, which is rendered for the other too.
            "layout" => return matches!(rest, "classic" | "unbroken").then_some(()),
            "tab" => self.config.tab_width = rest.parse().ok()?,
            "context" => set_context(&mut self.config, rest)?,
            "characters" => self.config.chars = chars_of(rest)?,
            // A word more than the gallery's, for `compare-outputs`.
            "character" => {
                let (name, character) = rest.split_once(' ')?;
                *character_of(&mut self.config.chars, name)? = character.parse().ok()?;
            }
            "colors" => self.in_colors = has_colors(rest)?,
            "severity" => self.severity = severity_of(rest)?,
            "code" => self.code = Some(unescaped(rest)?),
            "message" => self.message = unescaped(rest)?,
            "primary" => self.labels.push(label(LabelStyle::Primary, rest)?),
            "secondary" => self.labels.push(label(LabelStyle::Secondary, rest)?),
            "note" => self.notes.push(unescaped(rest)?),
            // The crate has no suggestions, and fits no line to a width.
            "suggestion" | "replace" => self.has_suggestions = true,
            "width" => drop(rest.parse::<usize>().ok()?),
            _ => return None,
        }
        Some(())
    }

    /// Returns whether the files fit the file database: one of a single file has one, and all labels in it.
    fn fits_database(&self) -> bool {
        let is_one = self.files.len() == 1 && self.labels.iter().all(|label| label.file == 0);
        self.database_kind == DatabaseKind::Several || is_one
    }
}

/// Returns the kind of file database with this name.
fn database_kind(name: &str) -> Option<DatabaseKind> {
    match name {
        "one" => Some(DatabaseKind::One),
        "several" => Some(DatabaseKind::Several),
        "mapped" => Some(DatabaseKind::Mapped),
        _ => None,
    }
}

/// Returns the display style with this name.
fn style_of(name: &str) -> Option<DisplayStyle> {
    match name {
        "rich" => Some(DisplayStyle::Rich),
        "medium" => Some(DisplayStyle::Medium),
        "short" => Some(DisplayStyle::Short),
        _ => None,
    }
}

/// Sets the numbers of lines shown around labels: start, end, before and after.
fn set_context(config: &mut Config, rest: &str) -> Option<()> {
    let &[start, end, before, after] = numbers(rest)?.as_slice() else {
        return None;
    };
    config.start_context_lines = start;
    config.end_context_lines = end;
    config.before_label_lines = before;
    config.after_label_lines = after;
    Some(())
}

/// Returns the set of characters with this name.
fn chars_of(name: &str) -> Option<Chars> {
    match name {
        "box" => Some(Chars::box_drawing()),
        "ascii" => Some(Chars::ascii()),
        _ => None,
    }
}

/// Returns whether the output is in colors, by the name of the way to write them.
fn has_colors(name: &str) -> Option<bool> {
    match name {
        "none" => Some(false),
        "ansi" | "svg" => Some(true),
        _ => None,
    }
}

/// Returns the severity with this name.
fn severity_of(name: &str) -> Option<Severity> {
    match name {
        "bug" => Some(Severity::Bug),
        "error" => Some(Severity::Error),
        "warning" => Some(Severity::Warning),
        "note" => Some(Severity::Note),
        "help" => Some(Severity::Help),
        _ => None,
    }
}

/// Returns the field of the characters with this name, for the `character` lines.
fn character_of<'chars>(chars: &'chars mut Chars, name: &str) -> Option<&'chars mut char> {
    match name {
        "multi_top" => Some(&mut chars.multi_top),
        "multi_bottom" => Some(&mut chars.multi_bottom),
        "multi_primary_caret_end" => Some(&mut chars.multi_primary_caret_end),
        "multi_secondary_caret_end" => Some(&mut chars.multi_secondary_caret_end),
        _ => None,
    }
}

/// Returns the numbers of a line, separated by spaces.
fn numbers(rest: &str) -> Option<Vec<usize>> {
    rest.split(' ').map(|number| number.parse().ok()).collect()
}

/// Returns a label: its file, its start, its end and its message.
fn label(style: LabelStyle, rest: &str) -> Option<CaseLabel> {
    let mut fields = rest.splitn(4, ' ');
    let mut number = || fields.next()?.parse().ok();
    let (file, start, end) = (number()?, number()?, number()?);
    let message = unescaped(fields.next().unwrap_or(""))?;
    Some(CaseLabel { style, file, start, end, message })
}

/// Returns the text that a field stands for.
fn unescaped(field: &str) -> Option<String> {
    let mut text = String::new();
    let mut rest = field.chars();
    while let Some(character) = rest.next() {
        text.push(if character == '\\' { escape(&mut rest)? } else { character });
    }
    Some(text)
}

/// Returns the character of an escape, after its backslash.
fn escape(rest: &mut impl Iterator<Item = char>) -> Option<char> {
    match rest.next()? {
        'n' => Some('\n'),
        'r' => Some('\r'),
        't' => Some('\t'),
        '0' => Some('\0'),
        '\\' => Some('\\'),
        'u' if rest.next() == Some('{') => {
            let digits: String = rest.take_while(|&digit| digit != '}').collect();
            char::from_u32(u32::from_str_radix(&digits, 16).ok()?)
        }
        _ => None,
    }
}

/// Returns the cases of an input, or its error.
pub fn read(input: &str) -> Result<Vec<Case>, String> {
    let mut cases: Vec<Case> = Vec::new();
    for (index, line) in input.lines().enumerate() {
        let (word, rest) = line.split_once(' ').unwrap_or((line, ""));
        let applied = match word {
            _ if line.is_empty() || line.starts_with('#') => Some(()),
            "case" => Some(cases.push(Case::new(rest))),
            _ => cases.last_mut().and_then(|case| case.apply(word, rest)),
        };
        applied.ok_or_else(|| format!("line {}: not understood", index + 1))?;
    }
    match cases.iter().find(|case| !case.fits_database()) {
        Some(case) => Err(format!("{}: a database of one file has not just this file", case.name)),
        None => Ok(cases),
    }
}
