"""A small repository with the way of a label, over which the tests of tools/label-way run it."""
WRITING, ROWS, CACHED = 'crates/codespan_core/src/writing.rt', 'crates/codespan_output/src/rows.rt', 'crates/codespan_renderer/src/cached.rt'
EMITTING, RICH, SNIPPET = (f'crates/codespan_views/src/{it}.rt' for it in ('emitting', 'rich', 'snippet'))
LEMMAS, MORE_LEMMAS = 'crates/codespan_views/proofs/Sums.antt', 'crates/codespan_output/proofs/Products.antt'

CORE = '''\
pub trait PutStyle {
    ghost sink: { Self → Sink };

    fn put(&mut self, bytes: &[u8]) -> Result<usize, Error>
        ensures took { Puts (sink self.old) bytes.now };
}

pub trait WriteStyle: Write {
    fn put(&mut self, bytes: &[u8]) -> io::Result<usize>;
}

pub struct PlainWriter<W> {
    inner: W,
}

impl<W: Write> WriteStyle for PlainWriter<W> {
    fn put(&mut self, bytes: &[u8]) -> io::Result<usize> {
        forward_put(&mut self.inner, bytes)
    }
}

impl<W: Write> Write for PlainWriter<W> {
    fn write(&mut self, bytes: &[u8]) -> io::Result<usize> {
        self.inner.write(bytes)
    }
}

pub fn forward_put<W: Write>(writer: &mut W, bytes: &[u8]) -> io::Result<usize> {
    writer.write(bytes)
}
'''
PICTURE = '''\
use codespan_core::PutStyle;

pub struct RowContext<'config> {
    pub padding: usize,
}

pub trait CharCursor {
    fn next_metrics(&mut self) -> usize;
}

pub trait LineCharacters {
    fn width(&self) -> usize;
}

/// Writes a line, and not write_other(chars.single_primary_caret).
pub fn write_line<W: PutStyle, S: LineCharacters>(w: &mut W, chars: &Chars<'_>, outer_padding: usize, line: &S) {
    put_repeated(w, chars.single_primary_caret, line.width());
    is_scalar(chars.single_primary_caret);
}

fn is_scalar(c: char) -> bool {
    c != '{'
}

fn put_repeated<W: PutStyle>(w: &mut W, c: char, count: usize) {
    match count {
        1 => put_char(w, c),
        _ => put_runs(w, c, count),
    }
}

fn put_runs<W: PutStyle>(w: &mut W, c: char, count: usize) {
    w.put(c)
}

fn put_char<W: PutStyle>(w: &mut W, c: char) {
    w.put(c)
}
'''
RENDERER = '''\
use codespan_core::{PutStyle, WriteStyle};

pub struct CachedLine {
    cursor: CachedCursor,
}

pub struct CachedCursor;

impl CharCursor for CachedCursor {
    fn next_metrics(&mut self) -> usize {
        1
    }
}

impl LineCharacters for CachedLine {
    fn width(&self) -> usize {
        self.cursor.next_metrics()
    }
}

pub struct RowWriter<'row, W> {
    inner: &'row mut W,
}

impl<W: WriteStyle> PutStyle for RowWriter<'_, W> {
    fn put(&mut self, bytes: &[u8]) -> Result<usize, Failed> {
        WriteStyle::put(self.inner, bytes)
    }
}
'''
FILES = {
    'crates.txt': '''\
codespan_core:
codespan_other: codespan_core
codespan_output: codespan_core unicode_width
codespan_renderer: codespan_core codespan_output
codespan_views: codespan_renderer
''',
    WRITING: CORE,
    'crates/codespan_other/src/lib.rt': 'pub fn put_char(c: char) {}\n',
    ROWS: PICTURE,
    CACHED: RENDERER,
    'crates/codespan_views/src/lib.rt': 'mod emitting;\nmod rich;\n',
    EMITTING: '''\
use crate::rich::RichDiagnostic;

/// Emits.
pub fn emit_into_string(padding: usize) -> Result<String, Error>
    ensures { Emits padding result }
{
    emit_to_write_style(writer)
}

fn emit_to_write_style(w: &mut PlainWriter) {
    match style {
        Rich => RichDiagnostic::new().render(w),
        Short => ShortDiagnostic::new().render(w),
    }
}
''',
    RICH: '''\
pub struct RichDiagnostic;

impl RichDiagnostic {
    pub fn new() -> RichDiagnostic {
        RichDiagnostic
    }

    pub fn render(&self, w: &mut W) {
        self.render_snippets(w)
    }

    fn render_snippets(&self, w: &mut W) {
        let snippet = Snippet::new();
        snippet.render_lines(w)
    }
}
''',
    'crates/codespan_views/src/short.rt': '''\
pub struct ShortDiagnostic;

impl ShortDiagnostic {
    pub fn new() -> ShortDiagnostic {
        ShortDiagnostic
    }

    pub fn render(&self, w: &mut W) {}
}
''',
    SNIPPET: '''\
ghost use Rattle.codespan_views.specs.Lines.{Line};

/// A snippet.
pub struct Snippet {
    pub spanned_padding: usize,
    ghost fits: { (n : ℕ) → n < limit },
}

impl Snippet {
    pub fn render_lines(&self, w: &mut W) {
        self.render_filled(w);
        self.render_line(w)
    }

    fn render_filled(&self, w: &mut W) {
        self.render_line(w)
    }

    fn render_line(&self, w: &mut W) {
        let padding = self.spanned_padding;
        write_line(w, chars, padding, cached)
    }
}
''',
    'crates/codespan_views/specs/Lines.antt': 'pub Line : Type 0\n',
    LEMMAS: '''\
use Rattle.codespan_output.proofs.Products.{product}

-- for the clause `sum`
own-sum : (n : ℕ) → n ≡ n
own-sum n = product n

module _ (m : ℕ) where
  pub sum : m ≡ m
  sum = own-sum m

answer : goal.returns-clause
''',
    MORE_LEMMAS: 'pub product : (n : ℕ) → n ≡ n\nproduct n = refl\n',
    'crates/codespan_renderer/proofs/Rows.antt': 'answer : goal.returns-clause\nanswer = sum 1\n',
}
