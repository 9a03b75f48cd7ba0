"""Tests of tools/label-way."""
import unittest

from tree import TreeCase
from way_tree import CACHED, EMITTING, FILES, LEMMAS, MORE_LEMMAS, RICH, ROWS, SNIPPET, WRITING

WAY = f'''\
{EMITTING}:7: emit_into_string calls emit_to_write_style
{EMITTING}:12: emit_to_write_style calls RichDiagnostic::render
{RICH}:9: RichDiagnostic::render calls RichDiagnostic::render_snippets
{RICH}:14: RichDiagnostic::render_snippets calls Snippet::render_lines
{SNIPPET}:12: Snippet::render_lines calls Snippet::render_line
{SNIPPET}:21: Snippet::render_line calls write_line
{ROWS}:17: write_line calls put_repeated
{ROWS}:27: put_repeated calls put_char
{ROWS}:37: put_char calls RowWriter::put
{CACHED}:27: RowWriter::put calls PlainWriter::put
{WRITING}:18: PlainWriter::put calls forward_put
{WRITING}:29: forward_put calls write
'''
FIGURES = '''\
calls from emit_into_string to the writer: 12
files of the whole way: 6
functions of the whole way: 18
types of the whole way: 6
modules of codespan_views: 4
carrier types of codespan_views: 1
places that hold the padding width: 3
functions of views, renderer and rows: 20
lines of code of codespan_views: 46
lines of specs of codespan_views: 1
lines of proofs of codespan_views: 11
lemmas that nothing cites: 0
'''


class LabelWay(TreeCase):
    TOOLS = ('label-way',)
    FILES = FILES

    def assert_figure(self, name, count):
        """Asserts that the tool prints this count."""
        self.assertIn(f'{name}: {count}', self.run_tool()[1].splitlines())

    def assert_prints(self, option, *lines):
        """Asserts that the tool prints these lines with this option."""
        self.assertEqual(self.run_tool(option), (0, ''.join(f'{it}\n' for it in lines), ''))

    def assert_fails(self, error):
        """Asserts that the tool prints this error alone, and ends with 1."""
        self.assertEqual(self.run_tool(), (1, '', f'label-way: {error}\n'))

    def add_a_method_of_the_same_name(self):
        """Adds a method to `RichDiagnostic` with the name of the one of `Snippet` that `render_snippets` calls. It leads to the caret too."""
        self.change(RICH, '        snippet.render_lines(w)\n    }\n',
                    '        snippet.render_lines(w)\n    }\n\n    fn render_lines(&self, w: &mut W) {\n        write_line(w)\n    }\n')

    def assert_the_same_way(self):
        """Asserts that the tool prints the way of the sound tree, and as many functions and types of the whole way."""
        self.assertEqual(self.run_tool('--way'), (0, WAY, ''))
        self.assert_figure('functions of the whole way', 18)
        self.assert_figure('types of the whole way', 6)

    def test_figures(self):
        self.assertEqual(self.run_tool(), (0, FIGURES, ''))

    def test_way(self):
        self.assertEqual(self.run_tool('--way'), (0, WAY, ''))

    def test_way_with_one_more_call(self):
        self.change(ROWS, 'fn put_char<W: PutStyle>(w: &mut W, c: char) {\n    w.put(c)', 'fn put_char(w: &mut W, c: char) {\n    put_glyph(w, c)')
        self.put(ROWS, f'{self.text(ROWS)}\nfn put_glyph<W: PutStyle>(w: &mut W, c: char) {{\n    w.put(c)\n}}\n')
        self.assert_figure('calls from emit_into_string to the writer', 13)

    def test_files(self):
        self.assert_prints('--files', f'{WRITING}: 2', f'{ROWS}: 5', f'{CACHED}: 3', f'{EMITTING}: 2', f'{RICH}: 3', f'{SNIPPET}: 3')

    def test_one_more_function_of_the_whole_way(self):
        self.change(ROWS, "    c != '{'\n}\n", "    is_ascii(c)\n}\n\nfn is_ascii(c: char) -> bool {\n    c != '{'\n}\n")
        self.assert_figure('functions of the whole way', 19)

    def test_an_implementation_that_is_not_meant(self):
        self.put('crates/codespan_renderer/src/other.rt', '''\
struct OtherLine;

impl LineCharacters for OtherLine {
    fn width(&self) -> usize {
        other_width()
    }
}

fn other_width() -> usize {
    1
}
''')
        self.assert_figure('functions of the whole way', 18)
        self.assert_figure('functions of views, renderer and rows', 22)

    def test_types(self):
        status, output, _ = self.run_tool('--types')
        names = [it.partition(': ')[2] for it in output.splitlines()]
        self.assertEqual((status, names), (0, ['PlainWriter', 'CachedLine', 'CachedCursor', 'RowWriter', 'RichDiagnostic', 'Snippet']))

    def test_modules(self):
        self.assert_prints('--modules', EMITTING, RICH, 'crates/codespan_views/src/short.rt', SNIPPET)

    def test_carrier_types(self):
        self.assert_prints('--carriers', f'{SNIPPET}:4: Snippet')

    def test_one_more_carrier_type(self):
        self.put('crates/codespan_views/src/lines.rt', 'pub(crate) enum Shown<T> {\n    Line(T),\n}\n')
        self.assert_figure('carrier types of codespan_views', 2)

    def test_padding(self):
        self.assert_prints('--padding', f'{ROWS}:4: padding', f'{SNIPPET}:5: spanned_padding', f'{SNIPPET}:20: padding')

    def test_padding_by_its_type(self):
        self.change(CACHED, '    cursor: CachedCursor,\n', '    cursor: CachedCursor,\n    pub widest: PaddingWidth,\n')
        self.assert_figure('places that hold the padding width', 4)

    def test_lines_that_are_no_code(self):
        self.change(SNIPPET, '/// A snippet.\n', '/// A snippet,\n/// and more.\n\npub use std::fmt::{\n    Debug,\n};\n')
        self.change(SNIPPET, 'fn render_line(&self, w: &mut W) {\n',
                    'fn render_line(&self, w: &mut W)\n        requires one { n\n            ≡ 1 }\n        ensures { result ≡ n }\n    {\n')
        self.assert_figure('lines of code of codespan_views', 47)

    def test_a_public_lemma_that_nothing_cites(self):
        self.change(LEMMAS, 'product n\n', 'refl\n')
        self.assert_prints('--uncited', f'{MORE_LEMMAS}:1: product')

    def test_a_lemma_that_only_itself_cites(self):
        self.change(LEMMAS, '  sum = own-sum m', '  sum = refl')
        self.change(LEMMAS, 'own-sum n = product n', 'own-sum n = product n ∙ own-sum n')
        self.assert_prints('--uncited', f'{LEMMAS}:4: own-sum')

    def test_a_lemma_of_a_module_that_nothing_cites(self):
        self.change('crates/codespan_renderer/proofs/Rows.antt', 'sum 1', 'refl -- not by sum')
        self.assert_prints('--uncited', f'{LEMMAS}:8: sum')

    def test_a_private_lemma_whose_name_another_file_has(self):
        self.change(LEMMAS, '  sum = own-sum m', '  sum = refl')
        self.change(MORE_LEMMAS, 'refl', 'own-sum n')
        self.assert_prints('--uncited', f'{LEMMAS}:4: own-sum')

    def test_no_start(self):
        self.change(EMITTING, 'emit_into_string', 'emit')
        self.assert_fails('there is no function emit_into_string')

    def test_a_meant_call_of_no_function(self):
        self.change(ROWS, 'fn write_line', 'fn write_rows')
        self.assert_fails('MEANT: there is no function write_line')

    def test_a_meant_call_of_no_method(self):
        self.change(RICH, 'fn render(', 'fn draw(')
        self.assert_fails('MEANT: there is no function RichDiagnostic::render')

    def test_a_meant_call_by_no_function(self):
        self.change(EMITTING, 'fn emit_to_write_style', 'fn emit_styled')
        self.assert_fails('MEANT: there is no function emit_to_write_style')

    def test_a_meant_call_whose_type_the_file_names(self):
        self.add_a_method_of_the_same_name()
        self.assert_the_same_way()

    def test_a_meant_call_whose_type_the_file_does_not_name(self):
        self.add_a_method_of_the_same_name()
        self.change(RICH, 'Snippet::new()', 'new_snippet()')
        self.assert_the_same_way()

    def test_a_meant_call_that_is_not_made(self):
        self.change(ROWS, '1 => put_char', '1 => put_runs')
        self.assert_fails('MEANT: put_repeated does not call put_char')

    def test_no_trait(self):
        self.change(ROWS, 'trait CharCursor', 'trait Cursor')
        self.assert_fails('IMPLEMENTATIONS: there is no trait CharCursor')

    def test_no_implementation(self):
        self.change(CACHED, 'PutStyle for RowWriter', 'PutStyle for OtherWriter')
        self.assert_fails('IMPLEMENTATIONS: RowWriter does not implement PutStyle')

    def test_two_calls_that_lead_on(self):
        self.change(RICH, 'self.render_snippets(w)', 'self.render_snippets(w);\n        write_line(w)')
        self.assert_fails('MEANT does not say which is meant of the calls of RichDiagnostic::render that lead to a call that is passed '
                          'single_primary_caret: RichDiagnostic::render_snippets, write_line')

    def test_no_call_that_leads_on(self):
        self.change(RICH, 'self.render_snippets(w)', 'self.render_headers(w)')
        self.assert_fails('no call of emit_into_string leads to a call that is passed single_primary_caret')

    def test_no_call_that_leads_to_the_writer(self):
        self.change(WRITING, 'writer.write(bytes)', 'writer.write_all(bytes)')
        self.assert_fails('no call of emit_into_string leads to a call that is passed single_primary_caret')

    def test_two_functions_of_one_name(self):
        self.put('crates/codespan_output/src/other.rt', 'fn put_char(c: char) {\n}\n')
        self.assert_fails('put_char, which put_repeated calls, is the name of more than one function')

    def test_an_option_that_is_none(self):
        self.assertEqual(self.run_tool('--ways'), (
            1, '', 'label-way: the options are --way --files --types --modules --carriers --padding --uncited, one at a time\n'))


if __name__ == '__main__':
    unittest.main()
