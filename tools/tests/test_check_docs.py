"""Tests of tools/check-docs, with a table of two figures in place of its own, whose pages and sources are those of this repository."""
import contextlib
import importlib.machinery
import importlib.util
import io
import unittest

# first, since it leads to the modules of the tools
from tree import TreeCase

from check_docs.figures import figures_of_way

README, CALLING, TESTING, MAP = 'README.md', 'crates/codespan_reporting/CALLING.md', 'docs/TESTING.md', 'docs/MAP.md'
EXAMPLES = 'docs/EXAMPLES.md'
CODE = 'crates/one/src/lib.rt'
NARROW = 'word ' * 19 + 'words'
WIDE = 'word ' * 33 + 'words'


def two_figures(_root, paths, texts):
    """The number of crates, and that of sources."""
    return ((TESTING, 'crates', r'\| (\d+) crates', texts['crates.txt'].count(':')),
            (TESTING, 'sources', r'\| ([\d,]+) sources', sum(it.endswith('.rt') for it in paths)))


class CheckDocs(TreeCase):
    TOOLS = ('check-docs',)
    FILES = {
        'crates.txt': 'one:\ncodespan_reporting: one\n',
        CODE: '''\
/// Returns the sum.
pub fn sum_of(first: usize, second: usize) -> Option<usize>
    requires small { first ≤ 10 }
    ensures { result ≡ Some (first + second) }
{
    first.checked_add(second)
}

fn private() {}
''',
        'crates/one/specs/Sums.antt': 'pub sum-of : ℕ → ℕ\n',
        'crates/one/must-fail/sum-is-zero.edit': 'file: src/lib.rt\n',
        'crates/one/mutants/sum-is-one.edit': 'file: src/lib.rt\n',
        'crates/two/src/lib.rt': 'pub fn product_of() {}\n',
        'crates/two/stdout': 'one\ntwo\n\nthree\n',
        'native/c/first.plain': 'three\nfour\n',
        'docs/pictures/first.html': '<pre>\n</pre>\n',
        'tools/tests/test_sums.py': 'wanted = made_up\n',
        README: f'''\
# One

[MAP](docs/MAP.md), [its table](docs/MAP.md#the-table-of-sums),
[the second one](docs/MAP.md#sums-1), [this page](#one), [a site](https://none.example).
The name `sum_of` of `one`, names like `sum_`, the definition `sum-of`, the call
`sum_of(first, second)`, `checked_add`, and `[first](second)`.
The files `crates/one/src/lib.rt`, `src/lib.rt`, `specs/Sums`, `crates/NAME/src/lib.rt`,
`crates/{{one,two}}/src` and `must-fail/*.edit`. A line of this page may have 100 columns:
{NARROW}

```rust
use one::sum_of;

    first.checked_add(second)
```
''',
        CALLING: '''\
# Calls

```text
one/src/lib.rt
fn sum_of(first: usize, second: usize) -> Option<usize>
  requires small: first ≤ 10
  ensures: result ≡ Some (first + second)
```
''',
        MAP: f'''\
# Map

## The table of sums

| {WIDE} |
|---|

## Sums

## Sums

Code of this page need not be that of a source, but its `names` are known, and a line may have 170 columns:
{WIDE}

```rust
let names = 1;
```
''',
        EXAMPLES: '''\
# Examples

The [output](../crates/two/stdout) of the second crate, in part:

```text
two

three
```

That of [C](../native/c/first.plain), and a command:

```text
three
four
```

```sh
two
```

A [page](pictures/first.html):

```html
<pre>
```
''',
        TESTING: '| 2 crates | 2 sources |\n| mutants that have to fail | 1: 1 of `one` |\n| mutants of the second tier | 1: 1 of `one` |\n',
    }

    def run_tool(self, *arguments):
        path = self.top / 'tools/check-docs'
        loader = importlib.machinery.SourceFileLoader('check_docs', str(path))
        tool = importlib.util.module_from_spec(importlib.util.spec_from_loader('check_docs', loader))
        loader.exec_module(tool)
        tool.figures = two_figures
        output = io.StringIO()
        with contextlib.redirect_stdout(output):
            status = tool.main()
        return status, output.getvalue(), ''

    def test_sound(self):
        self.assert_passes()

    def test_link_without_a_file(self):
        self.change(README, '(docs/MAP.md)', '(docs/MAPS.md)')
        self.assert_finds(f'{README}:3: the link docs/MAPS.md has no file')

    def test_link_from_the_folder_of_its_page(self):
        self.change(MAP, '## Sums\n\nCode', '## Sums\n\n[README](README.md)')
        self.assert_finds(f'{MAP}:12: the link README.md has no file')

    def test_link_without_a_heading(self):
        self.change(README, '#the-table-of-sums', '#the-table')
        self.assert_finds(f'{README}:3: the link docs/MAP.md#the-table has no heading')

    def test_link_to_one_heading_too_many(self):
        self.change(MAP, '## Sums\n\n## Sums\n', '## Sums\n')
        self.assert_finds(f'{README}:4: the link docs/MAP.md#sums-1 has no heading')

    def test_link_without_a_heading_of_its_page(self):
        self.change(README, '(#one)', '(#two)')
        self.assert_finds(f'{README}:4: the link #two has no heading')

    def test_heading_of_what_is_no_page(self):
        self.change(README, '(#one)', '(crates.txt#one)')
        self.assert_finds(f'{README}:4: the link crates.txt#one has no heading')

    def test_name(self):
        self.change(README, '`checked_add`', '`checked_mul`')
        self.assert_finds(f'{README}:6: no source has checked_mul, of `checked_mul`')

    def test_name_in_a_call(self):
        self.change(README, '(first, second)', '(first, third)')
        self.assert_finds(f'{README}:6: no source has third, of `sum_of(first, third)`')

    def test_beginning_of_names(self):
        self.change(README, '`sum_`', '`total_`')
        self.assert_finds(f'{README}:5: no source has total_, of `total_`')

    def test_name_of_a_block_of_another_page(self):
        self.change(README, '`checked_add`', '`names`')
        self.assert_finds(f'{README}:6: no source has names, of `names`')

    def test_name_of_a_test_of_tools(self):
        self.change(README, '`checked_add`', '`made_up`')
        self.assert_finds(f'{README}:6: no source has made_up, of `made_up`')

    def test_path(self):
        self.change(README, '`crates/one/src/lib.rt`', '`crates/one/src/sum.rt`')
        self.assert_finds(f'{README}:7: no source has crates/one/src/sum.rt, of `crates/one/src/sum.rt`')

    def test_path_of_any_crate(self):
        self.change(README, '`crates/NAME/src/lib.rt`', '`crates/NAME/src/sum.rt`')
        self.assert_finds(f'{README}:7: no source has crates/NAME/src/sum.rt, of `crates/NAME/src/sum.rt`')

    def test_path_of_either_crate(self):
        self.change(README, '{one,two}/src', '{three,four}/src')
        self.assert_finds(f'{README}:8: no source has crates/{{three,four}}/src, of `crates/{{three,four}}/src`')

    def test_name_of_another_crate(self):
        self.change(README, '`sum_of` of', '`product_of` of')
        self.assert_finds(f'{README}:5: one has no product_of')

    def test_wide_prose(self):
        self.change(MAP, f'{WIDE}\n', f'{WIDE}.\n')
        self.assert_finds(f'{MAP}:13: 171 columns')

    def test_wide_prose_of_a_narrower_page(self):
        self.change(README, f'{NARROW}\n', f'{NARROW}.\n')
        self.assert_finds(f'{README}:9: 101 columns')

    def test_code(self):
        self.change(README, 'first.checked_add(second)', 'first.checked_add(first)')
        self.assert_finds(f'{README}:11: no source has the code that begins with `first.checked_add(first)`')

    def test_signature(self):
        self.change(CALLING, 'first: usize, second: usize', 'first: usize')
        self.assert_finds(f'{CALLING}:5: one/src/lib.rt has no sum_of of this signature with these clauses alone')

    def test_clause_that_is_changed(self):
        self.change(CALLING, '≤ 10', '≤ 11')
        self.assert_finds(f'{CALLING}:5: one/src/lib.rt has no sum_of of this signature with these clauses alone')

    def test_clause_that_is_left_out(self):
        self.change(CALLING, '  requires small: first ≤ 10\n', '')
        self.assert_finds(f'{CALLING}:5: one/src/lib.rt has no sum_of of this signature with these clauses alone')

    def test_output_that_is_changed(self):
        self.change(EXAMPLES, '\n\nthree\n```', '\n\nfour\n```')
        self.assert_finds(f'{EXAMPLES}:5: no output that is linked above has the lines that begin with `two`')

    def test_output_without_a_line(self):
        self.change(EXAMPLES, 'two\n\nthree', 'two\nthree')
        self.assert_finds(f'{EXAMPLES}:5: no output that is linked above has the lines that begin with `two`')

    def test_output_of_a_part_of_a_line(self):
        self.change(EXAMPLES, 'four\n', 'fou\n')
        self.assert_finds(f'{EXAMPLES}:13: no output that is linked above has the lines that begin with `three`')

    def test_output_of_a_file_that_is_linked_before_another_block(self):
        self.change(EXAMPLES, '[C](../native/c/first.plain)', 'C')
        self.change(EXAMPLES, '[output]', '[C](../native/c/first.plain), the [output]')
        self.assert_finds(f'{EXAMPLES}:13: no output that is linked above has the lines that begin with `three`')

    def test_output_in_html(self):
        self.change(EXAMPLES, '<pre>', '<p>')
        self.assert_finds(f'{EXAMPLES}:24: no output that is linked above has the lines that begin with `<p>`')

    def test_figure(self):
        self.change(TESTING, '2 crates', '3 crates')
        self.assert_finds(f'{TESTING}: 3 crates, where the files have 2')

    def test_figure_of_thousands(self):
        self.change(TESTING, '2 sources', '2,000 sources')
        self.assert_finds(f'{TESTING}: 2,000 sources, where the files have 2')

    def test_figure_that_no_page_has(self):
        self.change(TESTING, '2 crates', 'two crates')
        self.assert_finds(rf'{TESTING}: no figure of crates, as \| (\d+) crates')

    def test_must_fail_edits_of_a_crate(self):
        self.change(TESTING, 'have to fail | 1: 1 of `one`', 'have to fail | 1: 1 of `two`')
        self.assert_finds(f'{TESTING}: 0 edits of one in must-fail, where the files have 1', f'{TESTING}: 1 edits of two in must-fail, where the files have 0')

    def test_mutants_of_a_crate(self):
        self.change(TESTING, 'second tier | 1: 1 of `one`', 'second tier | 2: 2 of `one`')
        self.assert_finds(f'{TESTING}: 2 edits of one in mutants, where the files have 1')


class FiguresOfWay(TreeCase):
    FILES = {'tools/label-way': "print('calls from first_call: 24\\nlines of code of views: 1541\\nlines of specs of views: 1\\nlines of proofs of views: 2')\n"}

    def test_rows(self):
        self.assertEqual([*figures_of_way(self.top)], [
            (MAP, 'calls from first_call', r'^\| calls from `first_call` \| ([\d,]+) \|', 24),
            (MAP, 'lines of code of views', r'^\| lines of code of views \| ([\d,]+) \|', 1541)])

    def test_a_tool_that_fails(self):
        self.put('tools/label-way', 'raise SystemExit(1)\n')
        with self.assertRaisesRegex(SystemExit, '^check-docs: tools/label-way fails$'):
            [*figures_of_way(self.top)]


if __name__ == '__main__':
    unittest.main()
