"""Tests of tools/check-width."""
import unittest

from tree import TreeCase

CODE = 'crates/one/src/lib.rt'
SPECS = 'crates/one/specs/Sums.antt'
PROOFS = 'crates/one/proofs/Lemmas.antt'
LONG = 'n ≡ ' + 'm + ' * 30 + 'm'
MODULE = 'Rattle.one.specs.declared.' + 'far.' * 20 + 'Sums'


class CheckWidth(TreeCase):
    TOOLS = ('check-width',)
    FILES = {
        CODE: f'''\
//! Sums.
ghost use {MODULE}.{{sum}};

/// Returns the sum.
#[tactic(auto, using(crate::proofs::Sums::sums), unfolding({', '.join(f'crate::specs::Sums::sum_{it}' for it in range(9))}))]
fn sum(n: usize) -> usize
    requires small {{ n ≤ 10
        × n ≥ 1 }}
    ensures {{ result ≡ n }}
{{
    let text =
        "{LONG}";
    n
}}
''',
        SPECS: f'''\
use {MODULE}.{{sum}}

-- the sum
pub sum : ℕ → ℕ
sum n = n

pub name : List ℕ
name =
    codes "{LONG}"
''',
        PROOFS: f'use {MODULE}.Goals as goal\n\nsum-is-it = search\n',
    }

    def assert_finds_line(self, path, number, line):
        """Asserts that the tool finds the line of this number, which is this one, and no other."""
        self.assertEqual(self.text(path).split('\n')[number - 1], line)
        self.assert_finds(f'{path}:{number}: {len(line)} columns')
        self.assertEqual(self.run_tool()[2], 'check-width: 1 lines of src/, specs/ and proofs/ are wider than 100 columns\n')

    def test_sound(self):
        self.assert_passes()

    def test_a_line_of_100_columns(self):
        line = '    ensures { result ≡ n }'
        self.change(CODE, line, line.replace('n }', 'n' * (100 - len(line) + 1) + ' }'))
        self.assert_passes()

    def test_a_line_of_101_columns(self):
        line = '    ensures { result ≡ n }'
        wide = line.replace('n }', 'n' * (101 - len(line) + 1) + ' }')
        self.change(CODE, line, wide)
        self.assert_finds_line(CODE, 9, wide)

    def test_second_line_of_a_clause(self):
        self.change(CODE, '× n ≥ 1', f'× {LONG}')
        self.assert_finds_line(CODE, 8, f'        × {LONG} }}')

    def test_comment(self):
        self.change(CODE, '//! Sums.', f'//! Sums: {LONG}.')
        self.assert_finds_line(CODE, 1, f'//! Sums: {LONG}.')

    def test_body(self):
        self.change(CODE, '    n\n}', f'    {LONG}\n}}')
        self.assert_finds_line(CODE, 13, f'    {LONG}')

    def test_import_of_two_names(self):
        self.change(CODE, '{sum};', '{sum, name};')
        self.assert_finds_line(CODE, 2, f'ghost use {MODULE}.{{sum, name}};')

    def test_definition(self):
        self.change(SPECS, 'sum n = n', f'sum n = {LONG}')
        self.assert_finds_line(SPECS, 5, f'sum n = {LONG}')

    def test_comment_of_a_definition(self):
        self.change(SPECS, '-- the sum', f'-- the sum {LONG}')
        self.assert_finds_line(SPECS, 3, f'-- the sum {LONG}')

    def test_import_of_two_names_by_a_definition(self):
        self.change(SPECS, '{sum}', '{sum, name}')
        self.assert_finds_line(SPECS, 1, f'use {MODULE}.{{sum, name}}')

    def test_proof(self):
        self.change(PROOFS, 'search', LONG)
        self.assert_finds_line(PROOFS, 3, f'sum-is-it = {LONG}')

    def test_text_of_a_field(self):
        self.change(SPECS, 'name =\n    codes', f'name =\n    text: "{LONG}",\n    codes')
        self.assert_passes()

    def test_text_with_more_in_its_line(self):
        self.change(SPECS, 'name =\n    codes', 'name = codes')
        self.assert_finds_line(SPECS, 8, f'name = codes "{LONG}"')


class CheckWidthOfNothing(TreeCase):
    TOOLS = ('check-width',)

    def test_no_files(self):
        self.assertEqual(self.run_tool(), (1, '', 'check-width: no files found\n'))


if __name__ == '__main__':
    unittest.main()
