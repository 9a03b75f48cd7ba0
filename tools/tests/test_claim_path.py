"""Tests of tools/claim-path."""
import unittest

from tree import TreeCase

OUTPUT = 'crates/codespan_views/specs/Output.antt'
ROWS = 'crates/picture/specs/Rows.antt'

CLAUSES = '''\
-- what the call returns
abbrev pub IsRendered : List Row → Type 0
IsRendered rows = rows ≡ shown rows

abbrev pub TextMeansLabels : Type 0
TextMeansLabels = IsRendered []

abbrev pub IsEmitError : Type 0
IsEmitError = List Row
'''
ROW_TO_KEPT = '''\
pub data Row : Type 0
  Source : ℕ → Row
  Break : Row

-- the rows that are displayed
pub displayed : List Row → List Row
displayed rows = kept rows

pub kept : List Row → List Row
kept rows = filter (λ row. row ≡ Break) rows
'''


class ClaimPath(TreeCase):
    TOOLS = ('claim-path',)
    FILES = {
        OUTPUT: f'''\
use Rattle.std.specs.Prelude.{{List}}
use Rattle.facade.specs.Rows.{{Row, displayed as shown}}

{CLAUSES}
-- what nothing above takes
pub unused : ℕ
unused = 1
''',
        'crates/facade/specs/Lib.antt': 'pub use Rattle.picture.specs.Rows\n',
        ROWS: f'''\
use Rattle.picture.specs.Rows.Row.{{Break}}

{ROW_TO_KEPT}
pub unused : Row
unused = Break
''',
    }

    def test_the_claim(self):
        self.assertEqual(self.run_tool(), (0, f'''\
-- ==== codespan_views/specs/Output

{CLAUSES}
-- ==== picture/specs/Rows

{ROW_TO_KEPT}
-- 6 definitions in 2 files, 21 lines
''', ''))

    def test_count(self):
        self.assertEqual(self.run_tool('--count'), (0, '''\
   10 codespan_views/specs/Output
   11 picture/specs/Rows
-- 6 definitions in 2 files, 21 lines
''', ''))

    def test_names_that_are_given(self):
        self.assertEqual(self.run_tool('--count', 'picture/Rows:kept', 'codespan_views/Output:unused'), (0, '''\
    4 codespan_views/specs/Output
    7 picture/specs/Rows
-- 3 definitions in 2 files, 11 lines
''', ''))

    def test_a_variant_that_is_given(self):
        self.assertEqual(self.run_tool('--count', 'picture/Rows:Break'), (0, '''\
    4 picture/specs/Rows
-- 1 definitions in 1 files, 4 lines
''', ''))

    def test_as_many_lines_as_may_be(self):
        self.assertEqual(self.run_tool('--count', '--at-most', '21')[0], 0)

    def test_too_many_lines(self):
        status, output, _ = self.run_tool('--count', '--at-most', '20')
        self.assertEqual((status, output.splitlines()[-1]), (1, '-- 6 definitions in 2 files, 21 lines'))

    def test_a_longer_definition_that_the_claim_leads_to(self):
        self.change(ROWS, 'displayed rows = kept rows', 'displayed rows =\n    kept rows')
        self.assertEqual(self.run_tool('--count', '--at-most', '21')[0], 1)

    def test_a_longer_definition_that_the_claim_does_not_lead_to(self):
        self.change(ROWS, 'unused = Break', 'unused =\n    Break')
        self.assertEqual(self.run_tool('--count', '--at-most', '21')[0], 0)

    def test_a_claim_that_is_gone(self):
        self.change(OUTPUT, 'pub IsEmitError', 'pub IsError')
        self.assertEqual(self.run_tool('--count'), (1, '', 'claim-path: no definition codespan_views/Output:IsEmitError\n'))

    def test_a_given_name_that_is_gone(self):
        self.assertEqual(self.run_tool('picture/Rows:shown'), (1, '', 'claim-path: no definition picture/Rows:shown\n'))


if __name__ == '__main__':
    unittest.main()
