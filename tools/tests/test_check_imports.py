"""Tests of tools/check-imports."""
import unittest

from tree import TreeCase

CODE = 'crates/user/src/lib.rt'
PROOF = 'crates/user/proofs/sums/Answers.antt'
EDIT = 'crates/user/must-fail/sum-is-zero.edit'


class CheckImports(TreeCase):
    TOOLS = ('check-imports',)
    FILES = {
        'crates.txt': '''\
# libraries
base:
facade: base
user: base facade
apart:
''',
        'crates/base/specs/Sums.antt': 'pub sum : ℕ → ℕ\nsum n = n\n\npub total-of : ℕ → ℕ\ntotal-of n = n\n',
        'crates/base/proofs/Lemmas/Sums.antt': 'pub sum-is-it : ℕ\n',
        'crates/facade/specs/Lib.antt': 'pub use Rattle.base.specs.Sums\n',
        'crates/user/specs/Lib.antt': '-- all of their names\nunfoldable pub use Rattle.user.specs.Words.*\n',
        'crates/user/specs/Words.antt': 'pub word : ℕ\n',
        'crates/apart/specs/Names.antt': 'pub name : ℕ\n',
        CODE: '''\
//! What `apart::name` is, as Rattle.apart.specs has it, is not used.
ghost use Rattle.base.specs.Sums.{sum, total-of as total};
ghost use Rattle.facade.specs.Sums.{sum};
ghost use Rattle.base.specs.MadeByTheKit.{anything};
use base::sums::{sum};

fn twice(n: usize) -> usize
    ensures { result ≡ sum n }
{
    facade::sums::sum(n)
}
''',
        PROOF: '-- as in Rattle.apart.specs\nuse Rattle.base.proofs.Lemmas.Sums.{sum-is-it}\nuse Rattle.user.specs.{word}\n',
        EDIT: '''\
-- the sum is 0
file: src/lib.rt
old: facade::sums::sum(n)
new: facade::sums::sum(0)
''',
    }

    def test_sound(self):
        self.assert_passes()

    def test_name_of_specs(self):
        self.change(CODE, 'total-of as total', 'total as total')
        self.assert_finds(f'{CODE}: base.specs.Sums has no total')

    def test_name_of_proofs(self):
        self.change(PROOF, '{sum-is-it}', '{sum-is-it, sum-is-zero}')
        self.assert_finds(f'{PROOF}: base.proofs.Lemmas.Sums has no sum-is-zero')

    def test_name_that_is_passed_on(self):
        self.change(PROOF, '{word}', '{words}')
        self.assert_finds(f'{PROOF}: user.specs has no words')

    def test_name_of_a_re_exported_module(self):
        self.change(CODE, 'facade.specs.Sums.{sum}', 'facade.specs.Sums.{sums}')
        self.assert_finds(f'{CODE}: facade.specs.Sums has no sums')

    def test_crate_of_code(self):
        self.change(CODE, 'use base::', 'use apart::')
        self.assert_finds(f'{CODE}: crates.txt does not list apart here')

    def test_crate_of_a_clause(self):
        self.change(CODE, 'Rattle.base.specs.MadeByTheKit.{anything}', 'Rattle.apart.specs.Names.{name}')
        self.assert_finds(f'{CODE}: crates.txt does not list apart here')

    def test_crate_of_a_proof(self):
        self.change(PROOF, 'use Rattle.user.specs.{word}', 'use Rattle.apart.specs.Names.{name}')
        self.assert_finds(f'{PROOF}: crates.txt does not list apart here')

    def test_crate_of_an_edit(self):
        self.change(EDIT, 'new: facade::', 'new: apart::')
        self.assert_finds(f'{EDIT}: crates.txt does not list apart here')

    def test_mutant(self):
        self.put('crates/user/mutants/sum-is-one.edit', 'file: src/lib.rt\nold: facade::sum(n)\nnew: 1\n')
        self.assert_finds('crates/user/mutants/sum-is-one.edit: an old: text is 0 times in lib.rt')

    def test_crate_without_a_line(self):
        self.change('crates.txt', 'apart:\n', '')
        self.assert_finds('crates.txt: apart is not listed')

    def test_old_text_that_is_gone(self):
        self.change(CODE, 'facade::sums::sum(n)', 'facade::sums::sum(n + 0)')
        self.assert_finds(f'{EDIT}: an old: text is 0 times in lib.rt')

    def test_old_text_that_is_there_twice(self):
        self.change(CODE, '    facade::sums::sum(n)', '    facade::sums::sum(n);\n    facade::sums::sum(n)')
        self.assert_finds(f'{EDIT}: an old: text is 2 times in lib.rt')

    def test_second_text_of_an_edit(self):
        self.put(EDIT, self.text(EDIT) + 'old: facade::sums::sum(n)\nnew: n\n')
        self.assert_finds(f'{EDIT}: an old: text is 0 times in lib.rt')

    def test_edit_of_a_file_that_is_gone(self):
        self.change(EDIT, 'src/lib.rt', 'src/sums.rt')
        self.assert_finds(f'{EDIT}: an old: text is 0 times in sums.rt')

    def test_edit_that_replaces_nothing(self):
        self.change(EDIT, 'new: facade::sums::sum(0)\n', '')
        self.assert_finds(f'{EDIT}: no text is replaced: a file:, an old: and a new: line do that')


if __name__ == '__main__':
    unittest.main()
