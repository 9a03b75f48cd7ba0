"""Tests of tools/vendor: what it copies, and what an update changes."""
import hashlib
import unittest

from vendoring import BEGIN, END, HOME, LINES, LSP_LINES, RECORD, STYLED_LINES, VendorCase, commit_all, git

CORE = 'crates/codespan_core/src/lib.rt'


class Copies(VendorCase):
    def test_files(self):
        self.vendor(self.dest, says='3 libraries: 10 files written, 0 removed, 0 unchanged')
        wanted = {path: text for path, text in self.FILES.items()
                  if path.startswith(('crates/codespan_core/src/', 'crates/codespan_base/', f'{HOME}/'))}
        record = self.there().pop(RECORD)
        self.assertEqual(self.there(), {
            **wanted,
            RECORD: record,
            f'{HOME}/LICENSE': 'a license\n',
            f'{HOME}/NOTICE': 'a notice\n',
            'crates.txt': f'{BEGIN}{LINES}{END}',
        })

    def test_record(self):
        self.vendor(self.dest)
        files = self.there()
        _, commit, kit, *sums = files.pop(RECORD).splitlines()
        del files['crates.txt']
        self.assertEqual((commit, kit), (f'# commit {git(self.top, "rev-parse", "HEAD").strip()}', '# kit a kit'))
        self.assertEqual(sums, [f'{hashlib.sha256(text.encode()).hexdigest()}  {path}' for path, text in sorted(files.items())])

    def test_record_of_changes_that_are_not_committed(self):
        self.put(CORE, '// changed\n')
        self.vendor(self.dest)
        self.assertEqual(self.there()[CORE], '// changed\n')
        self.assertIn(', with changes that are not committed\n', self.there()[RECORD])

    def test_removal_that_is_not_committed(self):
        (self.top / 'crates/codespan_core/src/sums/more.rt').unlink()
        self.vendor(self.dest, says='9 files written')
        self.assertIn(', with changes that are not committed\n', self.there()[RECORD])

    def test_files_that_git_does_not_track(self):
        self.put('crates/codespan_core/src/scratch.rt', '// scratch\n')
        self.vendor(self.dest)
        self.assertNotIn('crates/codespan_core/src/scratch.rt', self.there())

    def test_further_libraries(self):
        self.vendor(self.dest, 'codespan_lsp', 'codespan_styled', says='6 libraries')
        self.assertEqual(self.there()['crates.txt'], f'{BEGIN}{LINES}{STYLED_LINES}{LSP_LINES}{END}')
        self.assertIn('crates/codespan_forms/src/lib.rt', self.there())

    def test_lines_before(self):
        self.put_there('crates.txt', '# mine\nfirst:\n')
        self.put_there('crates/first/src/main.rt', '// first\n')
        self.vendor(self.dest)
        self.assertEqual(self.there()['crates.txt'], f'# mine\nfirst:\n{BEGIN}{LINES}{END}')
        self.assertEqual(self.there()['crates/first/src/main.rt'], '// first\n')

    def test_links(self):
        self.put(f'{HOME}/README.md', '''\
[USING](../../docs/USING.md#steps), [the
steps](../../docs/USING.md), [calls](CALLING.md), [base](../codespan_base), [styled](../codespan_styled/src),
[here](#here), [a site](https://none.example), `[USING](../../docs/USING.md)`
```text
` [USING](../../docs/USING.md)
```
''')
        self.vendor(self.dest)
        self.assertEqual(self.there()[f'{HOME}/README.md'], '''\
`docs/USING.md`, the
steps (`docs/USING.md`), [calls](CALLING.md), [base](../codespan_base), styled (`crates/codespan_styled/src`),
[here](#here), [a site](https://none.example), `[USING](../../docs/USING.md)`
```text
` [USING](../../docs/USING.md)
```
''')
        self.vendor('--check', self.dest, says='has the libraries of this repository, 10 files')


class Updates(VendorCase):
    def assert_is_fresh_copy(self, *names):
        """Asserts that DEST has what a copy with these further libraries has in an empty repository."""
        self.assertEqual(self.there(), self.fresh_copy(*names))
        self.vendor('--check', self.dest)

    def test_nothing_has_changed(self):
        self.vendor(self.dest)
        self.vendor(self.dest, says='0 files written, 0 removed, 10 unchanged')
        self.assert_is_fresh_copy()

    def test_further_library_stays(self):
        self.vendor(self.dest, 'codespan_styled')
        self.vendor(self.dest, says='5 libraries: 0 files written, 0 removed')
        self.assert_is_fresh_copy('codespan_styled')

    def test_further_library_is_added(self):
        self.vendor(self.dest, 'codespan_styled')
        self.vendor(self.dest, 'codespan_lsp', says='6 libraries: 1 files written, 0 removed')
        self.assert_is_fresh_copy('codespan_styled', 'codespan_lsp')

    def test_further_library_is_dropped(self):
        self.vendor(self.dest, 'codespan_styled', 'codespan_lsp')
        self.vendor('--drop', 'codespan_styled', self.dest, says='4 libraries: 0 files written, 2 removed')
        self.assert_is_fresh_copy('codespan_lsp')

    def test_all_kinds_of_changes(self):
        self.vendor(self.dest, 'codespan_styled')
        self.change('crates.txt', 'codespan_base codespan_forms', 'codespan_base codespan_inks')
        self.change('crates.txt', 'codespan_forms: codespan_core', 'codespan_inks:')
        git(self.top, 'mv', 'crates/codespan_forms', 'crates/codespan_inks')
        git(self.top, 'rm', '-q', 'crates/codespan_core/src/sums/more.rt')
        self.put(CORE, '// changed\n')
        self.put('crates/codespan_base/src/added.rt', '// added\n')
        self.put('LICENSE', 'another license\n')
        commit_all(self.top)
        self.assert_differs(
            'crates/codespan_base/src/added.rt: missing there',
            f'{CORE}: different',
            'crates/codespan_core/src/sums/more.rt: only there',
            'crates/codespan_forms/src/lib.rt: only there',
            'crates/codespan_inks/src/lib.rt: missing there',
            f'{HOME}/LICENSE: different',
            'crates.txt: the lines of the libraries',
        )
        self.vendor(self.dest, says='5 libraries: 4 files written, 2 removed, 8 unchanged')
        self.assert_is_fresh_copy('codespan_styled')
        for folder in ('crates/codespan_core/src/sums', 'crates/codespan_forms'):
            self.assertFalse((self.dest / folder).exists(), folder)

    def test_what_rt_makes(self):
        self.vendor(self.dest, 'codespan_styled')
        self.put_there('crates/codespan_core/out/kept', '')
        (self.dest / 'crates/codespan_core/out/empty').mkdir()
        self.put_there('crates/codespan_styled/out/gone', '')
        self.vendor('--check', self.dest)
        self.vendor('--drop', 'codespan_styled', self.dest)
        self.assertIn('crates/codespan_core/out/kept', self.there())
        self.assertTrue((self.dest / 'crates/codespan_core/out/empty').exists())
        self.assertFalse((self.dest / 'crates/codespan_styled').exists())

    def test_lines_around(self):
        self.vendor(self.dest, 'codespan_lsp')
        self.put_there('crates.txt', f'# before\n{self.there()["crates.txt"]}# after\nfirst: codespan_base\n')
        self.vendor('--drop', 'codespan_lsp', self.dest)
        self.assertEqual(self.there()['crates.txt'], f'# before\n{BEGIN}{LINES}{END}# after\nfirst: codespan_base\n')

    def test_lines_that_were_changed(self):
        self.vendor(self.dest)
        self.put_there('crates.txt', self.there()['crates.txt'].replace('codespan_core:\n', ''))
        self.assert_differs('crates.txt: the lines of the libraries')
        self.vendor(self.dest)
        self.assert_is_fresh_copy()


if __name__ == '__main__':
    unittest.main()
