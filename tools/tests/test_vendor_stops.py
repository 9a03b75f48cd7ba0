"""Tests of tools/vendor: where it stops, and that it has changed nothing then."""
import pathlib
import shutil
import unittest
from unittest import mock

from vendoring import BEGIN, END, LINES, RECORD, VendorCase, commit_all, git

BASE = 'crates/codespan_base/src/lib.rt'


class Arguments(VendorCase):
    def test_usage(self):
        for arguments in ((), ('--check', '--force', self.dest), ('--checks', self.dest), (self.dest, '--drop')):
            self.assert_stops(*arguments, says='usage: tools/vendor')

    def test_unknown_name(self):
        self.assert_stops(self.dest, 'codespan_lsp', 'codespan_html', says='vendor: codespan_html: no further library; these are codespan_styled, codespan_lsp, ')
        self.assert_stops('--drop', 'codespan_base', self.dest, says='vendor: codespan_base: no further library')


class Destinations(VendorCase):
    def test_no_folder(self):
        self.assert_stops(self.dest / 'gone', says='gone is no folder')

    def test_this_repository(self):
        self.assert_stops(self.top, says='is this repository')

    def test_no_repository(self):
        (self.dest / '.git').rmdir()
        self.assert_stops(self.dest, says='is no repository')

    def test_not_the_top(self):
        (self.dest / 'crates').mkdir()
        self.assert_stops(self.dest / 'crates', says=f'crates is not the top of its repository: that is {self.dest}')

    def test_build_files(self):
        self.put_there('MODULE.bazel', '')
        self.assert_stops(self.dest, says='has a MODULE.bazel')

    def test_crates_beside_their_list(self):
        self.put_there('crates.txt', 'first:\n')
        self.assert_stops(self.dest, says='move them to crates/ first')


class OthersCrates(VendorCase):
    def assert_stops_also_by_force(self, *arguments, says):
        for options in ((), ('--force',)):
            self.assert_stops(*options, *arguments, says=says)

    def test_folder_at_the_first_copy(self):
        self.put_there(BASE, '// mine\n')
        self.assert_stops_also_by_force(self.dest, says='crates/codespan_base, which crates/codespan_reporting/VENDORED does not record')

    def test_folder_of_a_further_library(self):
        self.vendor(self.dest)
        self.put_there('crates/codespan_lsp/src/lib.rt', '// mine\n')
        self.vendor(self.dest)
        self.assert_stops_also_by_force(self.dest, 'codespan_lsp', says='crates/codespan_lsp, which')

    def test_folder_of_a_new_library(self):
        self.vendor(self.dest)
        self.change('crates.txt', 'codespan_base: codespan_core', 'codespan_base: codespan_core codespan_forms')
        self.put_there('crates/codespan_forms/src/lib.rt', '// mine\n')
        self.assert_stops_also_by_force(self.dest, says='crates/codespan_forms, which')

    def test_folder_that_only_rt_wrote(self):
        self.put_there('crates/codespan_base/out/kept', '')
        self.vendor(self.dest)

    def test_folder_that_is_a_link(self):
        self.vendor(self.dest)
        shutil.rmtree(self.dest / 'crates/codespan_core')
        (self.dest / 'crates/codespan_core').symlink_to(self.top / 'crates/codespan_core')
        self.assert_stops_also_by_force(self.dest, says='crates/codespan_core is a symbolic link')

    def test_line_of_a_library(self):
        (self.dest / 'crates').mkdir()
        self.put_there('crates.txt', 'codespan_base:\n')
        self.assert_stops_also_by_force(self.dest, says='crates.txt lists codespan_base already, outside the lines of this script')

    def test_user_of_a_library_that_is_dropped(self):
        self.vendor(self.dest, 'codespan_styled')
        self.put_there('crates.txt', self.there()['crates.txt'] + 'first: codespan_base codespan_forms # and no other\n')
        self.assert_stops_also_by_force('--drop', 'codespan_styled', self.dest,
                                        says='crates.txt: first uses codespan_forms, which this run would remove: change these lines first')
        self.vendor(self.dest)

    def test_user_of_a_library_that_is_gone_here(self):
        self.vendor(self.dest, 'codespan_lsp')
        self.put_there('crates.txt', 'first: codespan_lsp\nsecond: codespan_base codespan_lsp\n' + self.there()['crates.txt'])
        self.change('crates.txt', 'codespan_lsp: codespan_base\n', '')
        self.assert_stops_also_by_force(self.dest, says='first uses codespan_lsp, second uses codespan_lsp, which this run would remove')


class Changes(VendorCase):
    def setUp(self):
        super().setUp()
        self.vendor(self.dest)
        self.copy = self.there()

    def assert_is_change(self, path, difference):
        """Asserts that a run stops over this file, that --check lists it, and that --force drops the change."""
        self.assert_stops(self.dest, says=f'--force drops the changes:\n  {path}\n')
        self.assert_differs(f'{path}: {difference}')
        self.vendor('--force', self.dest)
        self.assertEqual(self.there(), self.copy)

    def test_changed_file(self):
        self.put_there(BASE, '// changed\n')
        self.assert_is_change(BASE, 'different')

    def test_removed_file(self):
        (self.dest / BASE).unlink()
        self.assert_is_change(BASE, 'missing there')

    def test_added_file(self):
        self.put_there('crates/codespan_base/src/folder/added.rt', '')
        self.assert_is_change('crates/codespan_base/src/folder/added.rt', 'only there')
        self.assertFalse((self.dest / 'crates/codespan_base/src/folder').exists())

    def test_change_to_what_is_written(self):
        self.put(BASE, '// changed\n')
        self.put_there(BASE, '// changed\n')
        self.vendor(self.dest, says='0 files written')

    def test_comments_of_crates_txt(self):
        for text in (f'{BEGIN}{LINES}', f'{LINES}{END}', f'{END}{LINES}{BEGIN}', f'{BEGIN}{LINES}{END}{END}'):
            self.put_there('crates.txt', text)
            self.assert_stops('--force', self.dest, says='the two comments of this script do not stand there once each')

    def test_damaged_record(self):
        for path in ('/etc/passwd', 'crates.txt', 'crates/first/../../secret'):
            self.put_there(RECORD, f'{self.copy[RECORD]}{"0" * 64}  {path}\n')
            self.assert_stops('--force', self.dest, says='VENDORED is damaged')


class Failures(VendorCase):
    def setUp(self):
        """Makes a copy of which one file has changed here, and another one is gone."""
        super().setUp()
        self.vendor(self.dest, 'codespan_styled')
        self.put(BASE, '// changed\n')
        git(self.top, 'rm', '-q', 'crates/codespan_core/src/sums/more.rt')
        commit_all(self.top)

    def assert_can_be_repaired(self, *names):
        """Asserts that the next run with --force completes the copy."""
        self.vendor('--force', self.dest, *names)
        self.assertEqual(self.there(), self.fresh_copy('codespan_styled'))

    def assert_cannot_write(self, path, *arguments):
        """Runs `tools/vendor` with these arguments over a folder where this file has to be, and asserts that it says so."""
        (self.dest / path).mkdir(parents=True)
        status, _, errors = self.run_tool(*arguments)
        self.assertEqual(status, 1)
        self.assertIn(f'{path}\': the run did not end; repeat it with --force', errors)
        (self.dest / path).rmdir()

    def test_no_rt(self):
        (self.bin / 'rt').rename(self.bin / 'gone')
        for arguments in ((self.dest,), ('--force', self.dest), (self.dest, 'codespan_lsp'), ('--drop', 'codespan_styled', self.dest)):
            self.assert_stops(*arguments, says='vendor: `rt version` failed')
        (self.bin / 'gone').rename(self.bin / 'rt')
        self.vendor(self.dest)
        self.assertEqual(self.there(), self.fresh_copy('codespan_styled'))

    def test_rt_that_fails(self):
        (self.bin / 'rt').write_text('#!/bin/sh\necho no kit >&2\nexit 1\n', encoding='utf-8')
        self.assert_stops(self.dest, says='vendor: `rt version` failed: no kit')

    def test_file_that_cannot_be_written(self):
        (self.dest / BASE).unlink()
        self.assert_cannot_write(BASE, '--force', self.dest)
        self.assertIn('crates/codespan_core/src/sums/more.rt', self.there())
        self.assert_can_be_repaired()

    def test_file_that_a_first_copy_cannot_write(self):
        shutil.rmtree(self.dest / 'crates')
        (self.dest / 'crates.txt').unlink()
        self.assert_cannot_write('crates/codespan_core/src/lib.rt', self.dest, 'codespan_styled')
        self.assertIn(BASE, self.there())
        self.assert_can_be_repaired('codespan_styled')

    def test_file_that_cannot_be_removed(self):
        with mock.patch.object(pathlib.Path, 'unlink', side_effect=OSError('no removal')):
            status, _, errors = self.run_tool('--drop', 'codespan_styled', self.dest)
        self.assertEqual((status, errors), (1, 'vendor: no removal: the run did not end; repeat it with --force\n'))
        self.vendor('--force', '--drop', 'codespan_styled', self.dest)
        self.assertEqual(self.there(), self.fresh_copy())

    def test_copy_that_did_not_end(self):
        copy = self.there()
        for path in list(copy)[::2]:
            if path != RECORD:
                (self.dest / path).unlink()
        self.assert_can_be_repaired()


if __name__ == '__main__':
    unittest.main()
