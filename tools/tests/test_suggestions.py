"""Tests of tools/edits, the model of suggestions: worked rows, and what it finds wrong in what tools read."""
import sys
import unittest

import tree

sys.path.insert(0, str(tree.REPOSITORY / 'tools/edits'))
import for_tools  # noqa: E402
import suggestions  # noqa: E402
from suggestions import Case  # noqa: E402

RENAMED = Case([('a.h', b'void a();\n'), ('same.h', b'a\n'), ('a.c', b'#include "a.h"\n\nvoid a() {}\n')],
               [(2, 21, 22, b'b'), (1, 0, 1, b'a'), (0, 5, 6, b'b')], 'rename', 0, 4, 0, 0, False)
RENAMED_OUTPUT = '''\
help: rename
    ┌─ a.c:3:6
    │
3   │ - void a() {}
  3 │ + void b() {}
    │
    ┌─ a.h:1:6
    │
1   │ - void a();
  1 │ + void b();

'''
RENAMED_DIFF = b'''\
--- a/a.c
+++ b/a.c
@@ -1,3 +1,3 @@
 #include "a.h"
 
-void a() {}
+void b() {}
--- a/a.h
+++ b/a.h
@@ -1,1 +1,1 @@
-void a();
+void b();
'''
RENAMED_FIX_ITS = '''\
fix-it:"a.c":{3:6-3:7}:"b"
fix-it:"same.h":{1:1-1:2}:"a"
fix-it:"a.h":{1:6-1:7}:"b"
'''
FAR_APART = RENAMED._replace(files=[('a.rs', b'1\n2\n3\n4\n5\n6\n7\n8\n9\n')], edits=[(0, 2, 2, b'new\nnew\n'), (0, 14, 15, b'eight')], before=1, after=1)
FAR_APART_OUTPUT = '''\
help: rename
      ┌─ a.rs:2:1
      │
 1  1 │   1
    2 │ + new
    3 │ + new
 2  4 │   2
      ·
 7  9 │   7
 8    │ - 8
   10 │ + eight
 9 11 │   9

'''
ENDS = RENAMED._replace(files=[('a.rs', b'a\r\n\tb\nc')], edits=[(0, 3, 5, 'é \n'.encode()), (0, 6, 7, b'C')], ascii=True)
ENDS_OUTPUT = '''\
help: rename
    --> a.rs:2:1
    |
2   | -     b
    | \\ ends with \\n
  2 | + é_
    | \\ ends with \\n
  3 | +_
    | \\ ends with \\n
3   | - c
    | \\ no newline at end of file
  4 | + C
    | \\ no newline at end of file

'''.replace('_', ' ')


class Suggestions(unittest.TestCase):
    def test_outputs(self):
        for case, output in ((RENAMED, RENAMED_OUTPUT), (FAR_APART, FAR_APART_OUTPUT), (ENDS, ENDS_OUTPUT)):
            self.assertEqual(suggestions.rich(case, suggestions.files_of(case)), output)

    def test_short_output(self):
        self.assertEqual(suggestions.short(RENAMED, suggestions.files_of(RENAMED)), 'a.c:3:6: help: rename\na.h:1:6: help: rename\n')

    def test_nothing_changes(self):
        case = RENAMED._replace(edits=[(1, 0, 1, b'a')])
        files = suggestions.files_of(case)
        self.assertEqual((suggestions.rich(case, files), suggestions.short(case, files)), ('help: rename\n\n', 'help: rename\n'))
        self.assertEqual(for_tools.unified(files), b'')

    def test_texts_for_tools(self):
        files = suggestions.files_of(RENAMED)
        self.assertEqual(for_tools.unified(files), RENAMED_DIFF)
        self.assertEqual(for_tools.fix_its(files), RENAMED_FIX_ITS)

    def test_code_action(self):
        case = RENAMED._replace(files=[('a.rs', '𐐀(y)\n'.encode())], edits=[(0, 5, 6, b'&y')])
        for encoding, columns in (('utf8', '0:5 0:6'), ('utf16', '0:3 0:4'), ('utf32', '0:2 0:3')):
            self.assertEqual(for_tools.action(case, suggestions.files_of(case), encoding), 'rename\nquickfix true\n0 %s 2\n&y' % columns)

    def test_faults(self):
        for edits, error in (([(0, 2, 1, b'')], 'edit 0 ends before it starts'), ([(0, 0, 1, b'x'), (9, 0, 0, b'')], 'file missing'),
                             ([(1, 0, 1, b''), (0, 2, 5, b'x'), (0, 0, 3, b'y')], 'edit 1 overlaps edit 2')):
            self.assertEqual(suggestions.files_of(RENAMED._replace(edits=edits)), error)

    def test_a_diff_that_is_no_patch(self):
        files = suggestions.files_of(RENAMED)
        for wrong in (RENAMED_DIFF.replace(b'+void b();', b'+void c();'), RENAMED_DIFF.replace(b'@@ -1,3', b'@@ -2,3'), b''):
            with self.assertRaises(AssertionError):
                for_tools.check_unified(files, wrong)

    def test_fix_its_that_are_other_edits(self):
        files = suggestions.files_of(RENAMED)
        for wrong in (RENAMED_FIX_ITS.replace('{3:6-3:7}', '{3:6-3:8}'), RENAMED_FIX_ITS.replace('same.h', 'other.h'), ''):
            with self.assertRaises(AssertionError):
                for_tools.check_fix_its(files, wrong)


if __name__ == '__main__':
    unittest.main()
