"""Tests of tools/gate, with an `rt` that prints what the test says."""
import os
import stat
import subprocess
import unittest

from tree import TreeCase

RT = '''\
#!/bin/sh
[ "$*" = ci ] || exit 9
cat "$(dirname "$0")/output"
exit "$(cat "$(dirname "$0")/status")"
'''
REFUSED = 'rt: must-fail one/sum-is-zero.edit: refused, as it must be: src/lib.rt:9:5: error\n'
LIMIT = 'rt: must-fail one/sum-is-zero.edit: refused, as it must be (only by a limit of the prover, which gave no verdict)\n'
BAD = 'rt: must-fail one/sum-is-one.edit: BAD EDIT: src/lib.rt does not have the text once\n'
LITTLE = 'rt: must-fail one/no-sum.edit: refused, as it must be (only because a proof file names what the edit took away)\n'
LAST = '3 passed, 0 failed\n'


class Gate(TreeCase):
    TOOLS = ('gate',)
    FILES = {'bin/rt': RT}

    def gate(self, output, status=0):
        """Runs the tool where `rt ci` prints this output and has this status, and returns its status, its output and its errors."""
        self.put('bin/output', output)
        self.put('bin/status', f'{status}\n')
        rt = self.top / 'bin/rt'
        rt.chmod(rt.stat().st_mode | stat.S_IXUSR)
        path = f'{self.top / "bin"}:{os.environ["PATH"]}'
        ran = subprocess.run([self.top / 'tools/gate'], env={**os.environ, 'PATH': path}, capture_output=True, text=True)
        return ran.returncode, ran.stdout, ran.stderr

    def test_sound(self):
        self.assertEqual(self.gate(REFUSED + LIMIT + LAST), (0, REFUSED + LIMIT + LAST, ''))

    def test_rt_fails(self):
        self.assertEqual(self.gate('2 passed, 1 failed\n', 1), (1, '2 passed, 1 failed\n', ''))

    def test_bad_edit(self):
        self.assertEqual(self.gate(REFUSED + BAD + LAST), (1, REFUSED + BAD + LAST, 'gate: 1 must-fail edits say nothing of a contract\n'))

    def test_names_that_are_gone(self):
        self.assertEqual(self.gate(LITTLE + BAD + LAST)[2], 'gate: 2 must-fail edits say nothing of a contract\n')


if __name__ == '__main__':
    unittest.main()
