"""A small repository in a temporary folder, over which the tests of a tool run it."""
import contextlib
import io
import pathlib
import runpy
import shutil
import sys
import tempfile
import unittest
from unittest import mock

REPOSITORY = pathlib.Path(__file__).resolve().parent.parent.parent
# a tool in a small tree uses the modules of this repository
sys.path.insert(0, str(REPOSITORY / 'tools'))


def write_tree(top, tools, files):
    """Writes a tree of these tools and of the files with these texts."""
    for name in tools:
        (top / 'tools').mkdir(exist_ok=True)
        shutil.copy(REPOSITORY / 'tools' / name, top / 'tools' / name)
    for path, text in files.items():
        (top / path).parent.mkdir(parents=True, exist_ok=True)
        (top / path).write_text(text, encoding='utf-8')


def run_script(path, *arguments):
    """Runs a Python script in this process, and returns its status, its output and its errors."""
    output, errors, status = io.StringIO(), io.StringIO(), None
    with contextlib.redirect_stdout(output), contextlib.redirect_stderr(errors), mock.patch.object(sys, 'argv', [str(path), *map(str, arguments)]):
        try:
            runpy.run_path(str(path), run_name='__main__')
        except SystemExit as end:
            status = end.code
    if isinstance(status, str):
        return 1, output.getvalue(), f'{errors.getvalue()}{status}\n'
    return status or 0, output.getvalue(), errors.getvalue()


class TreeCase(unittest.TestCase):
    """Tests of a tool: FILES are the texts of the sound tree, by path, and TOOLS the tools in it, of which the first is run.

    A tool works on the repository that it is in, so a copy of it works on the tree.
    """
    TOOLS = ()
    FILES = {}

    def setUp(self):
        folder = tempfile.TemporaryDirectory(prefix='tools-tests-')
        self.addCleanup(folder.cleanup)
        self.top = pathlib.Path(folder.name).resolve()
        self.make_tree()

    def make_tree(self):
        """Makes the sound tree."""
        write_tree(self.top, self.TOOLS, self.FILES)

    def put(self, path, text):
        """Writes a file of the tree, and makes its folder."""
        write_tree(self.top, (), {path: text})

    def text(self, path):
        """The text of a file of the tree."""
        return (self.top / path).read_text(encoding='utf-8')

    def change(self, path, old, new):
        """Replaces a text that is in a file of the tree exactly once."""
        text = self.text(path)
        self.assertEqual(text.count(old), 1, f'{old!r} in {path}')
        self.put(path, text.replace(old, new))

    def run_tool(self, *arguments):
        """Runs the tool, and returns its status, its output and its errors."""
        return run_script(self.top / 'tools' / self.TOOLS[0], *arguments)

    def assert_passes(self):
        """Asserts that the tool finds nothing."""
        self.assertEqual(self.run_tool(), (0, '', ''))

    def assert_finds(self, *findings):
        """Asserts that the tool prints these lines alone, and ends with 1."""
        status, output, _ = self.run_tool()
        self.assertEqual((status, output.splitlines()), (1, list(findings)))
