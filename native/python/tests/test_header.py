"""The structs and the constants of the module beside those of the headers for C."""
import ctypes
import re
import subprocess
import unittest
from enum import IntEnum
from pathlib import Path

import codespan
from codespan import _native

INCLUDE = Path(__file__).resolve().parents[2] / 'include'
HEADERS = ['codespan.h', 'codespan_editor.h']

STRUCTS = {
    'text': _native.Text, 'line': _native.Line, 'location': _native.Location, 'file': _native.File,
    'label': _native.Label, 'diagnostic': _native.Diagnostic, 'chars': _native.Chars,
    'color_spec': _native.ColorSpec, 'styles': _native.Styles, 'config': _native.Config,
    'detail': _native.Detail, 'editor_position': _native.Position, 'edit': _native.Edit,
}

# the name of a constant of an enumeration in the header, after CODESPAN_
ENUMERATIONS = {
    codespan.Severity: '%s', codespan.LabelStyle: '%s', codespan.DisplayStyle: '%s',
    codespan.Layout: '%s', codespan.Characters: '%s_CHARS', codespan.Form: '%s',
    codespan.ColorMode: '%s',
    codespan.Color: '%s', codespan.Argument: 'ARGUMENT_%s', codespan.Encoding: '%s',
}


def struct_assertions(name, struct):
    """Yields assertions in C that a struct is laid out as the header's."""
    yield 'sizeof(codespan_%s) == %d' % (name, ctypes.sizeof(struct))
    for field, _ in struct._fields_:
        yield 'offsetof(codespan_%s, %s) == %d' % (name, field, getattr(struct, field).offset)


def enumeration_assertions(enumeration: type[IntEnum], form):
    """Yields assertions in C that constants are the header's."""
    for item in enumeration:
        special = {'Color.NONE': 'NO_COLOR', 'ColorMode.OFF': 'COLORS_OFF'}
        key = '%s.%s' % (enumeration.__name__, item.name)
        name = special.get(key, form % item.name)
        yield 'CODESPAN_%s == %d' % (name, item)


class Header(unittest.TestCase):

    def test_header(self):
        """A C compiler finds each struct and each constant of the module in the headers."""
        conditions = ['CODESPAN_ABI == %d' % _native.ABI, 'CODESPAN_OK == %d' % _native.OK,
                      'CODESPAN_TOO_SMALL == %d' % _native.TOO_SMALL,
                      'CODESPAN_OUT_OF_MEMORY == %d' % _native.OUT_OF_MEMORY,
                      'CODESPAN_STATUS_TEXT_MAX == %d' % _native.STATUS_TEXT_MAX]
        for name, struct in STRUCTS.items():
            conditions += struct_assertions(name, struct)
        for enumeration, form in ENUMERATIONS.items():
            conditions += enumeration_assertions(enumeration, form)
        program = '#include <codespan_editor.h>\n'
        program += ''.join('_Static_assert(%s, "");\n' % condition for condition in conditions)
        subprocess.run(['cc', '-std=c11', '-I', INCLUDE, '-fsyntax-only', '-x', 'c', '-'],
                       input=program, text=True, check=True)

    def test_no_struct_is_left_out(self):
        text = ''.join(Path(INCLUDE, name).read_text() for name in HEADERS)
        declared = re.findall(r'^} codespan_(\w+);', text, re.MULTILINE)
        self.assertEqual(sorted(declared), sorted(STRUCTS))


if __name__ == '__main__':
    unittest.main()
