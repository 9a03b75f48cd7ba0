"""The structs of codespan.h, by ctypes, and the call of its library."""
from __future__ import annotations

import ctypes as c
import os
from functools import lru_cache
from operator import index
from pathlib import Path
from typing import (TYPE_CHECKING, Iterable, NamedTuple, Sequence, SupportsIndex, Tuple, Type,
                    TypeVar, Union)

if TYPE_CHECKING:
    import codespan as api

Struct = TypeVar('Struct', bound=c.Structure)

ABI = 2
OK = 0
TOO_SMALL = 1
OUT_OF_MEMORY = 2
STATUS_TEXT_MAX = 128
SIZE_MAX = 2 ** (8 * c.sizeof(c.c_size_t)) - 1
U32_MAX = 2 ** 32 - 1


class Text(c.Structure):
    _fields_ = [('bytes', c.c_char_p), ('length', c.c_size_t)]


class Line(c.Structure):
    _fields_ = [('start', c.c_size_t), ('end', c.c_size_t), ('number', c.c_size_t)]


class Location(c.Structure):
    _fields_ = [('byte', c.c_size_t), ('line_number', c.c_size_t), ('column_number', c.c_size_t)]


class File(c.Structure):
    _fields_ = [('name', Text), ('source', Text), ('first_byte', c.c_size_t),
                ('first_line', c.c_size_t), ('lines', c.POINTER(Line)),
                ('lines_length', c.c_size_t), ('locations', c.POINTER(Location)),
                ('locations_length', c.c_size_t), ('reserved', c.c_size_t * 2)]


class Label(c.Structure):
    _fields_ = [('style', c.c_uint32), ('file', c.c_size_t), ('start', c.c_size_t),
                ('end', c.c_size_t), ('message', Text), ('reserved', c.c_size_t * 2)]


class Diagnostic(c.Structure):
    _fields_ = [('severity', c.c_uint32), ('code', Text), ('message', Text),
                ('labels', c.POINTER(Label)), ('labels_length', c.c_size_t),
                ('notes', c.POINTER(Text)), ('notes_length', c.c_size_t),
                ('reserved', c.c_size_t * 4)]


CHARACTERS = [
    'source_border_left', 'source_border_left_break', 'note_bullet', 'single_primary_caret',
    'single_secondary_caret', 'multi_primary_caret_start', 'multi_primary_caret_end',
    'multi_secondary_caret_start', 'multi_secondary_caret_end', 'multi_top_left', 'multi_top',
    'multi_bottom_left', 'multi_bottom', 'multi_left', 'pointer_left',
]


class Chars(c.Structure):
    _fields_ = [('snippet_start', Text)] + [(name, c.c_uint32) for name in CHARACTERS]


class ColorSpec(c.Structure):
    _fields_ = [('fg', c.c_uint32), ('bg', c.c_uint32), ('bold', c.c_uint32),
                ('intense', c.c_uint32)]


STYLES = [
    'header_bug', 'header_error', 'header_warning', 'header_note', 'header_help', 'header_message',
    'primary_label_bug', 'primary_label_error', 'primary_label_warning', 'primary_label_note',
    'primary_label_help', 'secondary_label', 'line_number', 'source_border', 'note_bullet',
]


class Styles(c.Structure):
    _fields_ = [(name, ColorSpec) for name in STYLES]


CHOICES = ['display_style', 'layout', 'form', 'color_mode', 'characters']
COUNTS = ['tab_width', 'start_context_lines', 'end_context_lines', 'before_label_lines',
          'after_label_lines']


class Config(c.Structure):
    _fields_ = ([('abi', c.c_uint32)] + [(name, c.c_uint32) for name in CHOICES] +
                [(name, c.c_size_t) for name in COUNTS] +
                [('chars', Chars), ('styles', Styles), ('max_width', c.c_size_t),
                 ('reserved', c.c_size_t * 7)])


class Detail(c.Structure):
    _fields_ = [('argument', c.c_uint32), ('index', c.c_size_t)]


class Position(c.Structure):
    _fields_ = [('line', c.c_uint32), ('character', c.c_uint32)]


class Edit(c.Structure):
    _fields_ = [('start', c.c_size_t), ('end', c.c_size_t), ('replacement', Text),
                ('reserved', c.c_size_t * 2)]


class Outcome(NamedTuple):
    """What a call returned. `output` is empty unless the status is OK, and `argument_index` is that
    of several arguments of one number."""
    status: int
    output: bytes
    argument: int
    argument_index: int


def load() -> c.CDLL:
    """Loads the library: what CODESPAN_LIBRARY names, the one beside this file, or the system's."""
    beside = Path(__file__).resolve().parent / 'libcodespan.so'
    fallback = str(beside) if beside.is_file() else 'libcodespan.so.%d' % ABI
    try:
        library = c.CDLL(os.environ.get('CODESPAN_LIBRARY') or fallback)
    except OSError as error:
        raise OSError('%s: CODESPAN_LIBRARY has to name libcodespan.so' % error) from None
    size = c.POINTER(c.c_size_t)
    library.codespan_abi_version.restype = c.c_uint32
    library.codespan_abi_version.argtypes = []
    library.codespan_version.restype = c.c_char_p
    library.codespan_version.argtypes = []
    library.codespan_emit.restype = c.c_uint32
    library.codespan_emit.argtypes = [c.POINTER(File), c.c_size_t, c.POINTER(Diagnostic),
                                      c.POINTER(Config), c.c_char_p, c.c_size_t, size,
                                      c.POINTER(Detail)]
    library.codespan_status_text.restype = c.c_uint32
    library.codespan_status_text.argtypes = [c.c_uint32, c.c_uint32, c.c_char_p, c.c_size_t, size]
    library.codespan_html_styles.restype = c.c_uint32
    library.codespan_html_styles.argtypes = [c.POINTER(Styles), c.c_char_p, c.c_size_t, size]
    library.codespan_position.restype = c.c_uint32
    library.codespan_position.argtypes = [c.POINTER(File), c.c_uint32, c.c_size_t,
                                          c.POINTER(Position), c.POINTER(Detail)]
    library.codespan_byte.restype = c.c_uint32
    library.codespan_byte.argtypes = [c.POINTER(File), c.c_uint32, c.POINTER(Position), size,
                                      c.POINTER(Detail)]
    library.codespan_apply_edits.restype = c.c_uint32
    library.codespan_apply_edits.argtypes = [c.c_char_p, c.c_size_t, c.POINTER(Edit), c.c_size_t,
                                             c.c_char_p, c.c_size_t, size, c.POINTER(Detail)]
    if library.codespan_abi_version() != ABI:
        raise ImportError('libcodespan.so has another ABI than this module')
    return library


LIBRARY = load()


def number(value: SupportsIndex, greatest: int = SIZE_MAX) -> int:
    """Returns a number that fits a type of C. ctypes would truncate one that does not."""
    value = index(value)
    if not 0 <= value <= greatest:
        raise ValueError('%d is not from 0 to %d' % (value, greatest))
    return value


def choice(value: SupportsIndex) -> int:
    """Returns a number of an enumeration."""
    return number(value, U32_MAX)


def data_of(text: Union[str, bytes]) -> bytes:
    """Returns a text in UTF-8."""
    return text.encode() if isinstance(text, str) else bytes(memoryview(text))


def text_of(text: Union[str, bytes]) -> Text:
    """Returns the struct of a text."""
    data = data_of(text)
    return Text(data, len(data))


def array_of(kind: Type[Struct], values: Iterable[Struct]) -> Tuple[c.Array[Struct], int]:
    """Returns an array of structs, and their number. The array is never empty, so that a pointer to
    it is not NULL."""
    values = list(values)
    return (kind * max(1, len(values)))(*values), len(values)


def line_of(line: api.Line) -> Line:
    return Line(number(line.start), number(line.end), number(line.number))


def location_of(location: api.Location) -> Location:
    return Location(number(location.byte), number(location.line_number),
                    number(location.column_number))


def file_of(file: api.File) -> File:
    return File(text_of(file.name), text_of(file.source), number(file.first_byte),
                number(file.first_line), *array_of(Line, map(line_of, file.lines)),
                *array_of(Location, map(location_of, file.locations)))


def label_of(label: api.Label) -> Label:
    return Label(choice(label.style), number(label.file), number(label.start), number(label.end),
                 text_of(label.message))


def diagnostic_of(diagnostic: api.Diagnostic) -> Diagnostic:
    if isinstance(diagnostic.notes, (str, bytes)):
        raise TypeError('notes is a text, not a list of texts')
    return Diagnostic(choice(diagnostic.severity), text_of(diagnostic.code),
                      text_of(diagnostic.message),
                      *array_of(Label, map(label_of, diagnostic.labels)),
                      *array_of(Text, map(text_of, diagnostic.notes)))


def chars_of(chars: api.Chars) -> Chars:
    return Chars(text_of(chars.snippet_start), *(ord(getattr(chars, name)) for name in CHARACTERS))


def color_spec_of(spec: api.ColorSpec) -> ColorSpec:
    return ColorSpec(choice(spec.fg), choice(spec.bg), bool(spec.bold), bool(spec.intense))


def styles_of(styles: api.Styles) -> Styles:
    return Styles(*(color_spec_of(getattr(styles, name)) for name in STYLES))


@lru_cache
def config_of(config: api.Config) -> Config:
    """Returns the struct of a configuration. Nothing changes one, so calls share it."""
    return Config(ABI, *(choice(getattr(config, name)) for name in CHOICES),
                  *(number(getattr(config, name)) for name in COUNTS), chars_of(config.chars),
                  styles_of(config.styles), number(config.max_width or 0))


def emit(files: Sequence[api.File], diagnostic: api.Diagnostic, config: api.Config) -> Outcome:
    """Calls codespan_emit, again with a larger buffer where the first one is too small."""
    file_array, files_length = array_of(File, map(file_of, files))
    arguments = (file_array, files_length, c.byref(diagnostic_of(diagnostic)),
                 c.byref(config_of(config)))
    capacity = 4096
    while True:
        out = c.create_string_buffer(capacity)
        written, detail = c.c_size_t(), Detail()
        status = LIBRARY.codespan_emit(*arguments, out, capacity, c.byref(written),
                                       c.byref(detail))
        if status != TOO_SMALL:
            output = c.string_at(out, written.value)
            return Outcome(status, output, detail.argument, detail.index)
        capacity = written.value


def html_styles(styles: api.Styles) -> Tuple[int, bytes]:
    """Calls codespan_html_styles, as `emit` calls codespan_emit. Returns the status and the style
    sheet."""
    capacity = 4096
    while True:
        out, written = c.create_string_buffer(capacity), c.c_size_t()
        status = LIBRARY.codespan_html_styles(c.byref(styles_of(styles)), out, capacity,
                                              c.byref(written))
        if status != TOO_SMALL:
            return status, c.string_at(out, written.value)
        capacity = written.value


def status_text(status: int, argument: int) -> str:
    """Returns what codespan_status_text writes."""
    out = c.create_string_buffer(STATUS_TEXT_MAX)
    written = c.c_size_t()
    LIBRARY.codespan_status_text(status, argument, out, STATUS_TEXT_MAX, c.byref(written))
    return c.string_at(out, written.value).decode('ascii')
