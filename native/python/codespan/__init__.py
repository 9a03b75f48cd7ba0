"""Compiler-style diagnostics, rendered by a library whose output is proved.

    import codespan

    source = "retries = many\\n"
    label = codespan.Label(10, 14, "expected a number")
    diagnostic = codespan.Diagnostic("invalid value for `retries`", code="E0001", labels=[label])
    codespan.print([codespan.File("settings.conf", source)], diagnostic)

`print` writes safe text to a stream, in colors where it is a terminal; `emit` returns a text in
each form.

Texts are `str`, or `bytes` in UTF-8. Indices of sources count **bytes of UTF-8**, from 0, and ends
are exclusive: `Label.of_characters` takes characters. Numbers are from 0 to 2**64 - 1.
`File.read` reads a file, also one that is not UTF-8. `position` and `byte` convert between bytes
and the positions of an editor, and `apply_edits` edits a text.
"""
from __future__ import annotations

import os
import sys
from dataclasses import dataclass, field, replace
from enum import IntEnum
from typing import Optional, Sequence, TextIO, Union

from . import _native
from ._argument import Argument, InvalidArgument
from ._editor import Edit, Encoding, Position, apply_edits, byte, position

__all__ = [
    'Argument', 'Characters', 'Chars', 'Color', 'ColorMode', 'ColorSpec', 'Config', 'Diagnostic',
    'DisplayStyle', 'Edit', 'Encoding', 'File', 'Form', 'InvalidArgument', 'Label', 'LabelStyle',
    'Layout', 'Line', 'Location', 'Position', 'Severity', 'Styles', 'apply_edits', 'byte',
    'byte_index', 'emit', 'has_colors', 'html_styles', 'position', 'print', 'to_html', 'to_svg',
    'utf8',
]

__version__ = '0.1.0'

Text = Union[str, bytes]


class Severity(IntEnum):
    """The severity of a diagnostic, in ascending order. It is the first word of a header, and sets
    its color."""
    HELP = 0
    NOTE = 1
    WARNING = 2
    ERROR = 3
    BUG = 4


class LabelStyle(IntEnum):
    """The style of a label: a primary one has the caret `^`, in the color of the severity, a
    secondary one `-` or `'`, unless `Config.chars` has others."""
    PRIMARY = 0
    SECONDARY = 1


class DisplayStyle(IntEnum):
    """What is rendered."""
    RICH = 0  #: a header, the source with its labels, and the notes
    MEDIUM = 1  #: a header for each primary label, or one without a location, and the notes
    SHORT = 2  #: the headers of `MEDIUM` alone


class Layout(IntEnum):
    """How lanes of multi-line labels are rendered, and which line numbers the padding fits."""
    CLASSIC = 0  #: as by the Rust crate codespan-reporting
    UNBROKEN = 1  #: lanes have no gaps, and the padding fits all line numbers


class Characters(IntEnum):
    """Which characters are used."""
    BOX = 0  #: box drawing
    ASCII = 1  #: ASCII
    CUSTOM = 2  #: those of `Config.chars`


class Form(IntEnum):
    """The form of an output.

    Safe text has what a terminal shows: no control character but tab and newline, no directional
    control, no escape sequence but those of colors. HTML and SVG show the same characters."""
    TERMINAL = 0  #: safe text, for a terminal or a log
    TEXT = 1  #: text: names, sources and messages as they are passed
    STYLE_MARKS = 2  #: that text, and each style mark as U+DCFF and U+DC00 + its number in codespan.h
    HTML = 3  #: an HTML element, `pre`, with a class for each style
    SVG = 4  #: an SVG document


class ColorMode(IntEnum):
    """The colors of an output."""
    OFF = 0
    DEFAULT_STYLES = 1  #: the default styles
    OWN_STYLES = 2  #: those of `Config.styles`


class Color(IntEnum):
    """A color of a terminal."""
    NONE = 0  #: the color of plain text
    BLACK = 1
    RED = 2
    GREEN = 3
    YELLOW = 4
    BLUE = 5
    MAGENTA = 6
    CYAN = 7
    WHITE = 8


@dataclass(frozen=True)
class Line:
    """A line of a file: the bytes from start to end. Its newline may be one of them or not."""
    start: int  #: byte index in the file
    end: int  #: byte index in the file, exclusive
    number: int  #: the line number that is shown


@dataclass(frozen=True)
class Location:
    """The location that is shown for a byte at which a label starts: a line and a column number."""
    byte: int  #: byte index in the file
    line_number: int
    column_number: int


@dataclass(frozen=True)
class File:
    """A file, or a window of a large one: some whole lines of it, one after another."""
    name: Text
    source: Text
    first_byte: int = 0  #: byte index in the file of the first byte of `source`
    first_line: int = 0  #: index in the file of the first line of `source`
    lines: Sequence[Line] = ()  #: in ascending order; if empty, lines start after newlines
    locations: Sequence[Location] = ()  #: locations that are shown in place of computed ones

    @classmethod
    def read(cls, path: Union[str, os.PathLike[str]]) -> File:
        """Reads a file, whose name is its path. Both are `bytes`, with line breaks as they are.
        Bytes that are not UTF-8 are replaced, as `utf8` says. Raises `OSError` where it cannot be
        read."""
        with open(path, 'rb') as stream:
            return cls(utf8(os.fsencode(path)), utf8(stream.read()))


@dataclass(frozen=True)
class Label:
    """A range of bytes of a file, with a message. The end may be before the start, and either past
    the end of the file or inside a character."""
    start: int  #: byte index in the file
    end: int  #: byte index in the file, exclusive
    message: Text = ''  #: empty: none
    style: LabelStyle = LabelStyle.PRIMARY
    file: int = 0  #: index in the files that are passed to `emit`

    @classmethod
    def of_characters(cls, source: Text, start: int, end: int, message: Text = '',
                      style: LabelStyle = LabelStyle.PRIMARY, file: int = 0) -> Label:
        """Returns the label from one character of a source up to another. Both are indices as
        those of a slice of its text, and are taken as `byte_index` takes them."""
        return cls(byte_index(source, start), byte_index(source, end), message, style, file)


@dataclass(frozen=True)
class Diagnostic:
    """A message with a severity, labels on ranges of files, and notes."""
    message: Text
    severity: Severity = Severity.ERROR
    code: Text = ''  #: such as E0499; empty: none
    labels: Sequence[Label] = ()
    notes: Sequence[Text] = ()


@dataclass(frozen=True)
class Chars:
    """The characters of the output: by default those of box drawing."""
    snippet_start: Text = '┌─'  #: a text, before a locus
    source_border_left: str = '│'
    source_border_left_break: str = '·'
    note_bullet: str = '='
    single_primary_caret: str = '^'
    single_secondary_caret: str = '-'
    multi_primary_caret_start: str = '^'
    multi_primary_caret_end: str = '^'
    multi_secondary_caret_start: str = "'"
    multi_secondary_caret_end: str = "'"
    multi_top_left: str = '╭'
    multi_top: str = '─'
    multi_bottom_left: str = '╰'
    multi_bottom: str = '─'
    multi_left: str = '│'
    pointer_left: str = '│'


@dataclass(frozen=True)
class ColorSpec:
    """A style of text."""
    fg: Color = Color.NONE
    bg: Color = Color.NONE
    bold: bool = False
    intense: bool = False  #: both colors are the bright ones


def _header(color: Color) -> ColorSpec:
    return ColorSpec(color, bold=True, intense=True)


@dataclass(frozen=True)
class Styles:
    """The styles of the parts of the output."""
    header_bug: ColorSpec = _header(Color.RED)
    header_error: ColorSpec = _header(Color.RED)
    header_warning: ColorSpec = _header(Color.YELLOW)
    header_note: ColorSpec = _header(Color.GREEN)
    header_help: ColorSpec = _header(Color.CYAN)
    header_message: ColorSpec = _header(Color.NONE)
    primary_label_bug: ColorSpec = ColorSpec(Color.RED)
    primary_label_error: ColorSpec = ColorSpec(Color.RED)
    primary_label_warning: ColorSpec = ColorSpec(Color.YELLOW)
    primary_label_note: ColorSpec = ColorSpec(Color.GREEN)
    primary_label_help: ColorSpec = ColorSpec(Color.CYAN)
    secondary_label: ColorSpec = ColorSpec(Color.CYAN)
    line_number: ColorSpec = ColorSpec(Color.CYAN)
    source_border: ColorSpec = ColorSpec(Color.CYAN)
    note_bullet: ColorSpec = ColorSpec(Color.CYAN)


@dataclass(frozen=True)
class Config:
    """A configuration."""
    display_style: DisplayStyle = DisplayStyle.RICH
    layout: Layout = Layout.CLASSIC
    form: Form = Form.TERMINAL
    color_mode: ColorMode = ColorMode.OFF  #: `print` decides itself
    characters: Characters = Characters.BOX
    tab_width: int = 4  #: cells between tab stops; above 1024 it is taken as 1024
    start_context_lines: int = 3  #: lines shown after the first line of a multi-line label
    end_context_lines: int = 1  #: lines shown before its last line
    before_label_lines: int = 0  #: lines shown before a label
    after_label_lines: int = 0  #: lines shown after a label
    chars: Chars = field(default_factory=Chars)  #: read only for `Characters.CUSTOM`
    styles: Styles = field(default_factory=Styles)  #: read only for `ColorMode.OWN_STYLES`
    max_width: Optional[int] = None  #: cells of a source line: a wider one is shortened; 0: `None`


def byte_index(source: Text, character: int) -> int:
    """Returns the byte index of a character of a source, as a label needs it.

    `character` counts code points from 0, also where the source is `bytes`. For one past the end it
    returns the length in bytes; a negative one counts from the end, as in a slice. Raises
    `ValueError` where `bytes` are not UTF-8; those of `File.read` are."""
    text = source.decode() if isinstance(source, bytes) else source
    return len(text[:character].encode())


def utf8(source: bytes) -> bytes:
    """Returns a source in UTF-8: with a `?` for each byte that is not part of UTF-8. So all byte
    indices stay, and the labels of a tool that counts bytes."""
    return source.decode(errors='surrogateescape').encode(errors='replace')


def emit(files: Sequence[File], diagnostic: Diagnostic, config: Config = Config()) -> str:
    """Returns the rendered diagnostic over these files, in the form of the configuration.

    Raises `InvalidArgument` where an argument is invalid, `ValueError` where a number is negative
    or too large or a `str` has a surrogate, `TypeError` where a field of `Chars` is not one
    character or `notes` is a text, and `MemoryError` where an allocation fails."""
    outcome = _native.emit(files, diagnostic, config)
    if outcome.status == _native.OK:
        return outcome.output.decode(errors='surrogateescape')
    if outcome.status == _native.OUT_OF_MEMORY:
        raise MemoryError
    message = _native.status_text(outcome.status, outcome.argument)
    raise InvalidArgument('%s (index %d)' % (message, outcome.argument_index),
                          Argument(outcome.argument), outcome.argument_index)


def to_html(files: Sequence[File], diagnostic: Diagnostic, config: Config = Config()) -> str:
    """Returns the diagnostic as an HTML element, `pre`, with a class for each style, for a page in
    UTF-8 that has the style sheet of `html_styles`. Raises as `emit`."""
    return emit(files, diagnostic, replace(config, form=Form.HTML))


def to_svg(files: Sequence[File], diagnostic: Diagnostic, config: Config = Config()) -> str:
    """Returns the diagnostic as an SVG document, in the styles of `config` where it has own ones.
    Raises as `emit`."""
    return emit(files, diagnostic, replace(config, form=Form.SVG))


def html_styles(styles: Styles = Styles()) -> str:
    """Returns the CSS style sheet of the elements of `to_html`, which shows them in these styles,
    meant for a dark page. The background is the page's. Raises `InvalidArgument` where a color is
    none of `Color`, and `MemoryError` where an allocation fails."""
    status, css = _native.html_styles(styles)
    if status == _native.OK:
        return css.decode()
    if status == _native.OUT_OF_MEMORY:
        raise MemoryError
    raise InvalidArgument(_native.status_text(status, Argument.COLOR), Argument.COLOR, 0)


def has_colors(stream: TextIO) -> bool:
    """Returns whether output to a stream is to be in colors: where it is a terminal, `TERM` is not
    `dumb`, and `NO_COLOR` is unset or empty; and where `CLICOLOR_FORCE` is set, and is neither
    empty nor 0."""
    if os.environ.get('CLICOLOR_FORCE', '') not in ('', '0'):
        return True
    return not os.environ.get('NO_COLOR') and os.environ.get('TERM') != 'dumb' and stream.isatty()


def print(files: Sequence[File], diagnostic: Diagnostic, config: Config = Config(),
          file: Optional[TextIO] = None) -> None:
    """Writes the diagnostic to a stream, `sys.stderr` unless `file` is another one: as safe text,
    in colors where `has_colors` says so, whatever `config.form` and `config.color_mode` are; in the
    styles of `config` where it has own ones. Raises as `emit`, and then nothing is written; and as
    `file.write`, such as `UnicodeEncodeError` where its encoding lacks a character."""
    stream = sys.stderr if file is None else file
    mode = config.color_mode or ColorMode.DEFAULT_STYLES
    if not has_colors(stream):
        mode = ColorMode.OFF
    stream.write(emit(files, diagnostic, replace(config, form=Form.TERMINAL, color_mode=mode)))
