"""Positions of an editor, and edits of a text: codespan_editor.h, by ctypes."""
from __future__ import annotations

import ctypes as c
from dataclasses import dataclass
from enum import IntEnum
from typing import TYPE_CHECKING, AnyStr, Sequence

from . import _native
from ._argument import Argument, InvalidArgument

if TYPE_CHECKING:
    from . import File, Text


class Encoding(IntEnum):
    """The encoding whose code units `Position.character` counts. The Language Server Protocol has
    UTF-16 unless client and server agree on another one."""
    UTF16 = 0  #: two code units for a character from U+10000 on, and one for any other
    UTF8 = 1  #: bytes
    UTF32 = 2  #: characters, as the indices of a `str`


@dataclass(frozen=True, order=True)
class Position:
    """A position in a file, as the Language Server Protocol has it: before a character of a line,
    or after its last one."""
    line: int  #: index in the file of the line, from 0
    character: int  #: code units of the line before the position


@dataclass(frozen=True)
class Edit:
    """An edit of a text: the bytes from start to end are replaced. Nothing is replaced where start
    is end, and nothing is inserted where the replacement is empty."""
    start: int  #: byte index in the text
    end: int  #: byte index in the text, exclusive
    replacement: Text = ''


def position(file: File, byte: int, encoding: Encoding = Encoding.UTF16) -> Position:
    """Returns the position of a byte of a file. It takes time in proportion to the source.

    The byte after a newline is on the next line. The end of the source has a position, on the last
    line; a byte before a window has that of its start. Lines are those of `emit`, and the first one
    has the index `first_line`, also where there are `lines`.

    Raises `InvalidArgument`: with `Argument.LINE_TOO_LARGE` where the index of the line is greater
    than 2**32 - 1; with `Argument.COLUMN_TOO_LARGE` past the end of the line, whose length in bytes
    is `index`; with `Argument.CHAR_BOUNDARY` inside a character; with another argument as `emit`,
    where that is invalid. Raises `ValueError`, `TypeError` and `MemoryError` as `emit`."""
    found, detail = _native.Position(), _native.Detail()
    status = _native.LIBRARY.codespan_position(
        c.byref(_native.file_of(file)), _native.choice(encoding), _native.number(byte),
        c.byref(found), c.byref(detail))
    _check(status, detail)
    return Position(found.line, found.character)


def byte(file: File, position: Position, encoding: Encoding = Encoding.UTF16) -> int:
    """Returns the byte index in a file of a position. It takes time in proportion to the source.

    A position may be at the end of its line, which is after the newline where lines start after
    those. The protocol takes a character past the end as the end, which is `index` of the error.

    Raises `InvalidArgument`: with `Argument.LINE_TOO_LARGE` where the file has no such line; with
    `Argument.COLUMN_TOO_LARGE` past the end of the line, whose code units are `index`; with
    `Argument.CHAR_BOUNDARY` inside a character; and else as `codespan.position`."""
    found, detail = c.c_size_t(), _native.Detail()
    place = _native.Position(_native.choice(position.line), _native.choice(position.character))
    status = _native.LIBRARY.codespan_byte(
        c.byref(_native.file_of(file)), _native.choice(encoding), c.byref(place), c.byref(found),
        c.byref(detail))
    _check(status, detail)
    return found.value


def apply_edits(source: AnyStr, edits: Sequence[Edit]) -> AnyStr:
    """Returns a text after all edits: a `str` of a `str`, and `bytes` of `bytes`.

    All ranges are of `source`, in bytes of UTF-8 also where it is a `str`, so the edits need no
    order. They may touch; insertions at one byte stay in their order, and come before what is
    replaced there.

    Raises `InvalidArgument`, whose `index` is that of the edit: with `Argument.EDIT_REVERSED`,
    `EDIT_PAST_END` or `EDIT_BOUNDARY` for the first edit that is invalid alone, or else with
    `EDIT_OVERLAP`. Raises `ValueError` where a number is negative or too large, a `str` has a
    surrogate, or `bytes` are not UTF-8; and `MemoryError`."""
    data = _native.data_of(source)
    array, length = _native.array_of(_native.Edit, map(_edit_of, edits))
    capacity = len(data) + sum(edit.replacement.length for edit in array) + 1
    out, written, detail = c.create_string_buffer(capacity), c.c_size_t(), _native.Detail()
    status = _native.LIBRARY.codespan_apply_edits(data, len(data), array, length, out, capacity,
                                                  c.byref(written), c.byref(detail))
    _check(status, detail)
    text = c.string_at(out, written.value)
    return text.decode() if isinstance(source, str) else text


def _edit_of(edit: Edit) -> _native.Edit:
    return _native.Edit(_native.number(edit.start), _native.number(edit.end),
                        _native.text_of(edit.replacement))


def _check(status: int, detail: _native.Detail) -> None:
    """Raises the exception of a status."""
    if status == _native.OUT_OF_MEMORY:
        raise MemoryError
    if status != _native.OK:
        message = _native.status_text(status, detail.argument)
        raise InvalidArgument('%s (index %d)' % (message, detail.index),
                              Argument(detail.argument), detail.index)
