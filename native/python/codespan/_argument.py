"""The arguments that can be invalid, and the exception that names one."""
from __future__ import annotations

from enum import IntEnum


class Argument(IntEnum):
    """An argument that can be invalid: those up to 24 are of `emit`, and are checked in this
    order."""
    NONE = 0
    ABI = 1
    DISPLAY_STYLE = 2
    LAYOUT = 3
    FORM = 4
    COLOR_MODE = 5
    CHARACTERS = 6
    SNIPPET_START = 7
    CHARACTER = 8  #: index: the field of `Chars`, from 0 for `source_border_left`
    COLOR = 9  #: index: the field of `Styles`, from 0 for `header_bug`
    CONFIG_RESERVED = 10
    FILE_NAME = 11  #: index: the file
    FILE_SOURCE = 12  #: index: the file
    FILE_LINES = 13  #: index: the file
    FILE_LOCATIONS = 14  #: index: the file
    FILE_RESERVED = 15  #: index: the file
    SEVERITY = 16
    CODE = 17
    MESSAGE = 18
    DIAGNOSTIC_RESERVED = 19
    LABEL_STYLE = 20  #: index: the label
    LABEL_MESSAGE = 21  #: index: the label
    LABEL_FILE = 22  #: not one of the files; index: the label
    LABEL_RESERVED = 23  #: index: the label
    NOTE = 24  #: index: the note
    ENCODING = 25
    LINE_TOO_LARGE = 26  #: no line of the file, or one whose index is greater than 2**32 - 1
    COLUMN_TOO_LARGE = 27  #: past the end of the line; index: that end
    CHAR_BOUNDARY = 28  #: inside a character
    EDIT_REPLACEMENT = 29  #: not UTF-8; index: the edit
    EDIT_RESERVED = 30  #: index: the edit
    EDIT_REVERSED = 31  #: the end is before the start; index: the edit
    EDIT_PAST_END = 32  #: the end is past the end of the source; index: the edit
    EDIT_BOUNDARY = 33  #: the start or the end is inside a character; index: the edit
    EDIT_OVERLAP = 34  #: it starts before the end of another one before it; index: the edit


class InvalidArgument(ValueError):
    """An argument is invalid, or the file of a label is not one of the files.

    `argument` is the first invalid one, and `index` its index among several, from 0; it is 0 where
    there is only one."""

    def __init__(self, message: str, argument: Argument, index: int) -> None:
        super().__init__(message, argument, index)
        self.argument = argument
        self.index = index

    def __str__(self) -> str:
        return str(self.args[0])
