"""Why something was not done."""
from typing import Optional

from ._header import Cause


def cause_of(number: int) -> int:
    """A number as a `Cause`, where it is one that this package knows; 0 is none."""
    try:
        return Cause(number)
    except ValueError:
        return number


class Error(Exception):
    """Why a file was not edited, or not read. Where memory is wanting, the error is Python's MemoryError."""

    #: One line that tells why.
    detail: str
    #: The file's name, as it was given.
    file: str
    #: A `Cause`, or 0 where there is none. A newer library may tell a number that is no `Cause` here.
    cause: int
    #: The words for the cause, of no particular file.
    cause_text: str
    #: Which edit the cause stands against, counted from 0; None where it is none.
    edit: Optional[int]

    def __init__(self, detail: str, file: str = '', cause: int = 0, cause_text: str = '', edit: Optional[int] = None) -> None:
        super().__init__(detail, file, cause, cause_text, edit)
        self.detail, self.file, self.cause, self.cause_text, self.edit = detail, file, cause_of(cause), cause_text, edit

    def __str__(self) -> str:
        return '%s: %s' % (self.file, self.detail) if self.file else self.detail


class Refused(Error):
    """The file or an edit is refused, and all stays as it was."""


class NotEdits(Error):
    """The words or the list are no edits for this file."""
