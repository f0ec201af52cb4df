"""The calls on bytes."""
import json
import os
from dataclasses import dataclass
from types import ModuleType
from typing import Any, Dict, Iterable, List, Tuple, Union

from . import _library, elf, macho
from ._edit import Edit, Text, encoded
from ._errors import NotEdits, Refused
from ._header import MEMORY, MOVE_DYNAMIC, OK, SIGN, UNFIT, WORDS, Cause

#: The bytes of a file.
Data = Union[bytes, bytearray, memoryview]

#: The name of a file.
Name = Union[str, bytes, 'os.PathLike[str]', 'os.PathLike[bytes]']

#: An edit; or a tuple of its name and what its function takes, as `("set-rpath", "$ORIGIN")`.
AnyEdit = Union[Edit, Tuple[Any, ...]]


@dataclass(frozen=True)
class Result:
    """What edits make of a file, and the notes on what may go wrong later."""

    bytes: bytes
    notes: List[str]


@dataclass(frozen=True)
class Verdict:
    """Whether all pages of the code signatures fit, with a line for each of them. It is true where they do."""

    fits: bool
    lines: List[str]

    def __bool__(self) -> bool:
        return self.fits


def is_elf(data: Data) -> bool:
    """Whether a file begins as an ELF file."""
    return bytes(data[:4]) == b'\x7fELF'


def _edit_from(edit: AnyEdit, at: int, functions: ModuleType, name: Name) -> Edit:
    """An edit, made by the function that a tuple names where it isn't one yet."""
    if isinstance(edit, Edit):
        return edit
    fault, cause = 'an edit, or a tuple of its name and its values, is wanted', 0
    if isinstance(edit, tuple) and edit and isinstance(edit[0], str):
        called = edit[0].replace('-', '_')
        if called in functions.__all__:
            try:
                made: Edit = getattr(functions, called)(*edit[1:])
                return made
            except (TypeError, ValueError) as error:
                fault = str(error)
        else:
            fault, cause = 'no edit of this file is called %s' % edit[0], Cause.EDITS_UNKNOWN_KIND
    raise NotEdits(fault, os.fsdecode(name), cause, _library.cause_text(cause), at)


def _checked(answer: _library.Answer, name: Name, count: int = 0) -> _library.Answer:
    """The answer, if something was done; else the error that it tells. An edit past the last of so many is none: the number of all
    edits stands for want of room."""
    if answer.status in (OK, UNFIT):
        return answer
    if answer.status == MEMORY:
        raise MemoryError(os.fsdecode(name))
    kind = NotEdits if answer.status == WORDS else Refused
    edit = answer.edit if answer.edit is not None and answer.edit < count else None
    raise kind(_decoded(answer.text), os.fsdecode(name), answer.cause, _library.cause_text(answer.cause), edit)


def _decoded(text: bytes) -> str:
    return text.decode('utf-8', 'surrogateescape')


def _lines(text: bytes) -> List[str]:
    return [line for line in _decoded(text).split('\n') if line]


def _result(answer: _library.Answer) -> Result:
    return Result(answer.data, _lines(answer.text))


def _flags(move_dynamic: bool, sign: bool) -> int:
    return MOVE_DYNAMIC * move_dynamic | SIGN * sign


def apply(data: Data, edits: Iterable[AnyEdit], name: Name = '', *, move_dynamic: bool = False, sign: bool = False) -> Result:
    """Edits the bytes of a file: makes all edits, in order, or none.

    move_dynamic: leave for the dynamic section of an ELF file to move where it has no room. sign: pages that the edits touched are
    made to fit again in ad-hoc code signatures of a Mach-O file. The name is what notes and errors call the file.
    Errors: Refused, NotEdits, MemoryError.
    """
    functions = elf if is_elf(data) else macho
    made = [_edit_from(edit, at, functions, name) for at, edit in enumerate(edits)]
    answer = _library.apply(bytes(data), made, os.fsencode(name), _flags(move_dynamic, sign))
    return _result(_checked(answer, name, len(made)))


def apply_words(data: Data, words: Iterable[Text], name: Name = '', *, move_dynamic: bool = False, sign: bool = False) -> Result:
    """The same by the words that stand behind `arwen elf apply FILE` or `arwen macho apply FILE`: an edit's name and its values,
    "+", the next edit."""
    if isinstance(words, (str, bytes)):
        raise TypeError('several words are wanted, not one')
    given = [encoded(word) for word in words]
    answer = _library.apply_words(bytes(data), given, os.fsencode(name), _flags(move_dynamic, sign))
    return _result(_checked(answer, name, given.count(b'+') + 1))


def sign(data: Data, name: Name = '') -> Result:
    """Makes all pages of ad-hoc code signatures of a Mach-O file fit. Errors: Refused, MemoryError."""
    return _result(_checked(_library.sign(bytes(data), os.fsencode(name)), name))


def verify(data: Data, name: Name = '') -> Verdict:
    """Tells whether all pages of the code signatures of a Mach-O file fit. Errors: Refused, MemoryError."""
    answer = _checked(_library.verify(bytes(data)), name)
    return Verdict(answer.status == OK, _lines(answer.text))


def facts(data: Data, name: Name = '') -> Dict[str, Any]:
    """What a file is and what it asks of a loader: the object that `arwen show --json` prints, with this name under "file". Texts
    that aren't UTF-8 have U+FFFD for what isn't. Errors: Refused, MemoryError."""
    answer = _checked(_library.show(bytes(data), os.fsencode(name)), name)
    found: Dict[str, Any] = json.loads(_decoded(answer.text))
    found['file'] = os.fsdecode(name)
    return found
