"""The shared library for C, called as its header arwen.h says. A call takes bytes and answers bytes; what the library holds for
an answer is freed before the call returns."""
import ctypes
import os
from functools import lru_cache
from typing import Any, Callable, List, NamedTuple, Optional, Sequence

from ._edit import Edit

_SIZE_MAX = ctypes.c_size_t(-1).value
# What an empty text points to: no pointer may be null.
_NOTHING = ctypes.create_string_buffer(1)


class _Text(ctypes.Structure):
    _fields_ = [('at', ctypes.c_void_p), ('len', ctypes.c_size_t)]


class _Edit(ctypes.Structure):
    _fields_ = [('kind', ctypes.c_uint32), ('texts', ctypes.POINTER(_Text)), ('texts_len', ctypes.c_size_t)]


class _Answer(ctypes.Structure):
    _fields_ = [('bytes', _Text), ('text', _Text), ('cause', ctypes.c_uint32), ('edit', ctypes.c_size_t)]


class Answer(NamedTuple):
    """What a call answered."""

    status: int
    data: bytes
    text: bytes
    cause: int
    edit: Optional[int]


def path() -> str:
    """The library's path: the one in the environment's ARWEN_LIBRARY, or beside this file."""
    beside = os.path.join(os.path.dirname(os.path.abspath(__file__)), 'libarwen.so')
    return os.environ.get('ARWEN_LIBRARY') or beside


@lru_cache(maxsize=None)
def _loaded(place: str) -> ctypes.CDLL:
    """The library at a path, with the types of its functions."""
    lent: List[Any] = [ctypes.c_char_p, ctypes.c_size_t]
    answer: List[Any] = [ctypes.POINTER(_Answer)]
    edits: List[Any] = [ctypes.POINTER(_Edit), ctypes.c_size_t]
    words: List[Any] = [ctypes.POINTER(_Text), ctypes.c_size_t]
    calls = {
        'arwen_apply': lent + edits + lent + [ctypes.c_uint32] + answer,
        'arwen_apply_words': lent + words + lent + [ctypes.c_uint32] + answer,
        'arwen_sign': lent + lent + answer,
        'arwen_verify': lent + answer,
        'arwen_show': lent + lent + answer,
        'arwen_free': answer,
        'arwen_cause_text': [ctypes.c_uint32, ctypes.POINTER(_Text)],
        'arwen_version': [ctypes.POINTER(_Text)],
    }
    try:
        library = ctypes.CDLL(place)
        for name, types in calls.items():
            getattr(library, name).argtypes = types
            is_silent = name in ('arwen_free', 'arwen_cause_text', 'arwen_version')
            getattr(library, name).restype = None if is_silent else ctypes.c_uint32
    except (OSError, AttributeError) as fault:
        raise ImportError('no library of arwen can be loaded from %s: %s' % (place, fault)) from fault
    return library


def _library() -> ctypes.CDLL:
    return _loaded(path())


def _copied(text: _Text) -> bytes:
    """The bytes of a text of the library."""
    copy: bytes = (ctypes.c_char * text.len).from_address(text.at).raw
    return copy


def _lent(texts: Sequence[bytes]) -> 'ctypes.Array[_Text]':
    """An array of texts. It holds their addresses alone: whoever calls keeps the texts."""
    array = (_Text * max(1, len(texts)))()
    for slot, text in zip(array, texts):
        slot.at, slot.len = ctypes.cast(ctypes.c_char_p(text), ctypes.c_void_p), len(text)
    return array


def _empty() -> _Answer:
    nothing = ctypes.addressof(_NOTHING)
    return _Answer(_Text(nothing, 0), _Text(nothing, 0), 0, _SIZE_MAX)


def _answer(library: ctypes.CDLL, call: Callable[..., int], *lent: Any) -> Answer:
    """Makes a call, copies its answer, and frees it."""
    answer = _empty()
    try:
        status = call(*lent, ctypes.byref(answer))
        edit = None if answer.edit == _SIZE_MAX else answer.edit
        return Answer(status, _copied(answer.bytes), _copied(answer.text), answer.cause, edit)
    finally:
        library.arwen_free(ctypes.byref(answer))


def apply(data: bytes, edits: Sequence[Edit], name: bytes, flags: int) -> Answer:
    """arwen_apply."""
    library = _library()
    texts = [_lent(edit.texts) for edit in edits]
    array = (_Edit * max(1, len(edits)))()
    for slot, edit, lent in zip(array, edits, texts):
        slot.kind, slot.texts, slot.texts_len = edit.kind, lent, len(edit.texts)
    return _answer(library, library.arwen_apply, data, len(data), array, len(edits), name, len(name), flags)


def apply_words(data: bytes, words: Sequence[bytes], name: bytes, flags: int) -> Answer:
    """arwen_apply_words."""
    library = _library()
    return _answer(library, library.arwen_apply_words, data, len(data), _lent(words), len(words), name, len(name), flags)


def sign(data: bytes, name: bytes) -> Answer:
    """arwen_sign."""
    library = _library()
    return _answer(library, library.arwen_sign, data, len(data), name, len(name))


def verify(data: bytes) -> Answer:
    """arwen_verify."""
    library = _library()
    return _answer(library, library.arwen_verify, data, len(data))


def show(data: bytes, name: bytes) -> Answer:
    """arwen_show."""
    library = _library()
    return _answer(library, library.arwen_show, data, len(data), name, len(name))


def _told(call: Callable[..., None], *lent: Any) -> str:
    """A text that the library keeps."""
    text = _Text(ctypes.addressof(_NOTHING), 0)
    call(*lent, ctypes.byref(text))
    return _copied(text).decode('utf-8', 'replace')


def cause_text(cause: int) -> str:
    """arwen_cause_text."""
    return _told(_library().arwen_cause_text, cause)


def version() -> str:
    """arwen_version."""
    return _told(_library().arwen_version)
