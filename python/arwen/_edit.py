"""What an edit is: its kind and its texts."""
from dataclasses import dataclass
from typing import Iterable, Mapping, Tuple, Union

from ._header import Kind

#: A text: a str is taken as UTF-8, and what `os.fsdecode` made of other bytes is turned back into them.
Text = Union[str, bytes]

#: Old names with their new ones.
Pairs = Union[Mapping[Text, Text], Iterable[Tuple[Text, Text]]]


def encoded(text: Text) -> bytes:
    """The bytes of a text."""
    if isinstance(text, str):
        return text.encode('utf-8', 'surrogateescape')
    if isinstance(text, bytes):
        return text
    raise TypeError('a text is a str or bytes, not %s' % type(text).__name__)


@dataclass(frozen=True)
class Edit:
    """One edit. The functions of `arwen.elf` and `arwen.macho` make them."""

    kind: Kind
    texts: Tuple[bytes, ...] = ()


def edit_of(kind: Kind, texts: Iterable[Text] = ()) -> Edit:
    """An edit of a kind, with its texts."""
    if isinstance(texts, (str, bytes)):
        raise TypeError('several texts are wanted, not one')
    return Edit(kind, tuple(encoded(text) for text in texts))


def edit_of_pairs(kind: Kind, pairs: Pairs) -> Edit:
    """An edit of a kind that renames: its texts are an old name, its new one, and so on."""
    if isinstance(pairs, (str, bytes)):
        raise TypeError('old names with their new ones are wanted, not one text')
    found = pairs.items() if isinstance(pairs, Mapping) else pairs
    return Edit(kind, tuple(encoded(text) for old, new in found for text in (old, new)))
