#!/usr/bin/env python3
"""Edits a file in memory: reads OLD, makes the edits that the words name, writes NEW, and prints the notes.

    edit.py LIBRARY OLD NEW [--move-dynamic] [--sign] WORD..      as: edit.py libarwen.so greet greet.new set-rpath '$ORIGIN'

With --move-dynamic the dynamic section of an ELF file moves where it has no room. With --sign pages that the edits touch are made to
fit again in ad-hoc code signatures of a Mach-O file. LIBRARY is the shared library, as `./install` leaves it. The package in python/
does the same, and more, without ctypes at hand.
"""
import ctypes
import os
import sys

OK = 0
FLAGS = {'--move-dynamic': 1, '--sign': 2}


class Text(ctypes.Structure):
    """arwen_text of arwen.h."""
    _fields_ = [('at', ctypes.c_void_p), ('len', ctypes.c_size_t)]

    def value(self):
        return ctypes.string_at(self.at, self.len)


class Answer(ctypes.Structure):
    """arwen_answer of arwen.h."""
    _fields_ = [('bytes', Text), ('text', Text), ('cause', ctypes.c_uint32), ('edit', ctypes.c_size_t)]


class ArwenError(Exception):
    """Why a file was not edited."""


def load(path):
    """The library at a path."""
    library = ctypes.CDLL(os.path.abspath(path))
    lent = [ctypes.c_char_p, ctypes.c_size_t]
    library.arwen_apply_words.argtypes = [*lent, ctypes.POINTER(Text), ctypes.c_size_t, *lent, ctypes.c_uint32, ctypes.POINTER(Answer)]
    library.arwen_apply_words.restype = ctypes.c_uint32
    library.arwen_free.argtypes = [ctypes.POINTER(Answer)]
    library.arwen_free.restype = None
    return library


def lent_words(words):
    """Words as an array of texts, and the buffers that hold them."""
    buffers = [ctypes.create_string_buffer(os.fsencode(word)) for word in words]
    texts = (Text * max(len(words), 1))()
    for text, buffer in zip(texts, buffers):
        text.at, text.len = ctypes.addressof(buffer), len(buffer) - 1
    return texts, buffers


def edited(library, old, words, name, flags=0):
    """The bytes of a file after edits, which are words as those behind `arwen elf apply FILE`, and the notes."""
    texts, buffers = lent_words(words)
    called, answer = os.fsencode(name), Answer()
    status = library.arwen_apply_words(old, len(old), texts, len(buffers), called, len(called), flags, ctypes.byref(answer))
    new, text = answer.bytes.value(), answer.text.value().decode()
    library.arwen_free(ctypes.byref(answer))
    if status != OK:
        raise ArwenError(text or 'out of memory')
    return new, text


def main():
    if len(sys.argv) < 5:
        sys.exit(__doc__)
    library, old, new, *words = sys.argv[1:]
    flags = 0
    while words and words[0] in FLAGS:
        flags |= FLAGS[words.pop(0)]
    with open(old, 'rb') as file:
        data = file.read()
    try:
        made, notes = edited(load(library), data, words, old, flags)
    except ArwenError as error:
        sys.exit('edit.py: %s: %s' % (old, error))
    with open(new, 'wb') as file:
        file.write(made)
    sys.stderr.write(notes)


if __name__ == '__main__':
    main()
