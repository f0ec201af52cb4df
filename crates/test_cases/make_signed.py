#!/usr/bin/env python3
"""Makes the signed Mach-O files among the sample files: small libraries of 64-byte pages, with signatures of each kind.

Run in this folder: python3 make_signed.py
"""
import hashlib
import struct

HASHES = {1: (hashlib.sha1, 20), 2: (hashlib.sha256, 32), 4: (hashlib.sha384, 48)}
ADHOC, LINKER_SIGNED, RUNTIME = 0x2, 0x20000, 0x10000
PAGE_EXPONENT = 6
MAIN, FIRST_ALTERNATE, MESSAGE = 0, 0x1000, 0x10000


def directory(signed, hash_type, flags, identifier):
    """A code directory of the earliest version over the signed bytes."""
    hasher, size = HASHES[hash_type]
    pages = [signed[at:at + (1 << PAGE_EXPONENT)] for at in range(0, len(signed), 1 << PAGE_EXPONENT)]
    name = identifier + b'\0'
    head = struct.pack('>9I4BI', 0xfade0c02, 44 + len(name) + size * len(pages), 0x20001, flags, 44 + len(name), 44, 0, len(pages),
                       len(signed), size, hash_type, 0, PAGE_EXPONENT, 0)
    return head + name + b''.join(hasher(page).digest() for page in pages)


def message(content):
    return struct.pack('>II', 0xfade0b01, 8 + len(content)) + content


def super_blob(blobs):
    """A signature with these blobs by their slot types."""
    at, index, rest = 12 + 8 * len(blobs), b'', b''
    for kind, blob in blobs:
        index += struct.pack('>II', kind, at + len(rest))
        rest += blob
    return struct.pack('>III', 0xfade0cc0, at + len(rest), len(blobs)) + index + rest


def library(order, blobs_for, commands=1):
    """A library with so many commands that tell of its signature, whose blobs are made for the bytes before it."""
    name = b'libx.dylib\0'.ljust(16, b'\0')
    own = struct.pack(order + '6I', 0xd, 24 + len(name), 24, 0, 0, 0) + name
    size, start = len(own) + 16 * commands, 240
    length = len(super_blob(blobs_for(bytes(start))))
    told = struct.pack(order + '4I', 0x1d, 16, start, length) * commands
    head = struct.pack(order + '8I', 0xfeedfacf, 0x100000c, 0, 6, 1 + commands, size, 0, 0)
    signed = (head + own + told).ljust(start, b'.')
    return signed + super_blob(blobs_for(signed))


def both(signed):
    """Directories of both kinds; the message has no content, so no identity signed."""
    return [(MAIN, directory(signed, 1, ADHOC, b'libx')), (FIRST_ALTERNATE, directory(signed, 2, LINKER_SIGNED, b'other')),
            (MESSAGE, message(b''))]


def fat(slices):
    """A fat file of slices on their order."""
    at, table, rest = 8 + 20 * len(slices), b'', b''
    for i, content in enumerate(slices):
        table += struct.pack('>5I', 0x100000c, i, at + len(rest), len(content), 0)
        rest += content
    return struct.pack('>II', 0xcafebabe, len(slices)) + table + rest


def main():
    by_linker = library('<', lambda signed: [(MAIN, directory(signed, 2, ADHOC | LINKER_SIGNED, b'lib\xff'))])
    by_identity = library('>', lambda signed: [(MAIN, directory(signed, 2, LINKER_SIGNED | RUNTIME, b'org.example.libx')),
                                               (MESSAGE, message(b'message'))])
    adhoc = library('<', both)
    files = {
        'signed-linker': by_linker,
        'signed-identity': by_identity,
        # two of the four pages change, so four slots no longer fit
        'signed-stale': adhoc[:130] + b'!' + adhoc[131:200] + b'!' + adhoc[201:],
        'signed-unknown-hash': library('<', lambda signed: [(MAIN, directory(signed, 4, ADHOC, b'libx'))]),
        'signed-twice': library('<', both, commands=2),
        'signed-fat': fat([by_linker, library('>', lambda signed: [(MESSAGE, message(b'message'))]), adhoc]),
    }
    for name, content in files.items():
        with open('data/' + name, 'wb') as file:
            file.write(content)


if __name__ == '__main__':
    main()
