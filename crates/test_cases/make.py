#!/usr/bin/env python3
"""Makes the small files of this crate's folder `data` that its lines on the command line are run on.

    python3 crates/test_cases/make.py [FOLDER]

The files are written into FOLDER, or into the folder `data` beside this script. Python's standard library is
enough. The Mach-O records are those of examples/make.py; the ELF records are those of the System V gABI.
"""

import os
import struct
import sys

HERE = os.path.dirname(os.path.abspath(__file__))
sys.path.insert(0, os.path.join(HERE, "..", "..", "examples"))
sys.dont_write_bytecode = True
import make as examples  # noqa: E402

LC_LOAD_WEAK_DYLIB, LC_REEXPORT_DYLIB, LC_CODE_SIGNATURE = 0x80000018, 0x8000001F, 0x1D

# Where the code of the Mach-O libraries begins, behind the room for commands.
CODE_AT = 512
CODE = bytes(range(16))


# ---- Mach-O


def macho(form, commands, length, magic=None):
    """A library of these commands and zeros behind them."""
    words = [0xFEEDFACF if form.bits == 64 else 0xFEEDFACE, *examples.ARM64, examples.MH_DYLIB]
    size = sum(len(command) for command in commands)
    header = form.pack("IIIIIII", *words, len(commands), size, examples.MH_FLAGS)
    header = header.ljust(form.header_size, b"\0")
    if magic is not None:
        header = magic + header[4:]
    return (header + b"".join(commands)).ljust(length, b"\0")


def texts(form):
    """Commands with texts: an id, two loaded libraries and two run paths that come twice, and another."""
    return [
        examples.dylib(form, examples.LC_ID_DYLIB, b"libx.dylib"),
        examples.dylib(form, examples.LC_LOAD_DYLIB, b"liba.dylib"),
        examples.dylib(form, LC_LOAD_WEAK_DYLIB, b"libb.dylib", 0x20304, 0x20000),
        examples.dylib(form, LC_REEXPORT_DYLIB, b"libb.dylib", 0x30405, 0x30000),
        examples.rpath(form, b"/usr/local/lib"),
        examples.rpath(form, b"/opt"),
        examples.rpath(form, b"/usr/local/lib"),
    ]


def library(form, commands=None):
    """A library with code at CODE_AT, up to where its commands may grow."""
    code = examples.section(form, b"__text", b"__TEXT", CODE_AT, len(CODE), CODE_AT)
    segment = examples.segment(form, b"__TEXT", 0, 0x1000, 0, CODE_AT + len(CODE), 5, [code])
    return macho(form, [segment] + (texts(form) if commands is None else commands), CODE_AT) + CODE


def broken(form, at, number):
    """A library with another number in 32 bits."""
    data = bytearray(library(form))
    data[at : at + 4] = form.pack("I", number)
    return bytes(data)


def fat_table(slices):
    """A fat file's header and table, with the offset and the size of each slice."""
    table = struct.pack(">II", 0xCAFEBABE, len(slices))
    for offset, size in slices:
        table += struct.pack(">IIIII", *examples.ARM64, offset, size, 0)
    return table


def roomy(commands=()):
    """A library of a narrow form with these commands alone, and with room for one of 16 bytes behind them."""
    form = examples.Form(32, ">")
    size = sum(len(command) for command in commands)
    words = (0xFEEDFACE, *examples.I386, examples.MH_DYLIB, len(commands), size, examples.MH_FLAGS)
    return form.pack("IIIIIII", *words) + b"".join(commands) + bytes(16)


def signed():
    """The command of a code signature, which is empty."""
    return examples.Form(32, ">").pack("IIII", LC_CODE_SIGNATURE, 16, 0, 0)


def machos():
    """The Mach-O files, by name."""
    little64, big64 = examples.Form(64, "<"), examples.Form(64, ">")
    little32, big32 = examples.Form(32, "<"), examples.Form(32, ">")
    path = examples.rpath(little64, b"/usr/local/lib")
    lib = library(little64)
    segment = 32 + 152
    arm, other = examples.ARM64, examples.POWERPC
    archive = b"!<arch>\n" + bytes(56)
    return {
        "empty": macho(little64, [], 64),
        "library-64-little": lib,
        "library-64-big": library(big64),
        "library-32-little": library(little32),
        "library-32-big": library(big32),
        "no-id": library(little64, [path]),
        "fat": examples.fat([(arm, lib), (other, library(big32))], 4),
        "fat-uneven": examples.fat([(arm, lib), (other, library(big32, []))], 4),
        "fat-full": examples.fat([(arm, lib), (arm, macho(little64, [path], 64))], 4),
        "roomy": roomy(),
        "roomy-signed": roomy([signed()]),
        "fat-roomy": examples.fat([(examples.I386, roomy()), ((7, 4), roomy())], 0),
        "fat-archive": examples.fat([(arm, archive), (arm, lib)], 4),
        "fat-outside": fat_table([(64, 65)]).ljust(128, b"\0"),
        "fat-overlap": fat_table([(64, 64), (127, 1)]).ljust(128, b"\0"),
        "fat-cut": fat_table([(64, 64)])[:27],
        "no-magic": b"\xcf\xfa\xed\xff".ljust(64, b"\0"),
        "cut": lib[:27],
        "short-command": broken(little64, segment + 4, 7),
        "text-outside": broken(little64, segment + 8, 41),
        "counts-differ": broken(little64, 16, 7),
        "no": b"no",
        "nothing": b"",
    }


# ---- ELF

PT_LOAD, PT_DYNAMIC, PT_INTERP, PT_GNU_STACK = 1, 2, 3, 0x6474E551
SHT_PROGBITS, SHT_STRTAB, SHT_DYNAMIC = 1, 3, 6
SHF_WRITE, SHF_ALLOC = 1, 2
DT_NEEDED, DT_STRTAB, DT_STRSZ, DT_SONAME, DT_RPATH, DT_RUNPATH = 1, 5, 10, 14, 15, 29


class Class:
    """The widths of ELF records, 32 or 64 bits, and an order of bytes."""

    def __init__(self, bits, order):
        self.bits, self.order = bits, order
        self.word = "Q" if bits == 64 else "I"
        self.unit = bits // 8
        self.header, self.segment, self.section = (64, 56, 64) if bits == 64 else (52, 32, 40)

    def pack(self, fields, *values):
        return struct.pack(self.order + fields, *values)

    def segment_header(self, kind, flags, at, size, align):
        if self.bits == 64:
            return self.pack("IIQQQQQQ", kind, flags, at, at, at, size, size, align)
        return self.pack("IIIIIIII", kind, at, at, at, size, size, flags, align)

    def section_header(self, name, kind, flags, address, at, size, link, align, entry):
        numbers = (name, kind, flags, address, at, size, link, 0, align, entry)
        return self.pack("II" + 4 * self.word + "II" + 2 * self.word, *numbers)


def string_table(strings):
    """A table of NUL-ended strings, and where each begins."""
    table, places = b"\0", {}
    for text in strings:
        if text not in places:
            places[text] = len(table)
            table += text + b"\0"
    return table, places


def dynamic_list(form, entries, strings_at, strings, places):
    """The bytes of a dynamic list: entries with texts, and those of their table."""
    words = [(tag, places[text]) for tag, text in entries]
    words += [(DT_STRTAB, strings_at), (DT_STRSZ, len(strings)), (0, 0)]
    return b"".join(form.pack(2 * form.word, *pair) for pair in words)


def elf(form, entries=None, interpreter=None, stack=None, abi=0, kind=3):
    """A file of one loaded segment with the entries of a dynamic list, an interpreter, a stack's flags."""
    count = 1 + (entries is not None) + (interpreter is not None) + (stack is not None)
    parts = []  # name, kind, flags, bytes, alignment, link, entry size
    if interpreter is not None:
        parts.append((b".interp", SHT_PROGBITS, SHF_ALLOC, interpreter + b"\0", 1, 0, 0))
    at = form.header + count * form.segment + sum(len(part[3]) for part in parts)
    if entries is not None:
        strings, places = string_table([text for _, text in entries])
        number = len(parts) + 1
        parts.append((b".dynstr", SHT_STRTAB, SHF_ALLOC, strings, 1, 0, 0))
        listed = dynamic_list(form, entries, at, strings, places)
        flags = SHF_ALLOC | SHF_WRITE
        parts.append((b".dynamic", SHT_DYNAMIC, flags, listed, form.unit, number, 2 * form.unit))
    names, named = string_table([part[0] for part in parts] + [b".shstrtab"])
    parts.append((b".shstrtab", SHT_STRTAB, 0, names, 1, 0, 0))
    return laid(form, parts, named, (count, stack, abi, kind))


def small(form):
    """A library whose list has room for one entry more if another goes, and no room behind it."""
    strings = b"\0libc.so.6\0/a\0"
    entries = [(DT_NEEDED, 1), (DT_RUNPATH, 11), (DT_STRTAB, 176), (DT_STRSZ, len(strings)), (0, 0)]
    listed = b"".join(form.pack("QQ", *entry) for entry in entries)
    names, named = string_table([b".dynstr", b".dynamic", b".shstrtab"])
    identity = b"\x7fELF" + bytes([2, 1 if form.order == "<" else 2, 1, 0]) + bytes(8)
    data = identity + form.pack("HHIQQQIHHHHHH", 3, 62, 1, 0, 64, 352, 0, 64, 56, 2, 64, 4, 3)
    data += form.segment_header(PT_LOAD, 6, 0, 320, 4096)
    data += form.pack("IIQQQQQQ", PT_DYNAMIC, 6, 240, 240, 0, 80, 80, 8)
    data = data.ljust(240, b"\0")[:176] + strings.ljust(64, b"\0") + listed + names.ljust(32, b"\0")
    data += bytes(form.section)
    data += form.section_header(named[b".dynstr"], SHT_STRTAB, SHF_ALLOC, 176, 176, len(strings), 0, 1, 0)
    flags = SHF_ALLOC | SHF_WRITE
    data += form.section_header(named[b".dynamic"], SHT_DYNAMIC, flags, 240, 240, 80, 1, 8, 16)
    return data + form.section_header(named[b".shstrtab"], SHT_STRTAB, 0, 0, 320, len(names), 0, 1, 0)


def commented(form):
    """The same with a comment behind what is loaded, whose name is the last one."""
    data = bytearray(small(form))
    data[40:48] = form.pack("Q", 368)
    data[60:64] = form.pack("HH", 5, 4)
    names, named = string_table([b".dynstr", b".dynamic", b".shstrtab", b".comment"])
    headers = bytes(data[352:544])
    headers += form.section_header(named[b".comment"], SHT_PROGBITS, 0, 0, 320, 4, 0, 1, 0)
    headers += form.section_header(named[b".shstrtab"], SHT_STRTAB, 0, 0, 324, len(names), 0, 1, 0)
    return bytes(data[:320]) + (b"none" + names).ljust(48, b"\0") + headers


def laid(form, parts, named, rest):
    """The file's bytes: header, segment headers, the parts in turn, section headers."""
    count, stack, abi, kind = rest
    data = bytearray(form.header + count * form.segment)
    rows, segments = [bytes(form.section)], []
    loaded = len(data)
    for name, part, flags, content, align, link, entry in parts:
        data += bytes(-len(data) % align)
        at = len(data)
        data += content
        address = at if flags & SHF_ALLOC else 0
        if address:
            loaded = len(data)
        if name == b".interp":
            segments.append(form.segment_header(PT_INTERP, 4, at, len(content), 1))
        if name == b".dynamic":
            segments.append(form.segment_header(PT_DYNAMIC, 6, at, len(content), form.unit))
        rows.append(form.section_header(named[name], part, flags, address, at, len(content), link, align, entry))
    if stack is not None:
        segments.append(form.segment_header(PT_GNU_STACK, stack, 0, 0, 16))
    segments.insert(0, form.segment_header(PT_LOAD, 6, 0, loaded, 4096))
    data += bytes(-len(data) % form.unit)
    identity = b"\x7fELF" + bytes([form.bits // 32, 1 if form.order == "<" else 2, 1, abi]) + bytes(8)
    numbers = (kind, 62, 1, 0, form.header, len(data), 0, form.header, form.segment, len(segments))
    header = identity + form.pack("HHI" + 3 * form.word + "IHHH", *numbers)
    header += form.pack("HHH", form.section, len(rows), len(rows) - 1)
    data[: len(header) + count * form.segment] = header + b"".join(segments)
    return bytes(data) + b"".join(rows)


# An entry for each print, the run path in the order in which both tags stand, and equal names twice.
ENTRIES = [
    (DT_NEEDED, b"libm.so.6"),
    (DT_SONAME, b"libgreet.so.1"),
    (DT_RUNPATH, b"$ORIGIN/../lib:/opt/lib"),
    (DT_NEEDED, b"libc.so.6"),
    (DT_RPATH, b"/old"),
    (DT_NEEDED, b"libm.so.6"),
]


def shrinking(last=b"/nowhere/b"):
    """A library that is nowhere, and two run paths, of whose directories some begin with a slash."""
    path = b"/nowhere/a:$ORIGIN/x:" + last
    return [(DT_NEEDED, b"libgone.so"), (DT_RUNPATH, path), (DT_RPATH, b"/nowhere::y")]


def unlisted(form):
    """A program with no segments, whose one section is a table of names, empty, behind the section headers."""
    data = b"\x7fELF" + bytes([2, 1, 1, 3]) + bytes(8)
    data += form.pack("HHIQQQIHHHHHH", 2, 62, 1, 0, 0, 64, 0, 64, 56, 0, 64, 2, 1)
    return data + bytes(form.section) + form.section_header(0, SHT_STRTAB, 0, 0, 192, 1, 0, 1, 0) + b"\0"


def altered(data, kind, field, by):
    """A file of 64 bits, the lowest byte first, with a number of the program header of a kind made greater."""
    made = bytearray(data)
    for at in range(64, 64 + 56 * data[56], 56):
        if data[at] == kind and data[at + 1 : at + 4] == b"\0\0\0":
            made[at + field] += by
    return bytes(made)


def elfs():
    """The ELF files, by name."""
    little64, big64, little32, big32 = Class(64, "<"), Class(64, ">"), Class(32, "<"), Class(32, ">")
    full = elf(little64, ENTRIES, b"/lib64/ld-linux-x86-64.so.2", 6, 3)
    damaged = bytearray(full)
    damaged[64 + 40] -= 1  # the memory of the first segment, one byte less than its file part
    return {
        "elf-64-little": full,
        "elf-64-big": elf(big64, ENTRIES, b"/lib/ld64.so.1", 7, 9),
        "elf-32-little": elf(little32, ENTRIES, b"/lib/ld-linux.so.2", 7, 0),
        "elf-32-big": elf(big32, ENTRIES, b"/lib/ld.so.1", 6, 255),
        "elf-old-path": elf(little64, [(DT_RPATH, b"/a"), (DT_RUNPATH, b"/b")]),
        "elf-lossy": elf(big32, [(DT_NEEDED, b"lib\xff.so"), (DT_SONAME, b"")]),
        "elf-bare": elf(little64),
        "elf-small": small(little64),
        "elf-no-list": unlisted(little64),
        "elf-comment": commented(little64),
        "paths-64-little": elf(little64, shrinking()),
        "paths-64-big": elf(big64, shrinking()),
        "paths-32-little": elf(little32, shrinking()),
        "paths-32-big": elf(big32, shrinking(b"/nowhere/\xff")),
        "elf-cut": full[:-1],
        "elf-damaged": bytes(damaged),
        "elf-object": elf(little64, kind=1),
        "elf-core": elf(little64, kind=4),
        "elf-loader": elf(little64, [(DT_SONAME, b"ld-tiny.so.1"), (DT_RUNPATH, b"/opt/lib"), (DT_NEEDED, b"libc.so.6")]),
        "elf-read-only": altered(small(little64), PT_LOAD, 4, -2),
        "elf-loose-headers": loose(little64),
        "elf-trailing": small(little64) + b"payload",
        "elf-bad-class": b"\x7fELF\x03" + full[5:],
        "elf-bad-text": full.replace(b"/old\0", b"/old!"),
        "elf-moved-list": altered(full, 2, 16, 8),
        "elf-short-interpreter": altered(full, 3, 32, -1),
        "elf-no-strtab": full.replace(struct.pack("<Q", DT_STRTAB), struct.pack("<Q", DT_STRSZ), 1),
    }


def loose(form):
    """A fixed program whose loaded segment begins behind the program header table, in the same page."""
    parts = [(b".text", SHT_PROGBITS, SHF_ALLOC, bytes(16), 16, 0, 0)]
    names, named = string_table([b".text", b".shstrtab"])
    parts.append((b".shstrtab", SHT_STRTAB, 0, names, 1, 0, 0))
    made = laid(form, parts, named, (1, None, 0, 2))
    for field, by in ((8, 128), (16, 128), (32, -128), (40, -128)):
        made = altered(made, PT_LOAD, field, by)
    return made


def others():
    """Files that are neither, by name."""
    member = b"%-16s%-12d%-6d%-6d%-8s%-10d`\n" % (b"none/", 0, 0, 0, b"644", 0)
    return {
        "script": b"#!/bin/sh\necho neither a program nor a library\n",
        "text": b"Neither a program nor a library.\n",
        "archive": b"!<arch>\n" + member,
    }


def main():
    folder = sys.argv[1] if len(sys.argv) > 1 else os.path.join(HERE, "data")
    for name, data in {**machos(), **elfs(), **others()}.items():
        with open(os.path.join(folder, name), "wb") as out:
            out.write(data)


if __name__ == "__main__":
    main()
