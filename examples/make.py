#!/usr/bin/env python3
"""Makes the small files of this folder: Mach-O files in every form of header, and two ELF files.

    python3 examples/make.py [FOLDER]           the Mach-O files
    python3 examples/make.py --elf [FOLDER]     the ELF files

The files are written into FOLDER, or into the folder of this script. For Mach-O files Python's standard library is
enough; the records are those of Apple's mach-o/loader.h and mach-o/fat.h. For ELF files gcc and GNU ld have to be there,
on Linux for x86-64.
"""

import os
import struct
import subprocess
import sys

# Kinds of file and flags of the header.
MH_EXECUTE, MH_DYLIB = 0x2, 0x6
MH_FLAGS = 0x85  # no undefined symbols, loaded by the dynamic linker, two-level names

# Processors: type and model.
X86_64 = (0x01000007, 3)
ARM64 = (0x0100000C, 0)
POWERPC64 = (0x01000012, 0)
I386 = (7, 3)
POWERPC = (18, 0)

# Kinds of load commands.
LC_SEGMENT, LC_SYMTAB, LC_LOAD_DYLIB, LC_ID_DYLIB, LC_SEGMENT_64 = 0x1, 0x2, 0xC, 0xD, 0x19
LC_RPATH = 0x8000001C

SYSTEM_LIBRARY = b"/usr/lib/libSystem.B.dylib"

# Where the link data begins in every file, and where code begins in those that have room.
LINK_DATA_AT = 2048
CODE_AT = 1024
CODE = bytes(range(16))


class Form:
    """A width of words, in bits, and an order of bytes: `<` the lowest first, `>` the highest first."""

    def __init__(self, bits, order):
        self.bits = bits
        self.order = order
        self.word = "Q" if bits == 64 else "I"
        self.word_size = bits // 8
        self.header_size = 32 if bits == 64 else 28

    def pack(self, fields, *values):
        return struct.pack(self.order + fields, *values)


def padded(data, unit):
    """The bytes with zeros behind them up to a multiple of the unit."""
    return data + bytes(-len(data) % unit)


def name16(name):
    return name.ljust(16, b"\0")


def text_command(form, cmd, fixed, text):
    """A command with a text: the kind, the size, where the text begins, other fields, and the text."""
    at = 12 + len(fixed)
    body = padded(fixed + text + b"\0", 4)
    size = len(padded(bytes(12 + len(body)), form.word_size))
    return form.pack("III", cmd, size, at) + body.ljust(size - 12, b"\0")


def rpath(form, text):
    return text_command(form, LC_RPATH, b"", text)


def dylib(form, cmd, name, current=0x10203, compatibility=0x10000):
    """A library command: the time stamp and the two versions stand before the name."""
    return text_command(form, cmd, form.pack("III", 2, current, compatibility), name)


def section(form, name, segment_name, address, size, offset):
    """A section of code, whose bytes stand at the offset."""
    fields = (name16(name), name16(segment_name), address, size, offset, 4, 0, 0, 0x80000400, 0, 0)
    record = form.pack("16s16s" + 2 * form.word + "IIIIIII", *fields)
    return record + bytes(4) if form.bits == 64 else record


def segment(form, name, address, size, offset, file_size, protection, sections=()):
    """A segment with its sections."""
    cmd, fixed = (LC_SEGMENT_64, 72) if form.bits == 64 else (LC_SEGMENT, 56)
    body = b"".join(sections)
    fields = (cmd, fixed + len(body), name16(name), address, size, offset, file_size)
    counts = (protection, protection, len(sections), 0)
    return form.pack("II16s" + 4 * form.word + "IIII", *fields, *counts) + body


def symbol_table(form, offset, symbol, address):
    """The command of a table of one symbol, and the bytes of the table and of its strings."""
    entry = form.pack("IBBH" + form.word, 1, 0x0F, 1, 0, address)
    strings = padded(b"\0" + symbol + b"\0", form.word_size)
    command = form.pack("IIIIII", LC_SYMTAB, 24, offset, 1, offset + len(entry), len(strings))
    return command, entry + strings


def thin(form, processor, kind, texts, code_at=CODE_AT):
    """A file of a text segment, a segment of link data, and these commands with texts.

    The code begins at `code_at`, or right behind the load commands where that is None.
    """
    base = 0x1000 if form.bits == 32 else 0x100000000
    if kind == MH_DYLIB:
        base = 0
    symbol = b"_main" if kind == MH_EXECUTE else b"_greet"

    def commands_for(offset):
        code = section(form, b"__text", b"__TEXT", base + offset, len(CODE), offset)
        table, link_data = symbol_table(form, LINK_DATA_AT, symbol, base + offset)
        commands = []
        if kind == MH_EXECUTE:
            commands.append(segment(form, b"__PAGEZERO", 0, base, 0, 0, 0))
        commands.append(segment(form, b"__TEXT", base, 0x1000, 0, LINK_DATA_AT, 5, [code]))
        end = (base + 0x1000, 0x1000, LINK_DATA_AT, len(link_data), 1)
        commands.append(segment(form, b"__LINKEDIT", *end))
        return commands + [table] + texts, link_data

    size = len(b"".join(commands_for(CODE_AT)[0]))
    offset = form.header_size + size if code_at is None else code_at
    commands, link_data = commands_for(offset)
    magic = 0xFEEDFACF if form.bits == 64 else 0xFEEDFACE
    header = form.pack("IIIIIII", magic, *processor, kind, len(commands), size, MH_FLAGS)
    front = header.ljust(form.header_size, b"\0") + b"".join(commands)
    return (front.ljust(offset, b"\0") + CODE).ljust(LINK_DATA_AT, b"\0") + link_data


def hello(form, processor, code_at=CODE_AT):
    """A program that loads the system's library."""
    return thin(form, processor, MH_EXECUTE, [dylib(form, LC_LOAD_DYLIB, SYSTEM_LIBRARY)], code_at)


def library(form, processor):
    """A library with a name of its own, one that it loads, and a run path."""
    texts = [
        dylib(form, LC_ID_DYLIB, b"@rpath/libgreet.dylib"),
        dylib(form, LC_LOAD_DYLIB, SYSTEM_LIBRARY),
        rpath(form, b"@loader_path/../lib"),
    ]
    return thin(form, processor, MH_DYLIB, texts)


def fat(slices, power):
    """A fat file of pairs of a processor and its bytes, each at a multiple of 2 to this power."""
    table = struct.pack(">II", 0xCAFEBABE, len(slices))
    offset = len(table) + 20 * len(slices)
    placed = []
    for processor, data in slices:
        offset += -offset % (1 << power)
        table += struct.pack(">IIIII", *processor, offset, len(data), power)
        placed.append((offset, data))
        offset += len(data)
    out = bytearray(table)
    for at, data in placed:
        out += bytes(at - len(out)) + data
    return bytes(out)


def files():
    """The files of this folder, by name."""
    little64 = Form(64, "<")
    return {
        "hello": hello(little64, X86_64),
        "hello-ppc64": hello(Form(64, ">"), POWERPC64),
        "hello-i386": hello(Form(32, "<"), I386),
        "hello-ppc": hello(Form(32, ">"), POWERPC),
        "hello-full": hello(little64, X86_64, code_at=None),
        "hello-fat": fat([(X86_64, hello(little64, X86_64)), (ARM64, hello(little64, ARM64))], 10),
        "libgreet.dylib": library(little64, ARM64),
    }


# A program and the library that it needs, as C.
GREET = "void greet(void);\nint main(void) { greet(); return 0; }\n"
LIBGREET = "#include <stdio.h>\nvoid greet(void) { puts(\"Hello from libgreet.so\"); }\n"


def compile_elf(source, out, *options):
    """Compiles C to a small file without symbols that nothing needs."""
    words = ["gcc", "-O2", "-s", "-Wl,-z,noseparate-code", "-o", out, "-x", "c", "-", "-x", "none", *options]
    subprocess.run(words, input=source.encode(), check=True)


def make_elf(folder):
    """A library with a name of its own, and a program that needs it and has no run path."""
    library = os.path.join(folder, "libgreet.so")
    compile_elf(LIBGREET, library, "-fPIC", "-shared", "-Wl,-soname,libgreet.so")
    compile_elf(GREET, os.path.join(folder, "greet"), library)


def main():
    words = sys.argv[1:]
    is_elf = words[:1] == ["--elf"]
    words = words[is_elf:]
    if len(words) > 1 or any(word.startswith("-") for word in words):
        print(__doc__)
        return 0 if words in (["-h"], ["--help"]) else 2
    folder = words[0] if words else os.path.dirname(os.path.abspath(__file__))
    if is_elf:
        make_elf(folder)
        return 0
    for name, data in files().items():
        with open(os.path.join(folder, name), "wb") as out:
            out.write(data)
    return 0


if __name__ == "__main__":
    sys.exit(main())
