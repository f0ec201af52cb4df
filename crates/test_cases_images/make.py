#!/usr/bin/env python3
"""Makes the small ELF files that the cases of files are run on.

    python3 crates/test_cases_images/make.py [FOLDER]

The files are written into FOLDER, or into the folder `data` of the program `test_cases`. The records are those of the
System V gABI and of GNU's symbol versions. `elf-linked` is made by gcc and GNU ld, of which versions 12.2 and 2.40 made the
file that stands there; Python's standard library is enough for the others.
"""

import os
import struct
import subprocess
import sys
import tempfile

HERE = os.path.dirname(os.path.abspath(__file__))

ET_EXEC, ET_DYN = 2, 3
EM_SPARC, EM_X86_64 = 2, 62

PT_LOAD, PT_DYNAMIC, PT_INTERP, PT_NOTE, PT_PHDR, PT_GNU_STACK = 1, 2, 3, 4, 6, 0x6474E551

SHT_PROGBITS, SHT_SYMTAB, SHT_STRTAB, SHT_HASH, SHT_DYNAMIC, SHT_NOTE, SHT_NOBITS, SHT_REL, SHT_DYNSYM = 1, 2, 3, 5, 6, 7, 8, 9, 11
SHT_RELA = 4
SHT_GNU_HASH, SHT_GNU_VERDEF, SHT_GNU_VERNEED, SHT_GNU_VERSYM = 0x6FFFFFF6, 0x6FFFFFFD, 0x6FFFFFFE, 0x6FFFFFFF

WRITE, ALLOC, EXEC, TLS = 1, 2, 4, 0x400

DT_NEEDED, DT_HASH, DT_STRTAB, DT_SYMTAB, DT_STRSZ, DT_SYMENT, DT_SONAME, DT_DEBUG, DT_RUNPATH = 1, 4, 5, 6, 10, 11, 14, 21, 29
DT_RELA, DT_RELASZ, DT_RELAENT = 7, 8, 9
DT_GNU_HASH, DT_VERSYM, DT_VERDEF, DT_VERDEFNUM, DT_VERNEED, DT_VERNEEDNUM = 0x6FFFFEF5, 0x6FFFFFF0, 0x6FFFFFFC, 0x6FFFFFFD, 0x6FFFFFFE, 0x6FFFFFFF


class Form:
    """The widths of records, 32 or 64 bits, and an order of bytes, `<` or `>`."""

    def __init__(self, bits, order):
        self.bits, self.order = bits, order
        self.word = "Q" if bits == 64 else "I"
        self.sizes = (64, 56, 64) if bits == 64 else (52, 32, 40)

    def pack(self, fields, *values):
        return struct.pack(self.order + fields.replace("w", self.word), *values)

    def words(self, *values):
        return self.pack("%dI" % len(values), *values)

    def dynamic(self, *entries):
        """A dynamic list, with a DT_NULL behind it."""
        return b"".join(self.pack("ww", *entry) for entry in entries + ((0, 0),))

    def segment(self, kind, flags, offset, address, physical, file_size, size, align):
        """A program header."""
        places = (offset, address, physical, file_size, size)
        if self.bits == 64:
            return self.pack("IIQQQQQQ", kind, flags, *places, align)
        return self.pack("IIIIIIII", kind, *places, flags, align)


def place(data, at, part):
    """Puts bytes at an offset of a file, zeros before them where it is shorter."""
    data.extend(bytes(max(0, at + len(part) - len(data))))
    data[at : at + len(part)] = part


def elf(form, segments, sections, table_at, kind=ET_DYN, machine=EM_X86_64, abi=0):
    """A file. A section is its name, type, flags, address, offset, bytes or size, link, info, alignment and entry size; the
    last one is that of the names, whose bytes are made. The section headers stand at `table_at`."""
    header_size, segment_size, section_size = form.sizes
    names = b"\0" + b"".join(section[0] + b"\0" for section in sections)
    data = bytearray()
    rows = [bytes(section_size)]
    at_name = 1
    for name, of_type, flags, address, at, body, link, info, align, entry in sections:
        body = names if name == b".shstrtab" else body
        size = body if isinstance(body, int) else len(body)
        if not isinstance(body, int):
            place(data, at, body)
        rows.append(form.pack("IIwwwwIIww", at_name, of_type, flags, address, at, size, link, info, align, entry))
        at_name += len(name) + 1
    identity = b"\x7fELF" + bytes([form.bits // 32, 1 if form.order == "<" else 2, 1, abi]) + bytes(8)
    counts = (header_size, segment_size, len(segments), section_size, len(rows), len(rows) - 1)
    place(data, 0, identity + form.pack("HHIwwwIHHHHHH", kind, machine, 1, 0, header_size, table_at, 0, *counts))
    place(data, header_size, b"".join(form.segment(*segment) for segment in segments))
    place(data, table_at, b"".join(rows))
    return bytes(data)


def names(at):
    """The section of names, at an offset."""
    return (b".shstrtab", SHT_STRTAB, 0, 0, at, b"", 0, 0, 1, 0)


def twin():
    """A library that needs `libc.so.6` and has the run path `/a`."""
    form = Form(32, ">")
    strings = b"\0libc.so.6\0/a\0"
    listed = form.dynamic((DT_NEEDED, 1), (DT_RUNPATH, 11), (DT_STRTAB, 120), (DT_STRSZ, len(strings)))
    segments = [(PT_LOAD, 6, 0, 0, 0, 176, 176, 4096), (PT_DYNAMIC, 6, 136, 136, 0, 40, 40, 8)]
    sections = [
        (b".dynstr", SHT_STRTAB, ALLOC, 120, 120, strings, 0, 0, 1, 0),
        (b".dynamic", SHT_DYNAMIC, WRITE | ALLOC, 136, 136, listed, 1, 0, 8, 8),
        names(176),
    ]
    return elf(form, segments, sections, 204)


def program():
    """A program with the interpreter `/ld` and a stack that may be run."""
    base = 0x10000
    segments = [
        (PT_LOAD, 5, 0, base, base, 152, 152, 0x2000),
        (PT_INTERP, 4, 148, base + 148, base + 148, 4, 4, 1),
        (PT_GNU_STACK, 7, 0, 0, 0, 0, 0, 16),
    ]
    sections = [(b".interp", SHT_PROGBITS, ALLOC, base + 148, 148, b"/ld\0", 0, 0, 1, 0), names(152)]
    return elf(Form(32, ">"), segments, sections, 172, ET_EXEC, EM_SPARC, 6)


def roomy(data_at=288):
    """A library with an interpreter of 28 bytes right behind its two program headers, and data behind a gap."""
    interpreter = b"/prefix/lib/ld-for-tests.so\0"
    segments = [(PT_LOAD, 6, 0, 0, 0, 320, 320, 4096), (PT_INTERP, 4, 176, 176, 176, 28, 28, 1)]
    sections = [
        (b".interp", SHT_PROGBITS, ALLOC, 176, 176, interpreter, 0, 0, 1, 0),
        (b".data", SHT_PROGBITS, WRITE | ALLOC, data_at, data_at, b"D" * 32, 0, 0, 1, 0),
        names(320),
    ]
    return elf(Form(64, "<"), segments, sections, 352)


def tight():
    """The same with the data where a program header less has room."""
    return roomy(280)


def no_texts():
    """A library whose list has no texts, and two entries that are free; the table of texts is empty, at the end of memory."""
    form = Form(64, "<")
    listed = form.dynamic((DT_DEBUG, 0), (DT_STRTAB, 320), (DT_STRSZ, 0)) + form.dynamic()
    segments = [(PT_LOAD, 6, 0, 0, 0, 320, 320, 4096), (PT_DYNAMIC, 6, 240, 240, 0, 80, 80, 8)]
    sections = [
        (b".dynstr", SHT_STRTAB, ALLOC, 320, 320, b"", 0, 0, 1, 0),
        (b".dynamic", SHT_DYNAMIC, WRITE | ALLOC, 240, 240, listed, 1, 0, 8, 16),
        names(320),
    ]
    return elf(form, segments, sections, 352)


def behind():
    """A library that takes more memory than its file loads, so that what is added to the file stands behind both."""
    form = Form(64, "<")
    low, size, end = 0x400000, 0x1200, 0x401200
    strings = b"\0libc.so.6\0/a\0"
    listed = form.dynamic((DT_NEEDED, 1), (DT_RUNPATH, 11), (DT_STRTAB, low + 176), (DT_STRSZ, len(strings)))
    segments = [(PT_LOAD, 6, 0, low, low, size, size + 0x100, 4096), (PT_DYNAMIC, 6, 240, low + 240, low + 240, 80, 80, 8)]
    sections = [
        (b".dynstr", SHT_STRTAB, ALLOC, low + 176, 176, strings, 0, 0, 1, 0),
        (b".dynamic", SHT_DYNAMIC, WRITE | ALLOC, low + 240, 240, listed, 1, 0, 8, 16),
        (b".bss", SHT_NOBITS, WRITE | ALLOC, end, size, 0x100, 0, 0, 8, 0),
        names(size),
    ]
    return elf(form, segments, sections, 0x1228)


def full():
    """A library with data right behind its dynamic list."""
    form = Form(64, "<")
    strings = b"\0libc.so.6\0"
    listed = form.dynamic((DT_NEEDED, 1), (DT_STRTAB, 176), (DT_STRSZ, len(strings)))
    segments = [(PT_LOAD, 6, 0, 0, 0, 272, 272, 4096), (PT_DYNAMIC, 6, 192, 192, 192, 64, 64, 1)]
    sections = [
        (b".dynstr", SHT_STRTAB, ALLOC, 176, 176, strings, 0, 0, 1, 0),
        (b".dynamic", SHT_DYNAMIC, WRITE | ALLOC, 192, 192, listed, 1, 0, 8, 16),
        (b".data", SHT_PROGBITS, WRITE | ALLOC, 256, 256, b"D" * 16, 0, 0, 1, 0),
        names(272),
    ]
    return elf(form, segments, sections, 312)


def elf_hash(name):
    """The hash of versions' names (gABI, Hash Table)."""
    value = 0
    for byte in name:
        value = (value << 4) + byte
        high = value & 0xF0000000
        value = (value ^ high >> 24) & ~high & 0xFFFFFFFF
    return value


def gnu_hash(name):
    """The hash of symbols' names in GNU's table."""
    value = 5381
    for byte in name:
        value = (value * 33 + byte) & 0xFFFFFFFF
    return value


# The texts of the library with versions, and where each begins.
TEXTS = b"\0libc.so\0f\0g\0/a\0me.so\0V1\0V2\0L1\0"


def text_at(text):
    return TEXTS.index(b"\0" + text + b"\0") + 1


def symbols(form, *rows):
    """A table of symbols: the place of a name, info, section, value and size of each, behind the null symbol."""
    packed = (form.pack("IIIBBH", name, value, size, info, 0, section) for name, info, section, value, size in rows)
    return bytes(16) + b"".join(packed)


def gnu_table(form):
    """GNU's hash table of `f`, the third symbol: one bucket, one word of the filter, which is shifted by six."""
    value = gnu_hash(b"f")
    bloom = 1 << value % 32 | 1 << (value >> 6) % 32
    return form.words(1, 2, 1, 6, bloom, 2, value | 1)


def definitions(form):
    """The library's own name, and the version `V2` that comes after `V1`."""
    own = form.pack("HHHHIII", 1, 1, 1, 1, elf_hash(b"me.so"), 20, 28) + form.words(text_at(b"me.so"), 0)
    version = form.pack("HHHHIII", 1, 0, 2, 2, elf_hash(b"V2"), 20, 0)
    return own + version + form.words(text_at(b"V2"), 8, text_at(b"V1"), 0)


def needs(form):
    """The version `L1` of `libc.so`."""
    library = form.pack("HHIII", 1, 1, text_at(b"libc.so"), 16, 0)
    return library + form.pack("IHHII", elf_hash(b"L1"), 0, 3, text_at(b"L1"), 0)


def versioned():
    """A library with an interpreter, three symbols, versions, a relocation, and symbols for a link editor."""
    form = Form(32, ">")
    low, high = 0x10000, 0x11000
    listed = form.dynamic(
        (DT_NEEDED, text_at(b"libc.so")),
        (DT_SONAME, text_at(b"me.so")),
        (DT_RUNPATH, text_at(b"/a")),
        (DT_STRTAB, low + 388),
        (DT_SYMTAB, low + 340),
        (DT_STRSZ, len(TEXTS)),
        (DT_SYMENT, 16),
        (DT_DEBUG, 0),
        (DT_HASH, low + 284),
        (DT_GNU_HASH, low + 312),
        (DT_VERSYM, low + 420),
        (DT_VERDEF, low + 428),
        (DT_VERDEFNUM, 2),
        (DT_VERNEED, low + 492),
        (DT_VERNEEDNUM, 1),
    ) + form.dynamic()
    segments = [
        (PT_PHDR, 4, 52, low + 52, low + 52, 224, 224, 1),
        (PT_INTERP, 4, 276, low + 276, low + 276, 4, 4, 1),
        (PT_LOAD, 5, 0, low, low, 544, 544, 4096),
        (PT_LOAD, 6, 544, high + 544, high + 544, 136, 168, 4096),
        (PT_DYNAMIC, 6, 544, high + 544, high + 544, 136, 136, 1),
        (PT_NOTE, 4, 280, low + 280, low + 280, 4, 4, 1),
        (PT_GNU_STACK, 6, 0, 0, 0, 0, 0, 1),
    ]
    listed_symbols = symbols(form, (text_at(b"g"), 18, 0, 0, 0), (text_at(b"f"), 18, 11, 16, 4))
    sections = [
        (b".interp", SHT_PROGBITS, ALLOC, low + 276, 276, b"/ld\0", 0, 0, 1, 0),
        (b".note", SHT_NOTE, ALLOC, low + 280, 280, bytes([1, 2, 3, 4]), 0, 0, 4, 0),
        (b".hash", SHT_HASH, ALLOC, low + 284, 284, form.words(2, 3, 2, 0, 0, 0, 0), 5, 0, 4, 0),
        (b".gnu.hash", SHT_GNU_HASH, ALLOC, low + 312, 312, gnu_table(form), 5, 0, 4, 0),
        (b".dynsym", SHT_DYNSYM, ALLOC, low + 340, 340, listed_symbols, 6, 1, 4, 16),
        (b".dynstr", SHT_STRTAB, ALLOC, low + 388, 388, TEXTS, 0, 0, 1, 0),
        (b".gnu.version", SHT_GNU_VERSYM, ALLOC, low + 420, 420, form.pack("HHH", 0, 3, 0x8002), 5, 0, 2, 0),
        (b".gnu.version_d", SHT_GNU_VERDEF, ALLOC, low + 428, 428, definitions(form), 6, 2, 4, 0),
        (b".gnu.version_r", SHT_GNU_VERNEED, ALLOC, low + 492, 492, needs(form), 6, 1, 4, 0),
        (b".rel.dyn", SHT_REL, ALLOC, low + 524, 524, form.words(0x100, 0x207), 5, 0, 4, 8),
        (b".text", SHT_PROGBITS, ALLOC | EXEC, low + 536, 536, b"\x90" * 8, 0, 0, 8, 0),
        (b".dynamic", SHT_DYNAMIC, WRITE | ALLOC, high + 544, 544, listed, 6, 0, 4, 8),
        (b".tbss", SHT_NOBITS, WRITE | ALLOC | TLS, high + 680, 680, 64, 0, 0, 8, 0),
        (b".bss", SHT_NOBITS, WRITE | ALLOC, high + 680, 680, 32, 0, 0, 8, 0),
        (b".comment", SHT_PROGBITS, 0, 0, 680, b"hi\0", 0, 0, 1, 0),
        (b".symtab", SHT_SYMTAB, 0, 0, 684, symbols(form, (1, 2, 11, 16, 4)), 17, 1, 4, 16),
        (b".strtab", SHT_STRTAB, 0, 0, 716, b"\0ff\0", 0, 0, 1, 0),
        names(720),
    ]
    return elf(form, segments, sections, 880)


# Where the parts of the libraries of two symbols stand.
HASH_AT, GNU_AT, SYMBOLS_AT, STRINGS_AT, MARKS_AT, NEEDS_AT, RELOCATION_AT, DATA_AT, LIST_AT = 176, 208, 256, 328, 400, 416, 480, 504, 512
NAMES_AT = 720


def two_symbols(names_of_symbols, sections, entries, texts):
    """A library of 64 bits with two symbols behind the null symbol, and a relocation on the second one. The first symbol is that
    at 504, the second that at 508; one that has no section isn't defined."""
    form = Form(64, "<")
    strings = b"\0" + b"".join(text + b"\0" for text in texts)
    at = lambda text: strings.index(b"\0" + text + b"\0") + 1
    listed = bytes(24)
    for name, value in zip(names_of_symbols, (DATA_AT, DATA_AT + 4)):
        section, value = (0, 0) if name == b"exit" else (len(sections) + 4, value)
        listed += form.pack("IBBHQQ", at(name), 0x11 if section else 0x12, 0, section, value, 4 if section else 0)
    number = len(sections) + 1  # of the symbols
    links = {SHT_HASH: number, SHT_GNU_HASH: number, SHT_GNU_VERSYM: number, SHT_GNU_VERNEED: number + 1}
    infos = {SHT_GNU_VERNEED: 1}
    rows = [(name, kind, ALLOC, place, place, body, links[kind], infos.get(kind, 0), 8, size) for name, kind, place, body, size in sections]
    table = [(DT_STRTAB, STRINGS_AT), (DT_SYMTAB, SYMBOLS_AT), (DT_STRSZ, len(strings)), (DT_SYMENT, 24)]
    table += [(DT_RELA, RELOCATION_AT), (DT_RELASZ, 24), (DT_RELAENT, 24)]
    moves = form.pack("QQq", DATA_AT, 2 << 32 | 1, 0)
    rows += [
        (b".dynsym", SHT_DYNSYM, ALLOC, SYMBOLS_AT, SYMBOLS_AT, listed, number + 1, 1, 8, 24),
        (b".dynstr", SHT_STRTAB, ALLOC, STRINGS_AT, STRINGS_AT, strings, 0, 0, 1, 0),
        (b".rela.dyn", SHT_RELA, ALLOC, RELOCATION_AT, RELOCATION_AT, moves, number, 0, 8, 24),
        (b".data", SHT_PROGBITS, WRITE | ALLOC, DATA_AT, DATA_AT, bytes(8), 0, 0, 8, 0),
        (b".dynamic", SHT_DYNAMIC, WRITE | ALLOC, LIST_AT, LIST_AT, form.dynamic(*entries, *table), number + 1, 0, 8, 16),
        names(NAMES_AT),
    ]
    size = 16 * (len(entries) + len(table) + 1)
    segments = [(PT_LOAD, 6, 0, 0, 0, NAMES_AT, NAMES_AT, 4096), (PT_DYNAMIC, 6, LIST_AT, LIST_AT, LIST_AT, size, size, 8)]
    size_of_names = 1 + sum(len(row[0]) + 1 for row in rows)
    return elf(form, segments, rows, NAMES_AT + size_of_names + -size_of_names % 8)


def named_by_tables(*tables):
    """A library that defines `g` and `f`, with these of the two hash tables, each of two buckets. No table names a symbol yet."""
    form = Form(64, "<")
    gabi = (b".hash", SHT_HASH, HASH_AT, form.words(2, 3, 0, 0, 0, 0, 0), 4)
    gnu = (b".gnu.hash", SHT_GNU_HASH, GNU_AT, form.words(2, 1, 1, 6, 0, 0, 0, 0, 0, 0), 0)
    all_of = {"gabi": (gabi, (DT_HASH, HASH_AT)), "gnu": (gnu, (DT_GNU_HASH, GNU_AT))}
    sections, entries = zip(*(all_of[table] for table in tables))
    return two_symbols((b"g", b"f"), sections, entries, (b"f", b"g"))


def needing(*versions):
    """A library that defines `f` and needs `exit`, of the first of these versions of `libc.so.6`; of the others there is no symbol."""
    form = Form(64, "<")
    texts = (b"exit", b"f", b"/a", *versions[1:], b"libc.so.6", versions[0])
    strings = b"\0" + b"".join(text + b"\0" for text in texts)
    at = lambda text: strings.index(b"\0" + text + b"\0") + 1
    record = form.pack("HHIII", 1, len(versions), at(b"libc.so.6"), 16, 0)
    for number, version in enumerate(versions):
        after = 16 if number + 1 < len(versions) else 0
        record += form.pack("IHHII", elf_hash(version), 0, 2 + number, at(version), after)
    sections = [
        (b".hash", SHT_HASH, HASH_AT, form.words(2, 3, 2, 1, 0, 0, 0), 4),
        (b".gnu.version", SHT_GNU_VERSYM, MARKS_AT, form.pack("HHH", 0, 2, 1), 2),
        (b".gnu.version_r", SHT_GNU_VERNEED, NEEDS_AT, record, 0),
    ]
    entries = [(DT_RUNPATH, at(b"/a")), (DT_HASH, HASH_AT), (DT_VERSYM, MARKS_AT), (DT_VERNEED, NEEDS_AT), (DT_VERNEEDNUM, 1)]
    return two_symbols((b"exit", b"f"), sections, entries, texts)


# A library that defines `twice` in two versions and `calls`, which calls `other` of a second library.
TWICE = """\
extern int other(int n);
int more;
int sum;
int twice_new(int n) { return n + n; }
int twice_old(int n) { return n + n; }
__asm__(".symver twice_old, twice@V1");
__asm__(".symver twice_new, twice@@@V2");
int calls(int n) { return other(n) + sum; }
"""
TWICE_VERSIONS = "V1 { global: twice; };\nV2 { global: twice; calls; local: *; } V1;\n"
OTHER = "int other(int n) { return n; }\n"
OTHER_VERSIONS = "O1 { global: other; };\n"

SHARED = ["gcc", "-shared", "-fPIC", "-nostdlib", "-Os", "-fno-asynchronous-unwind-tables"]
TABLES = ["-Wl,--hash-style=both", "-Wl,-z,noseparate-code", "-Wl,-z,norelro", "-Wl,-z,max-page-size=64", "-Wl,--build-id=none"]


def linked():
    """A library made by GNU ld, with both hash tables, two versions of its own and one needed."""
    with tempfile.TemporaryDirectory() as folder:

        def write(name, text):
            with open(os.path.join(folder, name), "w") as file:
                file.write(text)

        def link(library, source, versions, *words):
            write("lib.c", source)
            write("lib.map", versions)
            options = ["-Wl,--version-script=lib.map", "-Wl,-soname," + library, "-o", library]
            subprocess.run([*SHARED, *options, "lib.c", *words], cwd=folder, check=True)

        link("libother.so", OTHER, OTHER_VERSIONS)
        link("libtwice.so", TWICE, TWICE_VERSIONS, *TABLES, "-Wl,-rpath,/opt/lib", "-Wl,-s", "-L.", "-lother")
        with open(os.path.join(folder, "libtwice.so"), "rb") as file:
            return file.read()


FILES = {
    "elf-twin": twin,
    "elf-program": program,
    "elf-roomy": roomy,
    "elf-tight": tight,
    "elf-no-texts": no_texts,
    "elf-behind": behind,
    "elf-full": full,
    "elf-versioned": versioned,
    "symbols-both": lambda: named_by_tables("gabi", "gnu"),
    "symbols-gnu": lambda: named_by_tables("gnu"),
    "symbols-gabi": lambda: named_by_tables("gabi"),
    "needs-two": lambda: needing(b"GLIBC_2.2.5", b"GLIBC_ABI_DT_RELR"),
    "needs-one": lambda: needing(b"GLIBC_2.2.5"),
    "elf-linked": linked,
}


def main():
    folder = sys.argv[1] if len(sys.argv) > 1 else os.path.join(HERE, "..", "test_cases", "data")
    for name, make in FILES.items():
        with open(os.path.join(folder, name), "wb") as file:
            file.write(make())


if __name__ == "__main__":
    main()
