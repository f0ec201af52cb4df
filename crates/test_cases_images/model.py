#!/usr/bin/env python3
"""Says what the program `test_cases` has to print of the files of lines in `data/images`, by a model of its own.

    python3 crates/test_cases_images/model.py [FOLDER]

FOLDER is the folder `data` of the program. The model reads ELF files by their section headers, as the System V gABI and
GNU's symbol versions say, and shares nothing with the program. Which read rule a file breaks, and at which positions a
written file has other bytes, stands here, by hand. Python's standard library is enough.
"""

import os
import re
import struct
import sys

HERE = os.path.dirname(os.path.abspath(__file__))
FILES = ["texts", "libraries", "refused", "changed", "symbols", "written", "renamed", "writers"]

PT_INTERP, PT_GNU_STACK = 3, 0x6474E551
SHT_PROGBITS, SHT_SYMTAB, SHT_DYNAMIC, SHT_NOBITS, SHT_DYNSYM = 1, 2, 6, 8, 11
SHT_VERDEF, SHT_VERNEED, SHT_VERSYM = 0x6FFFFFFD, 0x6FFFFFFE, 0x6FFFFFFF
KINDS = {
    0: "Opaque", 1: "Opaque", 2: "Symbols", 3: "Strings", 4: "Relocation", 5: "Hash", 6: "Dynamic", 7: "Note",
    8: "Uninitialized", 9: "Relocation", 11: "DynamicSymbols", 0x6FFFFFF6: "GnuHash", SHT_VERDEF: "GnuVerdef",
    SHT_VERNEED: "GnuVerneed", SHT_VERSYM: "GnuVersym",
}
DT_NEEDED, DT_SYMTAB, DT_SONAME, DT_RPATH, DT_RUNPATH = 1, 6, 14, 15, 29
DT_VERDEF, DT_VERDEFNUM, DT_VERNEED, DT_VERNEEDNUM = 0x6FFFFFFC, 0x6FFFFFFD, 0x6FFFFFFE, 0x6FFFFFFF
TEXT_TAGS = {DT_NEEDED, DT_SONAME, DT_RPATH, DT_RUNPATH}
TABLE_TAGS = {4, 5, 6, 10, 11, 0x6FFFFEF5, 0x6FFFFFF0, DT_VERDEF, DT_VERDEFNUM, DT_VERNEED, DT_VERNEEDNUM}
EM_SPARC, EM_MIPS, EM_SPARC64, EM_AARCH64 = 2, 8, 43, 183
ABIS = {"solaris": 6, "nsk": 14}
PAGES = {EM_MIPS: 65536, EM_AARCH64: 65536, EM_SPARC: 8192, EM_SPARC64: 8192}

FAILED = "refused: I/O error occurred while writing the file"
OVERLAP = "refused: Overlapping immovable sections"
TOO_LARGE = "refused: A validation error occurred while writing the file"
MIPS = "refused: MIPS images can't be modified"
UNKNOWN_ABI = "refused: Unknown ABI "
PAGE_SIZE = "refused: Page size must be a power of 2 and >= 1024, got 1000"


# ---- values as text


def truth(fact):
    return "true" if fact else "false"


def text(data):
    return "".join("~" if byte == 0 else chr(byte) for byte in data)


def numbers(values):
    return "[" + ", ".join(map(str, values)) + "]"


def option(value, show=str):
    return "None" if value is None else "Some(%s)" % show(value)


def row(data):
    return "".join(" " + data[at : at + 4].hex() for at in range(0, len(data), 4))


def version(value):
    return option(value, lambda pair: "VersionId { index: %d, hidden: %s }" % (pair[0], truth(pair[1])))


def quoted(word):
    return '"' + word.replace("\n", "\\n") + '"'


# ---- an ELF file


class Elf:
    """What a file shows by its section headers."""

    def __init__(self, data):
        self.data, self.wide, self.order = data, data[4] == 2, "<" if data[5] == 1 else ">"
        self.abi, self.abi_version = data[7], data[8]
        fields = self.unpack("HHIwwwIHHHHHH", 16)
        self.kind, self.machine, _, self.entry, self.phoff, self.shoff, self.flags = fields[:7]
        _, segment_size, segment_count, section_size, section_count, self.names = fields[7:]
        self.segments = [self.segment(self.phoff + n * segment_size) for n in range(segment_count)]
        self.sections = [self.unpack("IIwwwwIIww", self.shoff + n * section_size) for n in range(section_count)]

    def unpack(self, fields, at, data=None):
        fields = self.order + fields.replace("w", "Q" if self.wide else "I")
        return struct.unpack_from(fields, self.data if data is None else data, at)

    def segment(self, at):
        """Type, flags, offset, address, physical address, sizes in the file and in memory, alignment."""
        if self.wide:
            return self.unpack("IIQQQQQQ", at)
        kind, offset, address, physical, file_size, size, flags, align = self.unpack("IIIIIIII", at)
        return (kind, flags, offset, address, physical, file_size, size, align)

    def body(self, number):
        kind, offset, size = (self.sections[number][field] for field in (1, 4, 5))
        return b"" if kind in (0, SHT_NOBITS) else self.data[offset : offset + size]

    def find(self, kind):
        """The number of the first section of a type."""
        return next((n for n, section in enumerate(self.sections) if section[1] == kind), None)

    def named(self, number, place):
        """The text at a place of a section."""
        body = self.body(number)
        return body[place : body.index(b"\0", place)]

    def symbols(self, kind):
        """Of each symbol its name, its numbers and its version."""
        table = self.find(kind)
        if table is None:
            return []
        body, strings = self.body(table), self.sections[table][6]
        versions = self.find(SHT_VERSYM) if kind == SHT_DYNSYM else None
        marks = None if versions is None else self.body(versions)
        return symbols_of(self, body, lambda place: self.named(strings, place), marks)

    def definitions(self):
        """Index, flags and names of each version that is defined."""
        table, found, at = self.find(SHT_VERDEF), [], 0
        if table is None:
            return []
        body, strings, count = self.body(table), self.sections[table][6], self.sections[table][7]
        for _ in range(count):
            _, flags, index, names, _, first, after = self.unpack("HHHHIII", at, body)
            found.append((index, flags, [self.named(strings, p) for p in self.chain(body, at + first, names)]))
            at += after
        return found

    def chain(self, body, at, count):
        """The places of a definition's names."""
        for _ in range(count):
            place, after = self.unpack("II", at, body)
            yield place
            at += after

    def needs(self):
        """A library, and index, flags and name of each version that is needed of it."""
        table, found, at = self.find(SHT_VERNEED), [], 0
        if table is None:
            return []
        body, strings, count = self.body(table), self.sections[table][6], self.sections[table][7]
        for _ in range(count):
            _, names, library, first, after = self.unpack("HHIII", at, body)
            found.append((self.named(strings, library), list(self.needed(body, strings, at + first, names))))
            at += after
        return found

    def needed(self, body, strings, at, count):
        for _ in range(count):
            _, flags, index, place, after = self.unpack("IHHII", at, body)
            yield (index, flags, self.named(strings, place))
            at += after

    def entries(self):
        """Tags and numbers of the dynamic list before its DT_NULL, `None` without one."""
        table = self.find(SHT_DYNAMIC)
        if table is None:
            return None
        body, size, found = self.body(table), 16 if self.wide else 8, []
        for at in range(0, len(body), size):
            entry = self.unpack("ww", at, body)
            if entry[0] == 0:
                break
            found.append(entry)
        return found

    def texts(self, tag):
        """The texts of the entries with a tag."""
        table = self.find(SHT_DYNAMIC)
        return [self.named(self.sections[table][6], value) for own, value in self.entries() or [] if own == tag]

    def header(self, kind):
        """The first program header of a type."""
        return next((segment for segment in self.segments if segment[0] == kind), None)

    def interpreter(self):
        found = self.header(PT_INTERP)
        return found and self.data[found[2] : found[2] + found[5]]

    def stack(self):
        found = self.header(PT_GNU_STACK)
        return found and found[1]

    def run_path(self):
        """The text of the first run path of either tag."""
        for tag, value in self.entries() or []:
            if tag in (DT_RPATH, DT_RUNPATH):
                return self.named(self.sections[self.find(SHT_DYNAMIC)][6], value)
        return None

    def page_size(self):
        return PAGES.get(self.machine, 4096)


def symbols_of(form, records, name_at, marks):
    """The symbols of a table: name, numbers, version."""
    size, found = 24 if form.wide else 16, []
    for n in range(len(records) // size):
        if form.wide:
            name, info, other, section, value, length = form.unpack("IBBHQQ", n * size, records)
        else:
            name, value, length, info, other, section = form.unpack("IIIBBH", n * size, records)
        mark = None
        if marks is not None:
            (number,) = form.unpack("H", 0, marks[2 * n : 2 * n + 2].ljust(2, b"\0"))
            mark = (number & 0x7FFF, number >= 0x8000)
        found.append((name_at(name), [info, other, section, value, length], mark))
    return found


# ---- lines that read


def symbol_line(what, symbol):
    return "%s %s %s %s" % (what, text(symbol[0]), numbers(symbol[1]), version(symbol[2]))


def definition_line(definition):
    index, flags, names = definition
    return "defines %d %d" % (index, flags) + "".join(" " + text(name) for name in names)


def need_line(need):
    return "needs " + text(need[0]) + "".join(", %d %d %s" % (index, flags, text(name)) for index, flags, name in need[1])


def entry_lines(elf):
    if elf.entries() is None:
        return ["no list"]
    strings, lines = elf.sections[elf.find(SHT_DYNAMIC)][6], []
    for tag, value in elf.entries():
        rest = " = %d" % value
        if tag in TEXT_TAGS:
            rest = " " + text(elf.named(strings, value))
        elif tag in TABLE_TAGS:
            rest = ""
        lines.append("entry %d%s" % (tag, rest))
    return lines


def places(elf):
    """Where sections stand."""
    position = lambda number: option(number if number < len(elf.sections) else None)
    interpreter = elf.header(PT_INTERP)
    for number, section in enumerate(elf.sections):
        if interpreter and (section[1], section[4], section[3], section[5]) == (SHT_PROGBITS, *interpreter[2:4], interpreter[5]):
            interpreter = number
            break
    user = elf.find(SHT_DYNAMIC) if elf.find(SHT_DYNAMIC) is not None else elf.find(SHT_DYNSYM)
    return record("Places", {
        "fifth": position(4),
        "past_all": position(40),
        "dynamic_symbols": option(elf.find(SHT_DYNSYM)),
        "of_no_type": option(elf.find(99)),
        "interpreter": option(interpreter),
        "strings": option(None if user is None else elf.sections[user][6]),
        "segments_read": len(elf.segments),
        "are_symbols_numbered": "(true, true)",
        "are_symbols_kept": "true",
    })


def record(name, fields):
    return "%s { %s }" % (name, ", ".join("%s: %s" % field for field in fields.items()))


def outline(elf):
    fields = (elf.abi, elf.abi_version, elf.kind, elf.machine, elf.entry, elf.flags, elf.phoff, elf.shoff, elf.names)
    words = "os_abi abi_version e_type e_machine e_entry e_flags e_phoff e_shoff e_shstrndx".split()
    return record("Outline", {
        "class": "W64" if elf.wide else "W32",
        "order": "Little" if elf.order == "<" else "Big",
        "header": record("Header", dict(zip(words, fields))),
        "interpreter": option(elf.interpreter(), numbers),
        "page_size": "None",
        "is_changed": "false",
        "is_source": "true",
    })


def image_lines(data):
    elf = Elf(data)
    lines = [outline(elf)] + ["segment " + numbers(segment) for segment in elf.segments]
    for number, section in enumerate(elf.sections):
        name, link = text(elf.named(elf.names, section[0])), option(section[6] if section[6] < len(elf.sections) else None)
        facts = (name, KINDS[section[1]], number, link, numbers(section[1:]), row(elf.body(number)))
        lines.append("section %s ((%s, %d, %s), %s)%s" % facts)
    lines += [symbol_line("symbol", symbol) for symbol in elf.symbols(SHT_SYMTAB)]
    lines += [symbol_line("dynamic symbol", symbol) for symbol in elf.symbols(SHT_DYNSYM)]
    lines += [definition_line(one) for one in elf.definitions()] + [need_line(one) for one in elf.needs()]
    return lines + entry_lines(elf) + [places(elf), "copied true, read again true"]


def listed(values):
    return "[" + ", ".join(values) + "]"


def shown_entry(elf, entry):
    tag, value = entry
    if tag in TEXT_TAGS:
        return "Text(%d, %s)" % (tag, numbers(elf.named(elf.sections[elf.find(SHT_DYNAMIC)][6], value)))
    return "Auto(%d)" % tag if tag in TABLE_TAGS else "Integer(%d, %d)" % entry


def shown_symbol(symbol):
    words = "st_info st_other st_shndx st_value st_size".split()
    fields = {"name": numbers(symbol[0]), **dict(zip(words, symbol[1])), "version": version(symbol[2])}
    return record("ShownSymbol", fields)


def shown_definition(definition):
    index, flags, names = definition
    return record("ShownDefinition", {"index": index, "flags": flags, "names": listed(map(numbers, names))})


def shown_need(need):
    name = lambda one: record("ShownName", {"index": one[0], "name": numbers(one[2]), "flags": one[1]})
    return record("ShownNeeds", {"file": numbers(need[0]), "versions": listed(map(name, need[1]))})


def view_lines(data, count=None):
    """The view, of so many dynamic symbols."""
    elf = Elf(data)
    tags = {tag for tag, _ in elf.entries() or []}
    part = lambda wanted, shown, values: "Some(%s)" % listed(map(shown, values)) if wanted <= tags else "None"
    view = record("ShownView", {
        "os_abi": elf.abi,
        "stack_flags": option(elf.stack()),
        "interpreter": option(elf.interpreter(), numbers),
        "entries": option(elf.entries(), lambda entries: listed(shown_entry(elf, entry) for entry in entries)),
        "symbols": part({DT_SYMTAB}, shown_symbol, elf.symbols(SHT_DYNSYM)[:count]),
        "definitions": part({DT_VERDEF, DT_VERDEFNUM}, shown_definition, elf.definitions()),
        "needs": part({DT_VERNEED, DT_VERNEEDNUM}, shown_need, elf.needs()),
    })
    return ["Ok(%s)" % view]


def machine(data):
    """The machine that the first bytes of a file tell."""
    if len(data) < 20 or data[:4] != b"\x7fELF":
        return None
    return struct.unpack_from("<H" if data[5] == 1 else ">H", data, 18)[0]


def read_lines(data):
    elf = Elf(data)
    searched = (elf.texts(DT_RUNPATH) + elf.texts(DT_RPATH) + [b""])[0].decode("utf-8", "replace")
    directories = searched.split(":") if searched else []
    texts = (elf.run_path(), (elf.texts(DT_SONAME) + [None])[0], elf.interpreter())
    stack = elf.header(PT_GNU_STACK)
    flags, align = option(elf.stack()), option(stack and stack[7])
    measures = numbers((elf.kind, elf.machine, elf.abi, elf.page_size(), elf.page_size()))
    return [
        "([%s], (%s, true))" % (", ".join(option(one, numbers) for one in texts), measures),
        "stack (%s, %s, %s)" % (flags, flags, align),
        *("needed " + text(name) for name in elf.texts(DT_NEEDED)),
        "directories [%s]" % ", ".join(map(quoted, directories)),
    ]


def print_lines(data):
    elf = Elf(data)
    line = lambda value: "" if value is None else value.decode("utf-8", "replace") + "\n"
    interpreter, stack = elf.interpreter(), elf.stack()
    prints = {
        "RunPath": line(elf.run_path()),
        "Name": line((elf.texts(DT_SONAME) + [None])[0]),
        "Needed": "".join(map(line, elf.texts(DT_NEEDED))),
        "Interpreter": line(interpreter and interpreter.split(b"\0")[0]),
        "OsAbi": "%d\n" % elf.abi,
        "ExecStack": "" if stack is None else "X\n" if stack & 1 else "-\n",
    }
    return ["%s %s" % (name, quoted(printed)) for name, printed in prints.items()]


def table_lines(words):
    """A table of symbols whose parts stand in words."""
    bits, order, strings, records, marks = (words + [None])[:5]
    form = Elf.__new__(Elf)
    form.wide, form.order, form.data = bits == "64", "<" if order == "little" else ">", b""
    strings = unhex(strings)
    try:
        name_at = lambda place: strings[place : strings.index(b"\0", place)]
        symbols = symbols_of(form, unhex(records), name_at, None if marks is None else unhex(marks))
    except ValueError:
        return ["a name is missing"]
    return ["%d symbols, empty %s" % (len(symbols), truth(not symbols))] + [symbol_line("symbol", one) for one in symbols]


def unhex(word):
    return b"" if word == "-" else bytes.fromhex(word)


# The fault of each changed file, by the words that make it.
FAULTS = {
    "elf-twin ..20": "Truncated",
    "elf-twin ..19": "Truncated",
    "elf-twin 4..": "BadMagic",
    "elf-program ..20": "Truncated",
    "elf-small ..4": "Truncated",
    "elf-small ..100": "Truncated",
    "nothing ..16": "BadMagic",
    "elf-small 4:03": "Unsupported",
    "elf-small 0:00": "BadMagic",
    "elf-small 16:01": "Unsupported",
    "elf-small 104:3f": "Disagree(2)",
    "elf-small 96:3f": "Disagree(4)",
    "elf-small 128:e0": "Disagree(7)",
    "elf-small 280:b1": "Disagree(9)",
    "elf-small 272:15": "Disagree(9)",
    "elf-small 296:0f": "Disagree(9)",
    "elf-small 296:0d": "BadText",
    "elf-small 264:0e": "BadText",
    "elf-small 40:ffffffffffffffff": "Truncated",
    "elf-linked 1988:02 1160:02": "Disagree(11)",
    "elf-small ..4352 96:0010 104:0010 120:01 128:ff0f 136:00 138:02": "Disagree(3)",
    "elf-small ..4352 96:0010 104:0010 120:01 128:0010 136:00 138:02": "Disagree(7)",
}

# A needed library whose name ends behind what is loaded, or with it.
CUT_NAME = "elf-small 96:40 248:8f 296:c8 319:78"
WHOLE_NAME = "elf-small 96:41 248:8f 296:c8 319:78"


def loaded_lines(name, data, count):
    """What a loader sees."""
    if FAULTS.get(name) == "Truncated" or name == CUT_NAME or (name == "elf-versioned" and count > 3):
        return ["Err(Absent)"]
    if name == WHOLE_NAME:
        (small,) = view_lines(data[:248] + b"\1" + data[249:296] + b"\x0e" + data[297:])
        return [small.replace(numbers(b"libc.so.6"), numbers(b"x"))]
    return view_lines(data, count)


# ---- lines that edit


def stack_lines(data, call, flags):
    """What comes of a call that lends the flags of the stack."""
    elf = Elf(data)
    old, count, is_mips = elf.stack(), len(elf.segments), elf.machine == EM_MIPS
    image = lambda value, count, is_changed: "stack %s, %d headers, changed %s" % (option(value), count, truth(is_changed))
    if call == "add-gnu-stack" and is_mips:
        return [MIPS, image(old, count, False)]
    if call == "add-stack" and old is not None or call == "gnu-stack" and is_mips or "add" not in call and old is None:
        return ["None", image(old, count, False)]
    return [option(7 if old is None else old), image(flags, count + (old is None), True)]


def tag_lines(data):
    """The tags after each edit of the dynamic list."""
    tags = [tag for tag, _ in Elf(data).entries() or []]
    has_path, has_needed = tags[1:2] == [DT_RUNPATH], tags[:1] == [DT_NEEDED]
    edits = {
        "DeleteSecond": (tags[:1] + tags[2:] if has_path else tags, has_path),
        "RemoveNeeded": ([tag for tag in tags if tag != DT_NEEDED], True),
        "RetagFirst": ([DT_RPATH] + tags[1:] if has_needed else tags, has_needed),
        "RetagRunPaths": ([DT_RPATH if tag == DT_RUNPATH else tag for tag in tags], True),
        "Image": (tags, False),
    }
    line = lambda name, tags, fact: name + "".join(" %d" % tag for tag in tags) + ", changed " + truth(fact)
    return [line(name, *edit) for name, edit in edits.items()]


# ---- lines that write

LONG = b"x" * 53

# The small library at the last addresses of 64 bits.
AT_TOP = "elf-small 80:c0feffffffffffff 136:b0ffffffffffffff 280:70ffffffffffffff 432:70ffffffffffffff 496:b0ffffffffffffff"

SWAP, CLEAR = "rename-dynamic-symbols f=g g=f", "clear-symbol-version exit"

# The entries behind those of needed versions: DT_STRTAB, DT_SYMTAB, DT_STRSZ, DT_SYMENT, DT_RELA, DT_RELASZ, DT_RELAENT, DT_NULL.
LEFT = [(5, 328), (6, 256), (10, 33), (11, 24), (7, 480), (8, 24), (9, 24), (0, 0), (0, 0)]

# What stands in written files at which positions, by the file and its edits: so many bytes, those of the old file up to an
# offset, zeros, and over them these parts. Or why a file isn't written.
WRITTEN = {
    ("elf-small", "remove-needed libc.so"): (608, 608, []),
    # the table of strings has 17 bytes then, at its place
    ("elf-small", "add-rpath /b"): (608, 608, [
        (177, b"/a:/b\0libc.so.6"), (248, b"\x07"), (264, b"\x01"), (296, b"\x11"), (448, b"\x11"),
    ]),
    ("elf-small", "set-rpath /usr/lib:/b"): (608, 608, [
        (177, b"/usr/lib:/b\0libc.so.6\0"), (248, b"\x0d"), (264, b"\x01"), (296, b"\x17"), (448, b"\x17"),
    ]),
    # the table of strings has 64 bytes, up to the list
    (AT_TOP, "set-rpath " + LONG[1:].decode()): (608, 608, [
        (177, LONG[1:] + b"\0libc.so.6"), (248, b"6"), (264, b"\x01"), (296, b"@"), (448, b"@"),
    ]),
    (AT_TOP, "set-rpath " + LONG.decode()): TOO_LARGE,
    # the run path ends the other text, and stands in it
    ("elf-small", "set-rpath .6"): (608, 608, [(187, b"\0\0"), (264, b"\x08"), (296, b"\x0b"), (448, b"\x0b")]),
    # the table of strings has 65 bytes, and moves to the end: there it gets a program header, the second one
    ("elf-small", "set-rpath " + LONG.decode()): (672, 320, [
        (40, b"\xa0"),
        (56, b"\x03"),
        (120, b"\x01\0\0\0\x04\0\0\0@\x01\0\0\0\0\0\0@\x11\0\0\0\0\0\0@\x11"),
        (152, b"A\0\0\0\0\0\0\0A\0\0\0\0\0\0\0\0\x10"),
        (176, b"\x02\0\0\0\x06\0\0\0\xf0\0\0\0\0\0\0\0\xf0\0\0\0\0\0\0\0\0\0"),
        (208, b"P\0\0\0\0\0\0\0P\0\0\0\0\0\0\0\x08"),
        (248, b"7\0\0\0\0\0\0\0\x1d\0\0\0\0\0\0\0\x01"),
        (280, b"@\x11"),
        (296, b"A"),
        (321, LONG + b"\0libc.so.6"),
        (386, b".dynstr\0.dynamic\0.shstrtab"),
        (480, b"\x01\0\0\0\x03\0\0\0\x02\0\0\0\0\0\0\0@\x11\0\0\0\0\0\0@\x01\0\0\0\0\0\0A"),
        (528, b"\x01"),
        (544, b"\x09\0\0\0\x06\0\0\0\x03\0\0\0\0\0\0\0\xf0\0\0\0\0\0\0\0\xf0\0\0\0\0\0\0\0P"),
        (584, b"\x01\0\0\0\0\0\0\0\x08\0\0\0\0\0\0\0\x10\0\0\0\0\0\0\0\x12\0\0\0\x03"),
        (632, b"\x81\x01\0\0\0\0\0\0\x1c"),
        (656, b"\x01"),
    ]),
    # the list has two DT_NULL then, and the table of strings stays
    ("elf-small", "remove-rpath"): (608, 608, [
        (256, b"\x05\0\0\0\0\0\0\0\xb0"), (272, b"\x0a\0\0\0\0\0\0\0\x0e"), (288, b"\0\0\0\0\0\0\0\0\0"),
    ]),
    ("elf-small", "remove-needed libc.so.6"): (608, 608, [
        (240, b"\x1d\0\0\0\0\0\0\0\x0b"), (256, b"\x05\0\0\0\0\0\0\0\xb0"), (272, b"\x0a\0\0\0\0\0\0\0\x0e"),
        (288, b"\0\0\0\0\0\0\0\0\0"),
    ]),
    # an entry goes, and another one comes
    ("elf-small", "remove-needed libc.so.6 + set-soname x"): (608, 608, [
        (177, b"x\0/a\0\0\0\0\0\0\0\0\0"), (240, b"\x1d\0\0\0\0\0\0\0\x03"), (256, b"\x05\0\0\0\0\0\0\0\xb0"),
        (272, b"\x0a\0\0\0\0\0\0\0\x06"), (288, b"\x0e\0\0\0\0\0\0\0\x01"), (448, b"\x06"),
    ]),
    ("elf-small", "set-soname x + remove-rpath"): (608, 608, [
        (177, b"x\0libc.so.6\0\0"), (248, b"\x03\0\0\0\0\0\0\0\x05\0\0\0\0\0\0\0\xb0"),
        (272, b"\x0a\0\0\0\0\0\0\0\x0d\0\0\0\0\0\0\0\x0e\0\0\0\0\0\0\0\x01"), (448, b"\x0d"),
    ]),
    # the interpreter makes room for two program headers: one of the stack, and one that it needs itself
    ("elf-roomy", "set-exec-stack"): (632, 320, [
        (40, b"x"),
        (56, b"\x04"),
        (120, b"\x01\0\0\0\x04\0\0\0@\x01\0\0\0\0\0\0@\x11\0\0\0\0\0\0@\x11"),
        (168, b"\0\x10\0\0\0\0\0\0\x03\0\0\0\x04\0\0\0@\x01\0\0\0\0\0\0"),
        (192, b"@\x11\0\0\0\0\0\0@\x11\0\0\0\0\0\0\x1c\0\0\0\0\0\0\0\x1c"),
        (224, b"\x01\0\0\0\0\0\0\0Q\xe5td\x07"),
        (280, b"\x10"),
        (320, b"/prefix/lib/ld-for-tests.so\0\0.interp\0.data\0.shstrtab"),
        (440, b"\x01\0\0\0\x01\0\0\0\x02\0\0\0\0\0\0\0@\x11\0\0\0\0\0\0@\x01\0\0\0\0\0\0\x1c"),
        (488, b"\x01"),
        (504, b"\x09\0\0\0\x01\0\0\0\x03\0\0\0\0\0\0\0\x20\x01\0\0\0\0\0\0\x20\x01"),
        (536, b"\x20"),
        (552, b"\x01"),
        (568, b"\x0f\0\0\0\x03"),
        (592, b"\x5c\x01\0\0\0\0\0\0\x19"),
        (616, b"\x01"),
    ]),
    # f and g change their names: g has the first bucket of GNU's table, and what was the second symbol is the first one now. The
    # gABI's table is 2, 3, 2, 1, 0, 0, 0; of GNU's the filter is 0x1001800, the buckets are 1 and 2, and the chains 177677 and
    # 177675. The relocation is about symbol 1.
    ("symbols-both", SWAP): (1368, 1368, [
        (184, b"\x02\0\0\0\x01"), (225, b"\x18\0\x01"), (232, b"\x01\0\0\0\x02"), (240, b"\x0d\xb6\x02\0\x0b\xb6\x02"),
        (280, b"\x01"), (288, b"\xfc"), (304, b"\x03"), (312, b"\xf8"), (329, b"g\0f"), (492, b"\x01"),
    ]),
    ("symbols-gnu", SWAP): (1296, 1296, [
        (225, b"\x18\0\x01"), (232, b"\x01\0\0\0\x02"), (240, b"\x0d\xb6\x02\0\x0b\xb6\x02"),
        (280, b"\x01"), (288, b"\xfc"), (304, b"\x03"), (312, b"\xf8"), (329, b"g\0f"), (492, b"\x01"),
    ]),
    # without GNU's table the order is kept: the gABI's is 2, 3, 1, 2, 0, 0, 0
    ("symbols-gabi", SWAP): (1296, 1296, [(184, b"\x01\0\0\0\x02"), (329, b"g\0f")]),
    # both names have one bucket in each table, and the first one leads the chain: 2, 3, 1, 0, 0, 2, 0; the filter is
    # 0x1002800, the buckets are 0 and 1, and the chains 177676 and 177675
    ("symbols-both", "rename-dynamic-symbols g=x g=h"): (1368, 1368, [
        (184, b"\x01"), (196, b"\x02"), (225, b"\x28\0\x01"), (236, b"\x01"), (240, b"\x0c\xb6\x02\0\x0b\xb6\x02"),
        (280, b"\x01"), (304, b"\x03"), (329, b"h\0f"),
    ]),
    # no symbol has these names, and none has a version
    ("symbols-both", "rename-dynamic-symbols x=y =z"): (1368, 1368, []),
    ("symbols-both", "clear-symbol-version f"): (1368, 1368, []),
    # the only version of the library that a symbol has goes, and the record of the library stays, with the other one; a run path
    # takes nothing away
    ("needs-two", CLEAR): (1448, 1448, [
        (402, b"\x01"), (418, b"\x01"), (432, b"\x42\x0e\xfd\0\0\0\x03\0\x0b\0\0\0\0" + bytes(19)), (1032, b"\x20"),
    ]),
    ("needs-two", "set-rpath /b"): (1448, 1448, [(337, b"b")]),
    # no version is left: the record goes, and both entries, behind which the others move up
    ("needs-one", CLEAR): (1448, 1448, [
        (402, b"\x01"), (416, bytes(32)),
        *((560 + 16 * n, struct.pack("<QQ", *entry)) for n, entry in enumerate(LEFT)), (1032, b"\0"), (1044, b"\0"),
    ]),
    ("needs-one", "set-rpath /b"): (1448, 1448, [(337, b"b")]),
    # no room for an entry or a program header more
    ("elf-small", "set-soname x"): OVERLAP,
    ("elf-full", "set-soname x"): OVERLAP,
    ("elf-tight", "set-exec-stack"): OVERLAP,
}


def written(name, data, edits):
    """The bytes of a file after edits, or why it isn't written."""
    if not edits:
        return data
    if isinstance(WRITTEN[name, edits], str):
        return WRITTEN[name, edits]
    length, front, parts = WRITTEN[name, edits]
    made = bytearray(data[:front].ljust(length, b"\0"))
    for at, part in parts:
        made[at : at + len(part)] = part
    return bytes(made)


def written_lines(old, new):
    lines = ["changed " + truth(new != old)]
    if isinstance(new, str):
        return lines + [new]
    lines.append("%d bytes" % len(new))
    for at in range(0, len(new), 16):
        if old[at : at + 16] != new[at : at + 16]:
            lines.append("%06x%s" % (at, row(new[at : at + 16])))
    planned = ["planned Ok([true, true, true])"] if new != old else []
    return lines + ["pieces %s, made Ok(true)" % truth(new != old)] + planned


def taken_line(new, room):
    if new == OVERLAP:
        return "Some(0) Err(Modify(Overlap))"
    return "Some(%d) %s" % (min(room, len(new)), "Ok(())" if room >= len(new) else "Err(Io(Kind(StorageFull)))")


def path_lines(path, new):
    if "/" in path:
        return [FAILED, "no file"] * 2
    return [OVERLAP, "the file has 3 bytes"] * 2 if new == OVERLAP else ["done", "the file is the same true"] * 2


# ---- lines

TEXTS = """\
BadMagic: BadMagic
Truncated: Truncated
Unsupported: Unsupported
Disagree(8): Disagree
BadText: BadText
NumberTooLarge: NumberTooLarge
Memory: Memory
Absent: Absent
Memory: Memory
Io(Kind(NotFound)): I/O error occurred while writing the file
Parse(Disagree(4)): A parse error occurred while reading the file
Write(NumberTooLarge): A validation error occurred while writing the file
Modify(Overlap): A validation error occurred while modifying the file
InvalidDtNeededEncoding: Non-UTF-8 DT_NEEDED entry
Memory: out of memory
Memory: out of memory
Memory: out of memory
Memory: out of memory
NoDynamic(SetRpath): No dynamic section found; can't set runpath
NoInterp: No interp section found; can't set interpreter
BadPageSize(1000): Page size must be a power of 2 and >= 1024, got 1000
NoRunPath: No DT_RPATH entry found
Overlap: Overlapping immovable sections
NulInText: NUL in a text
MipsImage: MIPS images can't be modified
SymbolInRelocation: Symbol is used by a relocation
CannotRenumber: Symbol table can't be renumbered
SectionInUse: Section is in use
TooManyHeaders: Too many program headers
UnknownAbi("ns"): Unknown ABI ns
ProbeAnswer { directory: ByteString { source: [47, 97], copy: None }, needed: ByteString { source: [98], copy: None }, \
machine: Some(62) }"""
CONSTANTS = ["VersionId { index: 0, hidden: false } VersionId { index: 1, hidden: false }", "0 symbols, empty true"]
BATCHES = ["done", PAGE_SIZE, "done", "run path None, page size 8192"]


class Model:
    """A folder of files, and the file that lines work on, with the words that made it, `None` once other bytes were written."""

    def __init__(self, folder):
        self.folder, self.name, self.data = folder, None, b""

    def content(self, name):
        with open(os.path.join(self.folder, name), "rb") as file:
            return file.read()

    def make(self, words):
        self.name, data = words, bytearray(self.content(words.split(" ")[0]))
        for change in words.split(" ")[1:]:
            at, _, part = change.partition(":")
            if part:
                data[int(at) : int(at) + len(part) // 2] = bytes.fromhex(part)
            elif change.startswith(".."):
                data = data[: int(change[2:])].ljust(int(change[2:]), b"\0")
            else:
                data = data[int(change[:-2]) :]
        self.data = bytes(data)

    def write(self, edits):
        old, new = self.data, written(self.name, self.data, edits)
        if new != old and not isinstance(new, str):
            self.data, self.name = new, None
        return written_lines(old, new)

    def read(self, kind, words):
        """What comes of a line that reads."""
        fault = FAULTS.get(self.name)
        answers = {
            "i": lambda: image_lines(self.data),
            "f": lambda: [listed([option(fault)] * 3)],
            "F": lambda: ["%d fronts are truncated" % len(self.data)],
            "m": lambda: [option(machine(self.data))],
            "v": lambda: ["Err(Absent)"] if fault else view_lines(self.data),
            "l": lambda: loaded_lines(self.name, self.data, int(words)),
            "r": lambda: read_lines(self.data),
            "p": lambda: self.print(words),
            "q": lambda: [FAILED],
            "y": lambda: table_lines(words.split(" ")),
            "n": lambda: ["names" + "".join(" %d" % at for at in range(20) if 0 in unhex(words)[at:])],
            "e": lambda: TEXTS.split("\n"),
            "c": lambda: CONSTANTS,
        }
        return answers[kind]() if kind in answers else self.edit(kind, words)

    def print(self, words):
        """What is printed, perhaps of a file with another ABI, whatever the case of the ASCII letters of its name."""
        name = "".join(letter.lower() if letter.isascii() else letter for letter in words.partition("set-os-abi ")[2])
        if name not in ABIS:
            return [UNKNOWN_ABI + name] * bool(name) + print_lines(self.data)
        return print_lines(self.data[:7] + bytes([ABIS[name]]) + self.data[8:])

    def edit(self, kind, words):
        """What comes of a line that edits or writes."""
        words, _, edits = words.partition(":")
        words, edits = words.split(), edits.strip()
        if kind == "s":
            return stack_lines(self.data, words[0], int(words[1]))
        if kind == "t":
            return tag_lines(self.data)
        if kind == "a":
            return BATCHES
        if kind == "w":
            return self.write(edits)
        if kind == "K":
            return ["%d fronts are taken" % len(written(self.name, self.data, edits))]
        if edits == "set-page-size 1000":
            return [PAGE_SIZE, taken_line(self.data, int(words[0]))]
        new = written(self.name, self.data, edits)
        return [taken_line(new, int(words[0]))] if kind == "k" else path_lines(words[0], new)

    def answer(self, line):
        kind, _, words = line.partition(" ")
        if kind == "=":
            self.make(words)
        if not re.fullmatch("[a-zA-Z]", kind):
            return []
        return self.read(kind, words)


def main():
    model = Model(sys.argv[1] if len(sys.argv) > 1 else os.path.join(HERE, "..", "test_cases", "data"))
    for name in FILES:
        print("==== images/" + name)
        for line in model.content("images/" + name).decode().split("\n")[:-1]:
            print("\n".join([line] + model.answer(line)))


if __name__ == "__main__":
    main()
