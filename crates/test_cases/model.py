#!/usr/bin/env python3
"""Says what the program of this crate has to print of edits of ELF files, by a model of its own.

    python3 crates/test_cases/model.py [FOLDER]

Printed is what the program's file `stdout` has to hold of the files of lines in `edits`, with their headings; `check.py`
compares the two. FOLDER has the lines and the files that they are run on; it is the folder `data` beside this script
where none is given. The model reads dynamic lists by section headers and does edits as the README says; it shares nothing
with the program. Python's standard library is enough.
"""

import os
import struct
import sys

TAGS = {"NEEDED": 1, "STRTAB": 5, "SONAME": 14, "RPATH": 15, "DEBUG": 21, "RUNPATH": 29, "FLAGS_1": 0x6FFFFFFB}
NAMES = {tag: name for name, tag in TAGS.items()}
TEXTS = {1, 14, 15, 29, 0x6FFFFEFA, 0x6FFFFEFB, 0x6FFFFEFC, 0x7FFFFFFD, 0x7FFFFFFF}
TABLES = {5, 10, 6, 11, 4, 0x6FFFFEF5, 0x6FFFFFF0, 0x6FFFFFFC, 0x6FFFFFFD, 0x6FFFFFFE, 0x6FFFFFFF}
RUN_PATHS = (15, 29)
ABIS = {
    "sysv": 0, "hpux": 1, "netbsd": 2, "linux": 3, "hurd": 4, "gnu-hurd": 4, "gnu hurd": 4, "solaris": 6, "aix": 7,
    "irix": 8, "freebsd": 9, "tru64": 10, "modesto": 11, "openbsd": 12, "openvms": 13, "nsk": 14, "aros": 15,
    "fenixos": 16, "cloudabi": 17,
}
TASKS = {
    "add-debug-tag": "add debug entry", "remove-rpath": "delete runpath", "set-rpath": "set runpath",
    "add-rpath": "add runpath", "force-rpath": "change rpath", "remove-needed": "delete needed library",
    "replace-needed": "replace needed library", "replace-library": "replace needed library",
    "add-needed": "add needed library", "set-soname": "set soname", "no-default-lib": "set soname",
}
PAGES = {0x9026: 65536, 50: 65536, 8: 65536, 20: 65536, 21: 65536, 183: 65536, 191: 65536, 258: 65536, 2: 8192, 43: 8192}
ALONE = ["add-debug-tag", "clear-exec-stack", "force-rpath", "no-default-lib", "remove-rpath", "set-exec-stack"]
ONE = ["add-rpath", "set-rpath", "set-interpreter", "set-os-abi", "set-soname", "set-page-size", "clear-symbol-version"]
MANY = ["add-needed", "remove-needed", "replace-needed", "replace-library", "rename-dynamic-symbols"]
# Edits that no batch takes: of symbols for link editors, and of sections. Only their words are read here.
OF_TABLES = ["rename-symbols", "delete-symbols", "rename-sections", "delete-sections"]
PAIRS = ["replace-needed", "replace-library", "rename-dynamic-symbols", "rename-symbols", "rename-sections"]
OF_SYMBOLS = ["rename-dynamic-symbols", "clear-symbol-version"]
# Files of lines about edits of which this model says nothing.
UNKNOWN = ["edits/symbols-by-calls"]


def lowered(text):
    """ASCII letters alone."""
    return "".join(chr(ord(c) + 32) if "A" <= c <= "Z" else c for c in text)


# ---- words


def plain(word):
    return "" if word == "''" else word.replace("~", "\0").replace("^", " ")


def split(line):
    return [plain(word) for word in line.split(" ") if word]


def read_edits(line):
    """The edits of words that a batch takes, each with its values, or the fault in the words."""
    groups = [[]]
    for word in split(line):
        if word == "+":
            groups.append([])
        else:
            groups[-1].append(word)
    edits = []
    for number, group in enumerate(groups):
        fault = fault_of(group)
        if fault:
            return None, "group %d: %s\n" % (number, fault)
        name, values = group[0], group[1:]
        if name == "set-page-size":
            values = [int(values[0])]
        elif name in PAIRS:
            values = [tuple(word.split("=", 1)) for word in values]
        if name not in OF_TABLES:
            edits.append((name, values))
    return edits, None


def fault_of(group):
    if not group:
        return "Empty: no edit stands there"
    name, values = group[0], group[1:]
    if name not in ALONE + ONE + MANY + OF_TABLES:
        return "UnknownEdit: its first word names no edit"
    takes = 1 if name in ONE else 0
    if name in ALONE + ONE and len(values) != takes:
        word = min(len(values), takes) + 1
        what = "too many" if word > takes else "missing"
        return "WrongWords: word %d is %s, the edit takes %d" % (word, what, takes)
    if name == "set-page-size":
        digits = all("0" <= c <= "9" for c in values[0]) and values[0]
        if not digits or int(values[0]) >= 2**32:
            return "Number: word 1"
    if name in PAIRS:
        for at, word in enumerate(values):
            if "=" not in word:
                return "KeyValue: word %d" % (at + 1)
    return None


RUST = {name: "".join(part.capitalize() for part in name.split("-")) for name in ALONE + ONE + MANY}


def numbers(text):
    return "[%s]" % ", ".join(str(byte) for byte in text.encode())


def rust_text(text):
    return '"%s"' % text.replace("\0", "\\0")


def debug(edit):
    """An edit as Rust's derived Debug prints it."""
    name, values = edit
    kind = RUST[name]
    if name in ALONE:
        return kind
    if name == "set-page-size":
        return "%s(%d)" % (kind, values[0])
    if name == "set-os-abi":
        return "%s(%s)" % (kind, rust_text(values[0]))
    if name in PAIRS:
        return "%s([%s])" % (kind, ", ".join("(%s, %s)" % (numbers(a), numbers(b)) for a, b in values))
    if name in MANY or name == "add-rpath":
        return "%s([%s])" % (kind, ", ".join(numbers(value) for value in values))
    return "%s(%s)" % (kind, numbers(values[0]))


# ---- lists


def entry_of(word):
    name, _, value = word.partition("=")
    tag = TAGS[name]
    if tag in TABLES:
        return (tag, None)
    return (tag, value if tag in TEXTS else int(value))


def entries_of(line):
    return [entry_of(word) for word in line.split(" ") if word]


def shown(entries):
    words = ["list"]
    for tag, value in entries:
        name = NAMES.get(tag, str(tag))
        words.append(name if value is None else "%s=%s" % (name, value))
    return " ".join(words).replace("\0", "~") + "\n"


def cause(edit, facts):
    """Why an edit is refused; the first cause counts."""
    name, values = edit
    if facts["machine"] == 8:
        return "MIPS"
    if name in TASKS and not facts["list"]:
        return "no dynamic section, can't " + TASKS[name]
    if name == "set-interpreter" and not facts["interpreter"]:
        return "no interpreter"
    texts = [part for value in values for part in (value if isinstance(value, tuple) else (str(value),))]
    if name == "set-interpreter":
        texts = [text[:-1] for text in texts]
    if any("\0" in text for text in texts):
        return "NUL in a text"
    if name == "set-os-abi" and lowered(values[0]) not in ABIS:
        return "unknown ABI " + values[0]
    if name == "set-page-size":
        size = values[0]
        if size < 1024 or size & (size - 1):
            return "bad page size %d" % size
    if name == "rename-dynamic-symbols" and any(one in dict(values) for one in facts.get("fixed", [])):
        return "symbols can't be renumbered"
    return None


def edited(edit, entries):
    """The list after an edit, and whether the edit wrote something of it."""
    name, values = edit
    has = any(tag in RUN_PATHS for tag, _ in entries)
    if name == "add-debug-tag":
        there = any(tag == 21 for tag, _ in entries)
        return (entries, False) if there else (entries + [(21, 0)], True)
    if name == "remove-rpath":
        return [e for e in entries if e[0] not in RUN_PATHS], has
    if name == "set-rpath":
        made = [(t, values[0]) if t in RUN_PATHS else (t, v) for t, v in entries]
        return made if has else made + [(29, values[0])], True
    if name == "add-rpath":
        new = values[0]
        made = [(t, v + ":" + new if v else new) if t in RUN_PATHS else (t, v) for t, v in entries]
        return made if has else made + [(29, new)], True
    if name == "force-rpath":
        return [(15 if t == 29 else t, v) for t, v in entries], any(t == 29 for t, _ in entries)
    if name == "remove-needed":
        gone = set(values)
        made = [e for e in entries if not (e[0] == 1 and e[1] in gone)]
        return made, len(made) != len(entries)
    if name in ("replace-needed", "replace-library"):
        names = dict(values)
        made = [(t, names.get(v, v)) if t == 1 else (t, v) for t, v in entries]
        return made, any(t == 1 and v in names for t, v in entries)
    if name == "add-needed":
        there = {v for t, v in entries if t == 1}
        new = [(1, value) for value in values if value not in there]
        return new + entries, bool(new)
    if name == "set-soname":
        if any(t == 14 for t, _ in entries):
            return [(14, values[0]) if t == 14 else (t, v) for t, v in entries], True
        return entries + [(14, values[0])], True
    if name == "no-default-lib":
        if any(t == TAGS["FLAGS_1"] for t, _ in entries):
            return [(t, v | 0x800) if t == TAGS["FLAGS_1"] else (t, v) for t, v in entries], True
        return entries + [(TAGS["FLAGS_1"], 0x800)], True
    return entries, False


def edit_list(words, entries, facts):
    edits, fault = read_edits(words)
    if fault:
        return fault
    for index, edit in enumerate(edits):
        why = cause(edit, facts)
        if why:
            return "edit %d refused: %s\n" % (index, why)
    touched = False
    for edit in edits:
        entries, wrote = edited(edit, entries)
        touched = touched or wrote
    return shown(entries) + ("" if touched else "nothing written\n")


# ---- run paths that shrink


def questions(entries):
    needed = [v for t, v in entries if t == 1]
    lines = ""
    for tag, value in entries:
        if tag in RUN_PATHS:
            for directory in value.split(":"):
                if directory.startswith("/"):
                    lines += "".join("%s %s\n" % (directory, name) for name in needed)
    return lines


def shrunk(line):
    entries, prefixes, answers = (line.split(">") + ["", ""])[:3]
    made, removed = shrunk_list(entries_of(entries), split(prefixes), answers, "62")
    return shown(made) + removed


def shrunk_list(entries, prefixes, answers, right):
    """The list with run paths that shrink, and lines of the directories that go."""
    needed = [v for t, v in entries if t == 1]
    found = {}
    for word in answers.split(" "):
        if word:
            directory, name, machine = (word.split(",") + ["", ""])[:3]
            found.setdefault((directory, name), machine)
    removed = ""
    made = []
    for tag, value in entries:
        if tag in RUN_PATHS:
            kept = []
            for directory in value.split(":"):
                if not directory.startswith("/"):
                    kept.append(directory)
                elif prefixes and not any(directory.startswith(prefix) for prefix in prefixes):
                    removed += "removed %s: prefix\n" % directory
                elif any(found.get((directory, name)) == right for name in needed):
                    kept.append(directory)
                else:
                    removed += "removed %s: no library\n" % directory
            value = ":".join(kept)
        made.append((tag, value))
    return made, removed


# ---- symbols


def renamed(pairs, symbols):
    """The symbols with new names behind the first, and whether there is one that has a new name."""
    names = dict(pairs)
    made = [(names.get(name, name), version) for name, version in symbols[1:]]
    return symbols[:1] + made, any(name in names for name, _ in symbols[1:])


def cleared(wanted, symbols):
    """The symbols with the version of a global symbol behind the first where their name is that, and whether there is one."""
    made = [(name, (1, False)) if name == wanted and version else (name, version) for name, version in symbols[1:]]
    return symbols[:1] + made, any(name == wanted and version is not None for name, version in symbols[1:])


def with_symbols(symbols):
    """A line of the names, each with the index of its version, and a mark where that is hidden."""
    words = ["symbols"]
    for name, version in symbols:
        words.append(name + ("" if version is None else ":%d%s" % (version[0], "!" if version[1] else "")))
    return " ".join(words) + "\n"


# ---- files

SHT_STRTAB, SHT_HASH, SHT_DYNSYM, SHT_GNU_HASH = 3, 5, 11, 0x6FFFFFF6
SHT_GNU_VERNEED, SHT_GNU_VERSYM = 0x6FFFFFFE, 0x6FFFFFFF
# Types of sections that are read; others are kept as they are, as are relocations without a symbol table.
READ_TYPES = {0, 2, 3, 4, 5, 6, 7, 8, 9, 11, 0x6FFFFFF6, 0x6FFFFFFD, 0x6FFFFFFE, 0x6FFFFFFF}


class File:
    """What the section headers of an ELF file show of its dynamic list."""

    def __init__(self, data):
        self.data = data
        self.big = data[4] == 2
        self.order = "<" if data[5] == 1 else ">"
        self.word = "Q" if self.big else "I"
        self.machine = self.number("H", 18)
        self.entries = None
        at = self.number(self.word, 40 if self.big else 32)
        size = 64 if self.big else 40
        count = self.number("H", 60 if self.big else 48)
        sections = [self.section(at + i * size) for i in range(count)]
        self.sections = sections
        self.entry_sizes = [self.number(self.word, at + i * size + (56 if self.big else 36)) for i in range(count)]
        for kind, offset, length, link in sections:
            if kind == 6:
                self.entries = self.list(offset, length, sections[link])
        self.interpreter = None
        self.stack = None
        for kind, flags, offset, length in self.segments():
            if kind == 3:
                self.interpreter = data[offset : offset + length].split(b"\0")[0].decode()
            if kind == 0x6474E551 and self.stack is None:
                self.stack = flags

    def number(self, kind, at):
        return struct.unpack_from(self.order + kind, self.data, at)[0]

    def section(self, at):
        kind = self.number("I", at + 4)
        if self.big:
            return kind, self.number("Q", at + 24), self.number("Q", at + 32), self.number("I", at + 40)
        return kind, self.number("I", at + 16), self.number("I", at + 20), self.number("I", at + 24)

    def find(self, kind):
        """The number of the section of a type, `None` without one."""
        return next((i for i, section in enumerate(self.sections) if section[0] == kind), None)

    def text(self, strings, place):
        start = self.sections[strings][1] + place
        return self.data[start : self.data.index(b"\0", start)].decode()

    def symbols(self):
        """The name of each dynamic symbol, and its version: an index, and whether it is hidden."""
        table, marks = self.find(SHT_DYNSYM), self.find(SHT_GNU_VERSYM)
        if table is None:
            return []
        _, offset, length, strings = self.sections[table]
        made = []
        for number in range(length // (24 if self.big else 16)):
            name = self.text(strings, self.number("I", offset + number * (24 if self.big else 16)))
            mark = None if marks is None else self.number("H", self.sections[marks][1] + 2 * number)
            made.append((name, None if mark is None else (mark & 0x7FFF, mark >= 0x8000)))
        return made

    def version_files(self):
        """The libraries of which versions are needed, record by record."""
        table, made = self.find(SHT_GNU_VERNEED), []
        if table is None or self.sections[table][2] == 0:
            return made
        _, at, _, strings = self.sections[table]
        while True:
            made.append(self.text(strings, self.number("I", at + 4)))
            step = self.number("I", at + 12)
            if step == 0:
                return made
            at += step

    def has_fixed_symbols(self):
        """Whether the dynamic symbols can't get other names, since a hash table can't be made anew, or a section that is kept as it
        is links to them."""
        table, gabi, gnu = (self.find(kind) for kind in (SHT_DYNSYM, SHT_HASH, SHT_GNU_HASH))
        if gabi is not None and not self.is_gabi_sound(gabi) or gnu is not None and not self.is_gnu_sound(gnu):
            return True
        others = [section for section in self.sections if section[0] not in READ_TYPES]
        return table is not None and any(link == table for _, _, _, link in others)

    def is_gabi_sound(self, number):
        _, offset, length, _ = self.sections[number]
        if self.entry_sizes[number] == 8 or length < 8:
            return False
        buckets, chains = self.number("I", offset), self.number("I", offset + 4)
        return buckets > 0 and length >= 4 * (2 + buckets + chains)

    def is_gnu_sound(self, number):
        _, offset, length, _ = self.sections[number]
        if length < 16:
            return False
        buckets, _, words, shift = (self.number("I", offset + at) for at in (0, 4, 8, 12))
        is_filter = words > 0 and words & (words - 1) == 0 and shift < 32
        return buckets > 0 and is_filter and length >= 16 + words * (8 if self.big else 4) + 4 * buckets

    def segments(self):
        at = self.number(self.word, 32 if self.big else 28)
        size = 56 if self.big else 32
        made = []
        for i in range(self.number("H", 56 if self.big else 44)):
            start = at + i * size
            kind = self.number("I", start)
            if self.big:
                rest = self.number("I", start + 4), self.number("Q", start + 8), self.number("Q", start + 32)
            else:
                rest = self.number("I", start + 24), self.number("I", start + 4), self.number("I", start + 16)
            made.append((kind,) + rest)
        return made

    def list(self, offset, length, strings):
        made = []
        step = 16 if self.big else 8
        for at in range(offset, offset + length, step):
            tag, value = self.number(self.word, at), self.number(self.word, at + step // 2)
            if tag == 0:
                break
            if tag in TEXTS:
                start = strings[1] + value
                value = self.data[start : self.data.index(b"\0", start)].decode()
            elif tag in TABLES:
                value = None
            made.append((tag, value))
        return made


# ---- what a file shows


def refusal(why):
    """The words of a cause as errors have them."""
    words = {
        "MIPS": "MIPS images can't be modified",
        "no interpreter": "No interp section found; can't set interpreter",
        "no run path": "No DT_RPATH entry found",
        "symbols can't be renumbered": "Symbol table can't be renumbered",
    }
    for short, long in [
        ("no dynamic section, can't ", "No dynamic section found; can't "), ("unknown ABI ", "Unknown ABI "),
        ("bad page size ", "Page size must be a power of 2 and >= 1024, got "),
    ]:
        if why.startswith(short):
            rest = why[len(short) :]
            return long + (lowered(rest) if short == "unknown ABI " else rest)
    return words.get(why, why)


class Image:
    """What is shown of a file, and edited."""

    def __init__(self, file):
        self.machine = file.machine
        self.entries = file.entries
        self.interpreter = file.interpreter
        self.abi = file.data[7]
        self.stack = file.stack
        self.symbols = file.symbols()
        self.version_files = file.version_files()
        self.has_fixed_symbols = file.has_fixed_symbols()
        self.pages = PAGES.get(file.machine, 4096)
        self.changed = False

    def facts(self):
        return {
            "machine": self.machine, "list": self.entries is not None, "interpreter": self.interpreter is not None,
            "fixed": [name for name, _ in self.symbols[1:]] if self.has_fixed_symbols else [],
        }

    def edit(self, edit):
        name, values = edit
        if name == "set-interpreter":
            self.interpreter = values[0].split("\0")[0]
        elif name == "set-os-abi":
            self.abi = ABIS[lowered(values[0])]
        elif name == "set-page-size":
            self.pages = values[0]
        elif name in ("clear-exec-stack", "set-exec-stack"):
            flags = 7 if self.stack is None else self.stack
            self.stack = flags & ~1 if name == "clear-exec-stack" else flags | 1
        elif name in OF_SYMBOLS:
            change = renamed if name == "rename-dynamic-symbols" else cleared
            self.symbols, wrote = change(values if name == "rename-dynamic-symbols" else values[0], self.symbols)
            self.changed = self.changed or wrote
            return
        else:
            self.entries, wrote = edited(edit, self.entries)
            self.changed = self.changed or wrote
            if name == "replace-library":
                self.replace_files(dict(values))
            return
        self.changed = True

    def replace_files(self, names):
        """Gives the libraries of which versions are needed other names."""
        self.changed = self.changed or any(library in names for library in self.version_files)
        self.version_files = [names.get(library, library) for library in self.version_files]

    def shown(self):
        entries = self.entries or []
        paths = [v for t, v in entries if t in RUN_PATHS][:1]
        names = [v for t, v in entries if t == 14][:1]
        needed = [v for t, v in entries if t == 1]
        parts = [
            ("run path", paths), ("name", names), ("needs", needed),
            ("interpreter", [] if self.interpreter is None else [self.interpreter]), ("abi", [str(self.abi)]),
            ("stack", [] if self.stack is None else ["X" if self.stack & 1 else "-"]),
        ]
        line = "".join("%s %s " % (name, "".join(text + "," for text in texts)) for name, texts in parts)
        mark = "changed" if self.changed else "as read"
        others = sum(tag not in NAMES for tag, _ in entries)
        brief = shown([e for e in entries if e[0] in NAMES])[:-1] + " and %d others\n" % others
        return brief + line + "pages %d %s\n" % (self.pages, mark)


def edit_symbols(data, words):
    """The same, and the dynamic symbols."""
    shown, image = edit_image(data, words, True)
    return shown if image is None else shown + with_symbols(image.symbols)


def edit_container(data, words, is_batch):
    return edit_image(data, words, is_batch)[0]


def edit_image(data, words, is_batch):
    """What is shown after edits, and the image."""
    edits, fault = read_edits(words)
    if fault:
        return fault + Image(File(data)).shown(), Image(File(data))
    image = Image(File(data))
    if is_batch:
        planned = Image(File(data))
        for index, edit in enumerate(edits):
            why = cause(edit, planned.facts())
            if why:
                return "edit %d refused: %s\n" % (index, refusal(why)) + image.shown(), image
            planned.edit(edit)
    for index, edit in enumerate(edits):
        why = cause(edit, image.facts())
        if why:
            return "edit %d refused: %s\n" % (index, refusal(why)) + image.shown(), image
        image.edit(edit)
    return image.shown(), image


def use_runpath(data):
    image = Image(File(data))
    if image.machine == 8:
        return "edit 0 refused: %s\n" % refusal("MIPS") + image.shown()
    if image.entries is None:
        return "edit 0 refused: No dynamic section found; can't change runpath\n" + image.shown()
    image.changed = any(tag == 15 for tag, _ in image.entries)
    image.entries = [(29 if tag == 15 else tag, value) for tag, value in image.entries]
    return image.shown()


def shrink_file(data, line):
    prefixes, _, answers = line.partition(">")
    prefixes = split(prefixes)
    image = Image(File(data))
    lines = "asks %d\n" % questions(image.entries or []).count("\n")
    why = None
    if image.machine == 8:
        why = refusal("MIPS")
    elif image.entries is None:
        why = "No dynamic section found; can't shrink rpath"
    elif any("\0" in prefix for prefix in prefixes):
        why = "NUL in a text"
    elif not any(tag in RUN_PATHS for tag, _ in image.entries):
        why = refusal("no run path")
    if why:
        return lines + "edit 0 refused: %s\n" % why + image.shown()
    image.entries, removed = shrunk_list(image.entries, prefixes, answers, str(image.machine))
    image.changed = removed != ""
    return lines + removed + image.shown()


# ---- a long list


def long_list(line):
    paths, needed = (int(word) for word in line.split(" "))
    entries = [(29, "/path%d" % i) for i in range(paths)] + [(1, "lib%d" % i) for i in range(needed)]
    names = [("lib%d" if i % 2 == 0 else "new%d") % i for i in range(needed)]
    pairs = [("lib%d" % i, "lib%d" % (i + 1)) for i in range(needed)]
    edits = [
        ("add-rpath", ["/more"]), ("add-needed", names), ("remove-needed", names), ("replace-needed", pairs),
        ("force-rpath", []), ("remove-rpath", []),
    ]
    lines = ""
    for edit in edits:
        made = edited(edit, entries)[0]
        lines += "%d entries, %d bytes\n" % (len(made), sum(len(v) for _, v in made))
    return lines


# ---- lines


def pair(word):
    if "=" not in word:
        return "invalid KEY=value: no `=` found in `%s`\n" % word
    return "key %s, value %s\n" % tuple(word.split("=", 1))


def stored(word):
    text = plain(word)
    if text and not text.endswith("\0"):
        text += "\0"
    return text.replace("\0", "~") + "\n"


def answer(kind, rest, data):
    if kind == "?":
        edits, fault = read_edits(rest)
        return fault or "[%s]\n" % ", ".join(debug(edit) for edit in edits)
    if kind == "k":
        return pair(rest)
    if kind == "a":
        return "%s\n" % ABIS.get(lowered(rest), "unknown")
    if kind == "n":
        return stored(rest)
    if kind == "@":
        entries, _, words = rest.partition(">")
        return edit_list(words, entries_of(entries), {"machine": 62, "list": True, "interpreter": False})
    if kind == "%":
        return questions(entries_of(rest))
    if kind == "-":
        return shrunk(rest)
    if kind == "*":
        return long_list(rest)
    if kind == "u":
        return "".join("%s: %s" % (name, use_runpath(data[name])) for name in data)
    if kind == "~":
        return "".join("%s: %s" % (name, shrink_file(data[name], rest)) for name in data)
    if kind == "=":
        return "".join("%s: %s" % (name, shown(File(data[name]).entries or [])) for name in data)
    if kind == "$":
        return "".join("%s: %s" % (name, edit_symbols(data[name], rest)) for name in data)
    if kind in ("!", "."):
        return "".join("%s: %s" % (name, edit_container(data[name], rest, kind == "!")) for name in data)
    return ""


def content(folder, name):
    with open(os.path.join(folder, name), "rb") as file:
        return file.read()


def names_of(folder):
    """The files of lines about edits of which this model tells, in their order."""
    names = content(folder, "cases").decode().splitlines()
    return [name for name in names if name.startswith("edits/") and name not in UNKNOWN]


def printed(folder, name):
    """What a file of lines has to print."""
    data = {}
    out = "==== %s\n" % name
    for line in content(folder, name).decode().split("\n")[:-1]:
        kind, _, rest = line.partition(" ")
        if kind == "=":
            data = {file: content(folder, file) for file in rest.split(" ")}
        out += line + "\n" + answer(kind, rest, data)
    return out


def main():
    here = os.path.dirname(os.path.abspath(__file__))
    folder = sys.argv[1] if len(sys.argv) > 1 else os.path.join(here, "data")
    out = "".join(printed(folder, name) for name in names_of(folder))
    sys.stdout.buffer.write(out.encode())


if __name__ == "__main__":
    main()
