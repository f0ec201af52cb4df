#!/usr/bin/env python3
"""Measures what files cost `arwen` that were crafted to cost much: how time, memory and output grow with the file.

    python3 bench/crafted.py [--runs N] [--only WORD] [--program PATH] [--limit SECONDS] [--record]

A family is a kind of file that is made at four sizes: n, 2n, 4n and 8n. What repeats in it shares bytes, so that a program
that copies or compares all of it does much more than the file is long. Each family stands with one or two edits. The files
are made in a temporary folder that is gone at the end, and each run works on a fresh copy. Of the alignment of a section and of
sparse files the numbers are bytes, in greater steps.

For each edit and size a line tells the processor time (the median of N runs, 3, or that of one run where it takes more than
half a second), the peak of the resident memory, and the bytes after the edit, or those printed where the edit prints. The
peak is never told below that of this script, about 13 MB. A last line tells the exponent of the time: that of the last
step, and that of a line through all sizes. An exponent of 1 is time in proportion to the file, of 2 its square.

The aims: both exponents are at most 1.2, which counts where the largest file takes 20 ms or more; memory is at most three
times the file and 16 MiB; the output is at most twice the file, or at most 64 MiB more. A refusal of the edit meets the last
one. A run has limits of time (20 s), address space (6 GiB) and the size of what it writes (1 GiB). A family that runs into one
misses its aim, its larger files are left out, and the exponents are those of the files before. Of a sparse file only the bytes
on the disk count. The status is 1 where an aim is missed, 2 where the program is missing. All takes four minutes of processor
time.

`--record` adds the rows to records/benches.tsv.
"""

import argparse
import math
import os
import resource
import shutil
import signal
import struct
import sys
import tempfile
import time

HERE = os.path.dirname(os.path.abspath(__file__))
TOP = os.path.dirname(HERE)
PROGRAM = os.path.join(TOP, "crates", "arwen", "out", "arwen")
TABLE = os.path.join(TOP, "records", "benches.tsv")
KILOBYTE, MEGABYTE, GIGABYTE = 1 << 10, 1 << 20, 1 << 30

sys.path.insert(0, os.path.join(TOP, "examples"))
sys.dont_write_bytecode = True

import make  # noqa: E402

# The aims, and the time in seconds from which an exponent counts.
MOST_EXPONENT = 1.2
COUNTS_FROM = 0.020
MOST_MEMORY, SPARE_MEMORY = 3, 16 * MEGABYTE
MOST_OUTPUT, SPARE_OUTPUT = 2, 64 * MEGABYTE

# The limits of a run, apart from that of time.
MOST_SPACE = 6 * GIGABYTE
MOST_WRITTEN = GIGABYTE

# A run that takes longer than so many seconds isn't repeated.
LONG = 0.5

# The status of a child in which the program could not begin.
NOT_BEGUN = 127

# A run path that does not fit where the old one stands.
LONG_PATH = "/opt/" + "long/" * 40 + "lib"

# The name that an edit of one thing works on, and its new name.
OLD, NEW = "one", "two-is-longer"

PAGE = 4096

# Kinds of sections, and tags of the dynamic section.
PROGBITS, SYMTAB, STRTAB, DYNAMIC, DYNSYM = 1, 2, 3, 6, 11
GNU_HASH, VERDEF, VERNEED, VERSYM = 0x6FFFFFF6, 0x6FFFFFFD, 0x6FFFFFFE, 0x6FFFFFFF
DT_NEEDED, DT_STRTAB, DT_SYMTAB, DT_STRSZ, DT_SYMENT, DT_RUNPATH = 1, 5, 6, 10, 11, 29
DT_GNU_HASH, DT_VERSYM = 0x6FFFFEF5, 0x6FFFFFF0
DT_VERDEF, DT_VERDEFNUM, DT_VERNEED, DT_VERNEEDNUM = 0x6FFFFFFC, 0x6FFFFFFD, 0x6FFFFFFE, 0x6FFFFFFF


class Strings:
    """A table of strings."""

    def __init__(self):
        self.data = bytearray(1)

    def add(self, text):
        """Adds a string; answers where it begins."""
        at = len(self.data)
        self.data += text.encode() + b"\0"
        return at

    def add_tails(self, count, length):
        """Adds one text of a letter; answers where so many tails of it begin, each a byte behind the one before."""
        at = self.add("a" * length)
        return range(at, at + count)


def hashes_at(strings, places):
    """The hashes by which a loader of GNU looks up the strings that begin at these places. Those of all tails of one text take
    one pass over it, from its end."""
    wanted = set(places)
    found = {}
    power, value = 1, 0
    for at in range(len(strings) - 1, -1, -1):
        if strings[at] == 0:
            power, value = 1, 0
        else:
            value = (value + strings[at] * power) & 0xFFFFFFFF
            power = power * 33 & 0xFFFFFFFF
        if at in wanted:
            found[at] = (5381 * power + value) & 0xFFFFFFFF
    return found


class Library:
    """A shared object for x86-64, of tables that are filled before it is written."""

    def __init__(self):
        self.names = Strings()  # those of sections
        self.strings = Strings()  # those for the loader
        self.symbols = []  # where the names of dynamic symbols begin, each with its version
        self.needed = []  # where the names of needed libraries begin
        self.static_strings = Strings()
        self.static = []  # where the names of static symbols begin
        self.needs = (b"", 0)  # records of needed versions, and how many
        self.defines = (b"", 0)  # records of defined versions, and how many
        self.unloaded = []  # where the names of sections begin that no segment has, each with its alignment
        self.range = b""  # the bytes that all of these share
        self.path = self.strings.add("/opt/old")
        self.out = bytearray(64 + 56 * 4)
        self.headers = [(0,) * 10]

    def add_section(self, name, kind, data, align=1, link=0, info=0, entry=0, flags=0):
        """Puts a section at the end; answers where it begins."""
        self.out += bytes(-len(self.out) % align)
        at = len(self.out)
        self.out += data
        address = at if flags & 2 else 0
        name = name if isinstance(name, int) else self.names.add(name)
        self.headers.append((name, kind, flags, address, at, len(data), link, info, align, entry))
        return at

    def hash_table(self):
        """Sorts the symbols by their buckets; answers the table by which a loader finds them."""
        hashes = hashes_at(self.strings.data, [at for at, _ in self.symbols])
        count = len(self.symbols) // 2 + 1
        self.symbols.sort(key=lambda symbol: hashes[symbol[0]] % count)
        buckets, chain = [0] * count, []
        for index, (at, _) in enumerate(self.symbols):
            bucket = hashes[at] % count
            buckets[bucket] = buckets[bucket] or index + 1
            if chain and hashes[self.symbols[index - 1][0]] % count != bucket:
                chain[-1] |= 1
            chain.append(hashes[at] & ~1)
        if chain:
            chain[-1] |= 1
        return struct.pack(f"<IIIIQ{count}I{len(chain)}I", count, 1, 1, 6, (1 << 64) - 1, *buckets, *chain)

    def add_loaded(self):
        """Puts the sections that a loader reads; answers the entries of the dynamic section."""
        table = self.hash_table()
        symbols = bytes(24) + b"".join(struct.pack("<IBBHQQ", at, 0x11, 0, 0xFFF1, 0, 8) for at, _ in self.symbols)
        versions = struct.pack(f"<{len(self.symbols) + 1}H", 0, *(version for _, version in self.symbols))
        entries = [(DT_NEEDED, at) for at in self.needed] + [(DT_RUNPATH, self.path)]
        entries.append((DT_GNU_HASH, self.add_section(".gnu.hash", GNU_HASH, table, 8, link=2, flags=2)))
        entries.append((DT_SYMTAB, self.add_section(".dynsym", DYNSYM, symbols, 8, 3, 1, 24, 2)))
        entries.append((DT_STRTAB, self.add_section(".dynstr", STRTAB, self.strings.data, flags=2)))
        entries += [(DT_STRSZ, len(self.strings.data)), (DT_SYMENT, 24)]
        if self.needs[1] or self.defines[1]:
            at = self.add_section(".gnu.version", VERSYM, versions, 2, link=2, entry=2, flags=2)
            entries.append((DT_VERSYM, at))
        for name, kind, (data, count), tags in [
            (".gnu.version_d", VERDEF, self.defines, (DT_VERDEF, DT_VERDEFNUM)),
            (".gnu.version_r", VERNEED, self.needs, (DT_VERNEED, DT_VERNEEDNUM)),
        ]:
            if count:
                at = self.add_section(name, kind, data, 8, link=3, info=count, flags=2)
                entries += zip(tags, (at, count))
        return entries

    def add_unloaded(self):
        """Puts the sections that no loader reads, and the headers of all; answers where these begin."""
        self.out += bytes(-len(self.out) % 16)
        at = len(self.out)
        self.out += self.range
        self.headers += [(name, PROGBITS, 0, 0, at, len(self.range), 0, 0, align, 0) for name, align in self.unloaded]
        if self.static:
            records = b"".join(struct.pack("<IBBHQQ", name, 0x11, 0, 0xFFF1, 0, 8) for name in self.static)
            link = len(self.headers) + 1
            self.add_section(".symtab", SYMTAB, bytes(24) + records, 8, link, 1, 24)
            self.add_section(".strtab", STRTAB, self.static_strings.data)
        name = self.names.add(".shstrtab")
        self.add_section(name, STRTAB, self.names.data)
        self.out += bytes(-len(self.out) % 8)
        start = len(self.out)
        self.out += b"".join(struct.pack("<IIQQQQIIQQ", *header) for header in self.headers)
        return start

    def write(self, path):
        """Writes the file."""
        entries = self.add_loaded()
        read_only = len(self.out)
        self.out += bytes(-len(self.out) % PAGE)
        data = b"".join(struct.pack("<QQ", *entry) for entry in [*entries, (0, 0)])
        begin = self.add_section(".dynamic", DYNAMIC, data, 16, link=3, entry=16, flags=3)
        start = self.add_unloaded()
        count = len(self.headers)
        head = (b"\x7fELF\2\1\1" + bytes(9), 3, 62, 1, 0, 64, start, 0, 64, 56, 4, 64, count, count - 1)
        struct.pack_into("<16sHHIQQQIHHHHHH", self.out, 0, *head)
        segments = [(1, 4, 0, read_only, PAGE), (1, 6, begin, len(data), PAGE), (2, 6, begin, len(data), 8)]
        for number, (kind, flags, at, size, align) in enumerate([*segments, (0x6474E551, 6, 0, 0, 16)]):
            struct.pack_into("<IIQQQQQQ", self.out, 64 + 56 * number, kind, flags, at, at, at, size, size, align)
        with open(path, "wb") as out:
            out.write(self.out)


def library_of(fill):
    """A function that makes a file of a family of shared objects: `fill` fills the tables."""
    def build(path, number):
        library = Library()
        fill(library, number)
        library.write(path)
    return build


def section_tails(library, number):
    """Names of sections outside all segments."""
    library.unloaded = [(at, 1) for at in library.names.add_tails(number, 64 * number)]
    library.unloaded.append((library.names.add(OLD), 1))


def symbol_tails(library, number):
    """Names of symbols for link editors."""
    library.static = [*library.static_strings.add_tails(number, 4 * number), library.static_strings.add(OLD)]


def dynamic_tails(library, number):
    """Names of symbols for the loader."""
    library.symbols = [(at, 1) for at in [*library.strings.add_tails(number, 32 * number), library.strings.add(OLD)]]


def needed_tails(library, number):
    """Names of needed libraries."""
    library.needed = library.strings.add_tails(number, 4 * number)


def shared_needs(library, number):
    """Records of needed versions, all of which have the same list behind them."""
    file, version = library.strings.add("libc.so.6"), library.strings.add("V_1")
    library.needed = [file]
    library.symbols = [(library.strings.add(OLD), 2)]
    end = 16 * number
    records = [struct.pack("<HHIII", 1, number, file, end - at, 16 * (at + 16 < end)) for at in range(0, end, 16)]
    hashed = elf_hash(b"V_1")
    lists = [struct.pack("<IHHII", hashed, 0, 2 + at, version, 16 * (at + 1 < number)) for at in range(number)]
    library.needs = (b"".join(records + lists), number)


def shared_definitions(library, number):
    """Records of defined versions, all of which have the same list behind them."""
    name = library.strings.add("V_1")
    library.symbols = [(library.strings.add(OLD), 2)]
    end = 20 * number
    hashed = elf_hash(b"V_1")
    records = [struct.pack("<HHHHIII", 1, at == 0, 1 + at // 20, number, hashed, end - at, 20 * (at + 20 < end))
               for at in range(0, end, 20)]
    lists = [struct.pack("<II", name, 8 * (at + 1 < number)) for at in range(number)]
    library.defines = (b"".join(records + lists), number)


def elf_hash(data):
    """The hash of a version's name."""
    value = 0
    for byte in data:
        value = (value << 4) + byte
        high = value & 0xF0000000
        value = (value ^ high >> 24) & ~high
    return value


def shared_bytes(library, number):
    """Sections outside all segments, each of which is all of the same bytes."""
    name = library.names.add(".shared")
    library.range = bytes(64 * number)
    library.unloaded = [(name, 1)] * number


def wide_alignment(library, number):
    """One small section outside all segments, which asks for this alignment."""
    library.range = bytes(KILOBYTE)
    library.unloaded = [(library.names.add(".wide"), number)]


def many_sections(library, number):
    """Sections without bytes, each with a name of its own."""
    library.unloaded = [(library.names.add(f".old{at}"), 1) for at in range(number)]


def many_symbols(library, number):
    """Symbols of one needed version."""
    file, version = library.strings.add("libc.so.6"), library.strings.add("V_1")
    library.needed = [file]
    records = struct.pack("<HHIII", 1, 1, file, 16, 0) + struct.pack("<IHHII", elf_hash(b"V_1"), 0, 2, version, 0)
    library.needs = (records, 1)
    library.symbols = [(library.strings.add(f"old{at}"), 2) for at in range(number)]


LITTLE = make.Form(64, "<")


def program_of(commands, size):
    """The front of a Mach-O program of these commands, which has a text segment of so many bytes, and a page behind it where
    code may begin."""
    base = 0x100000000
    area = len(make.segment(LITTLE, b"__TEXT", base, size, 0, size, 5, [bytes(80)])) + len(b"".join(commands))
    begin = -(-(32 + area) // PAGE) * PAGE + PAGE
    code = make.section(LITTLE, b"__text", b"__TEXT", base + begin, 16, begin)
    body = make.segment(LITTLE, b"__TEXT", base, size, 0, size, 5, [code]) + b"".join(commands)
    head = LITTLE.pack("IIIIIIII", 0xFEEDFACF, *make.ARM64, make.MH_EXECUTE, len(commands) + 1, len(body), make.MH_FLAGS, 0)
    return (head + body).ljust(begin, b"\0")


def write_program(path, front, size, behind=b""):
    """Writes a program: its front, no bytes up to its size, and what stands behind it."""
    with open(path, "wb") as out:
        out.write(front)
        out.truncate(size)
        out.seek(size)
        out.write(behind)


def many_directories(path, number):
    """A program whose signature has so many directories of hashes, each with one hash of all of the code."""
    limit = max(64 * number, 3 * PAGE)
    fields = (0xFADE0C02, 46 + 32, 0x20001, 2, 46, 44, 0, 1, limit)
    directory = struct.pack(">9I", *fields) + bytes([32, 2, 0, 0]) + bytes(4) + b"b\0" + bytes(32)
    begin, length = 12 + 8 * number, len(directory)
    index = b"".join(struct.pack(">II", 0x1000 if at else 0, begin + at * length) for at in range(number))
    signature = struct.pack(">III", 0xFADE0CC0, begin + number * length, number) + index + directory * number
    linked = -(-len(signature) // PAGE) * PAGE
    commands = [
        make.segment(LITTLE, b"__LINKEDIT", 0x100000000 + limit, linked, limit, len(signature), 1),
        LITTLE.pack("IIII", 0x1D, 16, limit, len(signature)),
    ]
    write_program(path, program_of(commands, limit), limit, signature)


def many_paths(path, number):
    """A program with so many run paths."""
    commands = [make.rpath(LITTLE, b"/old/%d" % at) for at in range(number)]
    size = len(program_of(commands, 0)) + PAGE
    write_program(path, program_of(commands, size), size)


def many_libraries(path, number):
    """A program that loads so many libraries."""
    commands = [make.dylib(LITTLE, make.LC_LOAD_DYLIB, b"/old/%d" % at) for at in range(number)]
    size = len(program_of(commands, 0)) + PAGE
    write_program(path, program_of(commands, size), size)


def sparse(path, number):
    """A program of so many bytes, nearly all of which are not on the disk."""
    commands = [make.dylib(LITTLE, make.LC_LOAD_DYLIB, make.SYSTEM_LIBRARY)]
    write_program(path, program_of(commands, number), number)


def elf(*words):
    """An edit of an ELF file, whose path stands last."""
    return lambda copy, number: ["elf", *words, copy]


def one_name(command):
    """An edit that gives one thing another name."""
    return lambda copy, number: ["elf", command, copy, f"{OLD}={NEW}"]


def all_names(command, old, new):
    """An edit that gives each of so many things another name."""
    return lambda copy, number: ["elf", command, copy, *(f"{old}{at}={new}{at}" for at in range(number))]


def all_of(group, words_of):
    """An edit of each of so many things, in one list."""
    def words(copy, number):
        listed = [word for at in range(number) for word in [*words_of(at), "+"]]
        return [group, "apply", copy, *listed[:-1]]
    return words


LONGER = elf("set-rpath", LONG_PATH)
ALIGNMENTS = [1 << 20, 1 << 24, 1 << 28, 1 << 32]
SPARSE = [GIGABYTE, 8 * GIGABYTE, 64 * GIGABYTE]


def doubled(number):
    return [number, 2 * number, 4 * number, 8 * number]


# The families: a name, what makes a file, its numbers (how many there are of what repeats), and the edits by their names.
FAMILIES = [
    ("section names, tails of one", library_of(section_tails), doubled(256), {
        "rename-sections": one_name("rename-sections"),
    }),
    ("static symbol names, tails of one", library_of(symbol_tails), doubled(1024), {
        "rename-symbols": one_name("rename-symbols"),
    }),
    ("dynamic symbol names, tails of one", library_of(dynamic_tails), doubled(512), {
        "set-rpath": LONGER,
        "rename-dynamic-symbols": one_name("rename-dynamic-symbols"),
    }),
    ("needed libraries, tails of one", library_of(needed_tails), doubled(1280), {
        "print-needed": elf("print-needed"),
        "set-rpath": LONGER,
    }),
    ("needed versions, one list", library_of(shared_needs), doubled(1024), {
        "rename-dynamic-symbols": one_name("rename-dynamic-symbols"),
        "clear-symbol-version": elf("clear-symbol-version", OLD),
    }),
    ("defined versions, one list", library_of(shared_definitions), doubled(1024), {
        "rename-dynamic-symbols": one_name("rename-dynamic-symbols"),
    }),
    ("sections over the same bytes", library_of(shared_bytes), doubled(256), {
        "set-rpath": LONGER,
    }),
    ("alignment of a section", library_of(wide_alignment), ALIGNMENTS, {
        "set-rpath": LONGER,
    }),
    ("many sections", library_of(many_sections), doubled(512), {
        "rename-sections of all": all_names("rename-sections", ".old", ".new"),
    }),
    ("many symbols", library_of(many_symbols), doubled(1024), {
        "rename-dynamic-symbols of all": all_names("rename-dynamic-symbols", "old", "new"),
        "clear-symbol-version of all": all_of("elf", lambda at: ["clear-symbol-version", f"old{at}"]),
    }),
    ("Mach-O, directories over the same code", many_directories, doubled(384), {
        "show": lambda copy, number: ["show", copy],
        "macho sign": lambda copy, number: ["macho", "sign", copy],
    }),
    ("Mach-O, many run paths", many_paths, doubled(1024), {
        "change-rpath of all": all_of("macho", lambda at: ["change-rpath", f"/old/{at}", f"/new/{at}"]),
    }),
    ("Mach-O, many libraries", many_libraries, doubled(1024), {
        "change-install-name of all": all_of("macho", lambda at: ["change-install-name", f"/old/{at}", f"/new/{at}"]),
    }),
    ("Mach-O, sparse", sparse, SPARSE, {
        "add-rpath": lambda copy, number: ["macho", "add-rpath", "/usr/local/lib", copy],
    }),
]

# The edits that print: what they print is their output.
PRINTS = ("show", "print-needed")


class Run:
    """One run: its processor time, its peak of memory, the bytes after it, and how it ended."""

    def __init__(self, seconds, peak, output, ended):
        self.seconds = seconds
        self.peak = peak
        self.output = output
        self.ended = ended


def limit_run(seconds):
    """Sets the limits of the program that is about to begin. A signal tells it where its time is over; a second later it is
    ended by force."""
    for which, most, more in [
        (resource.RLIMIT_CPU, math.ceil(seconds), 1), (resource.RLIMIT_AS, MOST_SPACE, 0),
        (resource.RLIMIT_FSIZE, MOST_WRITTEN, 0), (resource.RLIMIT_CORE, 0, 0),
    ]:
        hard = resource.getrlimit(which)[1]
        last = most + more if hard < 0 else min(most + more, hard)
        resource.setrlimit(which, (min(most, last), last))


def how_it_ended(code, said):
    """`ok`, `refused: ` and what the program said, or the limit that it ran into."""
    if code == 0:
        return "ok"
    if code == -signal.SIGXCPU:
        return "limit of time"
    if code == -signal.SIGXFSZ or "File too large" in said:
        return "limit of what is written"
    if "emory" in said:
        return "limit of memory"
    if code < 0:
        return "ended by " + signal.Signals(-code).name
    if code == NOT_BEGUN:
        return "ended before it began"
    return "refused: " + said.strip().rpartition(": ")[2]


def begin(words_of, printed, said, options):
    """Begins the program in a child, which puts its words together itself: a program's peak is never told below that of the
    process that begins it, so this one stays small."""
    child = os.fork()
    if child:
        return child
    try:
        for path, place in [(os.devnull, 0), (printed, 1), (said, 2)]:
            os.dup2(os.open(path, os.O_RDWR | os.O_CREAT | os.O_TRUNC, 0o600), place)
        words = [options.program, *words_of()]
        limit_run(options.limit)
        os.execv(options.program, words)
    finally:
        os._exit(NOT_BEGUN)


def run_once(words_of, copy, prints, options):
    """Runs the program on a copy, within the limits."""
    printed, said = copy + ".printed", copy + ".said"
    child = begin(words_of, printed, said, options)
    _, status, usage = os.wait4(child, 0)
    seconds = usage.ru_utime + usage.ru_stime
    with open(said, errors="replace") as text:
        ended = how_it_ended(os.waitstatus_to_exitcode(status), text.read(500))
    output = os.path.getsize(printed if prints else copy)
    os.remove(printed)
    os.remove(said)
    return Run(seconds, usage.ru_maxrss * 1024, output, ended)


def in_child(work):
    """Does something in a child, so that this script stays small."""
    child = os.fork()
    if child == 0:
        try:
            work()
        except BaseException as error:
            print(error, file=sys.stderr)
            os._exit(1)
        os._exit(0)
    if os.waitpid(child, 0)[1] != 0:
        sys.exit("a file could not be made")


def bytes_of(path):
    """How long a file is, or how many bytes it has on the disk where these are fewer."""
    facts = os.stat(path)
    return min(facts.st_size, facts.st_blocks * 512) if facts.st_size >= GIGABYTE else facts.st_size


def measure(family, number, edit, place, options):
    """Makes a file and runs an edit of it; answers the size of the file, and a run with the median time."""
    _, build, _, edits = family
    made, copy = os.path.join(place, "made"), os.path.join(place, "copy")
    in_child(lambda: build(made, number))
    size, whole = bytes_of(made), os.path.getsize(made)
    runs = []
    while len(runs) < options.runs and not (runs and (runs[-1].seconds > LONG or runs[-1].ended != "ok")):
        # A sparse file is made anew: in a copy the bytes that it lacks would be on the disk.
        in_child(lambda: build(copy, number) if size < whole else shutil.copyfile(made, copy))
        runs.append(run_once(lambda: edits[edit](copy, number), copy, edit in PRINTS, options))
    os.remove(copy)
    os.remove(made)
    last = runs[-1]
    seconds = sorted(run.seconds for run in runs)[len(runs) // 2]
    return size, Run(seconds, max(run.peak for run in runs), last.output - (whole - size), last.ended)


def missed_aims(size, run):
    """The aims that a run missed."""
    missed = []
    if run.ended.startswith(("limit", "ended")):
        missed.append(run.ended)
    if run.peak > MOST_MEMORY * size + SPARE_MEMORY:
        missed.append("memory")
    if run.ended == "ok" and run.output > max(MOST_OUTPUT * size, size + SPARE_OUTPUT):
        missed.append("output")
    return missed


def exponents(sizes, times):
    """The exponent of the last step, and that of a line through all; none of fewer than two times."""
    if len(times) < 2:
        return None
    x, y = [math.log(size) for size in sizes], [math.log(max(seconds, 1e-4)) for seconds in times]
    middle = sum(x) / len(x)
    slope = sum((a - middle) * b for a, b in zip(x, y)) / sum((a - middle) ** 2 for a in x)
    return (y[-1] - y[-2]) / (x[-1] - x[-2]), slope


def compare(family, edit, place, options, rows):
    """Measures an edit of a family at all sizes, prints what it costs, and answers whether an aim is missed."""
    name, numbers = family[0], family[2]
    print(f"{name}, {edit}:", flush=True)
    sizes, times, missed, seen = [], [], [], None
    for number in numbers:
        size, run = measure(family, number, edit, place, options)
        seen = (number, size, run)
        told = "" if run.ended == "ok" else f"; {run.ended}"
        print(f"  {number}: {size} bytes, {run.seconds:.3f} s, peak {run.peak / MEGABYTE:.1f} MB, output {run.output} bytes, "
              f"{run.output / size:.2f} times the file{told}", flush=True)
        missed += [aim for aim in missed_aims(size, run) if aim not in missed]
        if run.ended.startswith(("limit", "ended")):
            left = numbers[numbers.index(number) + 1:]
            print("".join(f"  left out: {more}\n" for more in left), end="")
            break
        sizes.append(number)
        times.append(run.seconds)
    slopes = exponents(sizes, times)
    if slopes and times[-1] >= COUNTS_FROM and max(slopes) > MOST_EXPONENT:
        missed.append("exponent")
    growth = f"exponent {slopes[0]:.2f}, of a line through all {slopes[1]:.2f}" if slopes else "no exponent"
    print(f"  {growth}: {'MISSED ' + ', '.join(missed) if missed else 'within the aims'}", flush=True)
    rows += rows_of(name, edit, seen, slopes, missed)
    return bool(missed)


def rows_of(name, edit, seen, slopes, missed):
    """The rows for the table: the largest file that was tried, and the exponent."""
    number, size, run = seen
    file = f"{name}: {number}"
    note = f"{size} bytes" if run.ended == "ok" else f"{size} bytes; {run.ended}"
    of_all = f"; of a line through all {slopes[1]:.2f}" if slopes else ""
    aims = "missed: " + ", ".join(missed) if missed else "within the aims"
    return [
        (file, edit, "processor time", f"{run.seconds:.3f}", "s", note),
        (file, edit, "peak of memory", f"{run.peak / MEGABYTE:.1f}", "MB", note),
        (file, edit, "output", f"{run.output / size:.2f}", "times the file", note),
        (name, edit, "exponent of the time", f"{slopes[0]:.2f}" if slopes else "none", "power", aims + of_all),
    ]


def record(rows):
    """Adds rows to the table of benches."""
    date = time.strftime("%Y-%m-%d")
    with open(TABLE, "a", encoding="utf-8") as table:
        for row in rows:
            table.write("\t".join((date, "bench/crafted.py", *row)) + "\n")


def main():
    parser = argparse.ArgumentParser(description=__doc__, formatter_class=argparse.RawDescriptionHelpFormatter)
    parser.add_argument("--runs", type=int, default=3, help="how often a short run is repeated (3)")
    parser.add_argument("--only", default="", help="a word of the families' or edits' names")
    parser.add_argument("--program", default=PROGRAM, help="arwen's path")
    parser.add_argument("--limit", type=float, default=20, help="seconds of processor time that a run may take (20)")
    parser.add_argument("--record", action="store_true", help="add the rows to records/benches.tsv")
    options = parser.parse_args()
    if not os.access(options.program, os.X_OK):
        print("the program is not built: run ./arwen --help first", file=sys.stderr)
        return 2
    rows, failed, count = [], [], 0
    with tempfile.TemporaryDirectory() as place:
        for family in FAMILIES:
            for edit in family[3]:
                if options.only in f"{family[0]}, {edit}":
                    count += 1
                    if compare(family, edit, place, options, rows):
                        failed.append(f"{family[0]}, {edit}")
    print(f"{len(failed)} of {count} miss their aims" + "".join(f"\n  {name}" for name in failed))
    if options.record:
        record(rows)
    return 1 if failed else 0


if __name__ == "__main__":
    sys.exit(main())
