#!/usr/bin/env python3
"""Says whether what this crate's program printed of edits of ELF files is right, by a model of its own.

    python3 crates/test_cases/check.py [STDOUT]

STDOUT is what the program printed, or the file `stdout` beside this script. Of the command line's files of lines the rows
that were printed are laid over the file that was edited; what the new bytes show, by their section headers and by their
program headers alone, has to be what the model makes of what the old bytes showed. Where an edit was refused, the model
has to know why, but for a refused layout, which it can't foresee. Files that were not read are passed over. The files of
lines about edits have to print what the model says. Python's standard library is enough.
"""

import os
import re
import struct
import sys

HERE = os.path.dirname(os.path.abspath(__file__))
sys.path.insert(0, HERE)
sys.dont_write_bytecode = True
import model  # noqa: E402

PT_LOAD, PT_DYNAMIC, PT_INTERP, PT_GNU_STACK = 1, 2, 3, 0x6474E551
DT_STRTAB, DT_STRSZ = 5, 10
LEAVE = "--move-dynamic"
# What only the layout knows, and what only a reader of a whole file does.
OVERLAP = "Overlapping immovable sections"
UNREAD = "A parse error occurred while reading the file"


class Loaded:
    """What a loader sees of an ELF file that knows its program headers alone."""

    def __init__(self, data):
        self.file = model.File(data)
        self.data = data
        self.abi = data[7]
        self.segments = list(self.headers())
        self.entries, self.interpreter, self.stack = None, None, None
        for kind, flags, _, address, size, _ in self.segments:
            if kind == PT_DYNAMIC:
                self.entries = self.listed(address, size)
            if kind == PT_INTERP:
                self.interpreter = self.read(address, size).split(b"\0")[0].decode()
            if kind == PT_GNU_STACK and self.stack is None:
                self.stack = flags
        self.aligned = [align for kind, _, _, _, _, align in self.segments if kind == PT_LOAD]

    def headers(self):
        """Kind, flags, offset, address, size in the file and alignment of each program header."""
        read, big = self.file.number, self.file.big
        at, size = read(self.file.word, 32 if big else 28), 56 if big else 32
        for start in range(at, at + size * read("H", 56 if big else 44), size):
            if big:
                places = ("I", 4), ("Q", 8), ("Q", 16), ("Q", 32), ("Q", 48)
            else:
                places = ("I", 24), ("I", 4), ("I", 8), ("I", 16), ("I", 28)
            yield (read("I", start),) + tuple(read(kind, start + at) for kind, at in places)

    def read(self, address, size):
        """Bytes of the memory that the file's loaded segments are."""
        for kind, _, offset, start, length, _ in self.segments:
            if kind == PT_LOAD and start <= address and address + size <= start + length:
                return self.data[offset + address - start : offset + address - start + size]
        raise ValueError("no segment holds %d bytes at %#x" % (size, address))

    def listed(self, address, size):
        order = "little" if self.file.order == "<" else "big"
        unit = 8 if self.file.big else 4
        content = self.read(address, size)
        words = [int.from_bytes(content[at : at + unit], order) for at in range(0, size, unit)]
        pairs = list(zip(words[0::2], words[1::2]))
        pairs = pairs[: [tag for tag, _ in pairs].index(0)]
        numbers = dict(pairs)
        self.numbers = pairs
        strings = self.read(numbers[DT_STRTAB], numbers[DT_STRSZ])
        made = []
        for tag, value in pairs:
            if tag in model.TEXTS:
                value = strings[value : strings.index(b"\0", value)].decode()
            made.append((tag, None if tag in model.TABLES else value))
        return made


SHT_SYMTAB, SHT_RELA, SHT_REL, SHT_DYNSYM, SHT_HASH, SHT_GNU_HASH = 2, 4, 9, 11, 5, 0x6FFFFFF6
SHT_GNU_VERNEED, SHT_GNU_VERSYM = 0x6FFFFFFE, 0x6FFFFFFF
DT_HASH, DT_SYMTAB, DT_GNU_HASH, DT_VERSYM, DT_VERNEED, DT_VERNEEDNUM = 4, 6, 0x6FFFFEF5, 0x6FFFFFF0, 0x6FFFFFFE, 0x6FFFFFFF


class Symbols:
    """The dynamic symbols of a file by its section headers: their records, hash tables, relocations, and versions that are needed."""

    def __init__(self, file):
        self.file = file
        self.table = file.find(SHT_DYNSYM)
        self.parts = {kind: self.body(file.find(kind)) for kind in (SHT_DYNSYM, SHT_HASH, SHT_GNU_HASH, SHT_GNU_VERSYM)}
        self.rows = [] if self.table is None else list(self.records())
        self.needs = list(self.needed())

    def unpack(self, fields, data, at=0):
        return struct.unpack_from(self.file.order + fields, data, at)

    def body(self, number):
        """The bytes of the section with that number, `None` without one."""
        if number is None:
            return None
        _, offset, length, _ = self.file.sections[number]
        return self.file.data[offset : offset + length]

    def records(self):
        """Name, version and numbers of each symbol."""
        body, size = self.parts[SHT_DYNSYM], 24 if self.file.big else 16
        for n, (name, version) in enumerate(self.file.symbols()):
            if self.file.big:
                _, info, other, section, value, length = self.unpack("IBBHQQ", body, n * size)
            else:
                _, value, length, info, other, section = self.unpack("IIIBBH", body, n * size)
            yield name, version, (info, other, section, value, length)

    def needed(self):
        """A library, and index, flags and name of each version that is needed of it; the hash of each name has to be right."""
        number = self.file.find(SHT_GNU_VERNEED)
        body, at = self.body(number), 0
        while body:
            _, count, library, first, after = self.unpack("HHIII", body, at)
            names, place = [], at + first
            for _ in range(count):
                told, flags, index, name, step = self.unpack("IHHII", body, place)
                text = self.file.text(self.file.sections[number][3], name)
                if told != gabi_hash(text.encode()):
                    raise ValueError("the hash of the version %s is %#x" % (text, told))
                names.append((index, flags, text))
                place += step
            yield self.file.text(self.file.sections[number][3], library), names
            at += after
            if not after:
                return

    def relocations(self, rows):
        """The relocations against these symbols: offset, type, the symbol, and what is added, where it stands there."""
        for number, (kind, _, _, link) in enumerate(self.file.sections):
            if kind not in (SHT_REL, SHT_RELA) or link != self.table:
                continue
            body, fields = self.body(number), ("Q" if self.file.big else "I") * (3 if kind == SHT_RELA else 2)
            for at in range(0, len(body), struct.calcsize("<" + fields)):
                place, info, *rest = self.unpack(fields, body, at)
                bits = 32 if self.file.big else 8
                yield place, info & (1 << bits) - 1, rows[info >> bits], rest

    def found(self, name):
        """The symbols to which the look-ups of each table come, by the hash of a name."""
        if self.parts[SHT_HASH]:
            yield "gABI", list(self.found_gabi(self.parts[SHT_HASH], gabi_hash(name)))
        if self.parts[SHT_GNU_HASH]:
            yield "GNU", list(self.found_gnu(self.parts[SHT_GNU_HASH], gnu_hash(name)))

    def found_gabi(self, table, value):
        buckets, chains = self.unpack("II", table)
        (at,) = self.unpack("I", table, 8 + 4 * (value % buckets))
        for _ in range(chains):
            if at == 0:
                return
            yield at
            (at,) = self.unpack("I", table, 4 * (2 + buckets + at))
        raise ValueError("a chain without an end")

    def found_gnu(self, table, value):
        buckets, first, words, shift = self.unpack("IIII", table)
        bits, word = (64, "Q") if self.file.big else (32, "I")
        (filtered,) = self.unpack(word, table, 16 + value // bits % words * bits // 8)
        if not (filtered >> value % bits & filtered >> (value >> shift) % bits & 1):
            return
        heads = 16 + words * bits // 8
        (at,) = self.unpack("I", table, heads + 4 * (value % buckets))
        while at:
            (told,) = self.unpack("I", table, heads + 4 * (buckets + at - first))
            if told | 1 == value | 1:
                yield at
            if told & 1:
                return
            at += 1


def gabi_hash(name):
    value = 0
    for byte in name:
        value = (value << 4) + byte
        high = value & 0xF0000000
        value = (value ^ high >> 24) & ~high & 0xFFFFFFFF
    return value


def gnu_hash(name):
    value = 5381
    for byte in name:
        value = (value * 33 + byte) & 0xFFFFFFFF
    return value


def not_found(symbols):
    """What of look-ups is wrong: each symbol that is defined and not local is found by its name, and no other one is."""
    for number, (name, _, (info, _, section, _, _)) in enumerate(symbols.rows):
        is_sought = number > 0 and section != 0 and info >> 4 != 0
        for kind, found in symbols.found(name.encode()):
            if is_sought != (number in found):
                return "the %s table %s symbol %d" % (kind, "misses" if is_sought else "finds", number)
    return None


def left_needs(needs, before, rows):
    """The needed versions that stay: those that a symbol has, and those that none had before; a library goes with its last."""
    had, has = ({version[0] for _, version, _ in some if version} for some in (before, rows))
    made = []
    for library, names in needs:
        stay = [name for name in names if name[0] in has or name[0] not in had]
        if stay or not names:
            made.append((library, stay))
    return made


def is_droppable(entries):
    """Whether the dynamic list has what versions go by."""
    tags = {tag for tag, _ in entries or []}
    return {DT_SYMTAB, DT_VERSYM, DT_VERNEED, DT_VERNEEDNUM} <= tags


def compare_symbols(old, new, image):
    """The dynamic list as it is written, and what is wrong with the symbols of new bytes, where those of an image are meant."""
    before, after = Symbols(model.File(old)), Symbols(model.File(new))
    meant = [(name, version, row[2]) for (name, version), row in zip(image.symbols, before.rows)]
    entries, needs = image.entries, [(file, names) for file, (_, names) in zip(image.version_files, before.needs)]
    if is_droppable(before.file.entries):
        needs = left_needs(needs, before.rows, meant)
        if before.needs and not needs:
            entries = [entry for entry in entries if entry[0] not in (DT_VERNEED, DT_VERNEEDNUM)]
    why = None
    if sorted(after.rows, key=str) != sorted(meant, key=str) or after.rows[:1] != meant[:1]:
        why = "symbols are %r, meant %r" % (after.rows, meant)
    elif after.needs != needs:
        why = "needed versions are %r, meant %r" % (after.needs, needs)
    elif list(after.relocations(after.rows)) != list(before.relocations(meant)):
        why = "relocations are about other symbols"
    elif [row[0] for row in meant] != [row[0] for row in before.rows]:
        why = not_found(after)
    elif any(after.parts[kind] != before.parts[kind] for kind in (SHT_HASH, SHT_GNU_HASH)) or [row[2] for row in after.rows] != [
        row[2] for row in before.rows
    ]:
        why = "the order or a hash table is another, and no name"
    return entries, why or not_loaded(after, new)


def not_loaded(symbols, data):
    """What a loader sees otherwise: each table stands where the dynamic list says."""
    loaded, numbers = Loaded(data), {}
    if loaded.entries is None or symbols.table is None:
        return None
    numbers = dict(loaded.numbers)
    tags = {SHT_DYNSYM: DT_SYMTAB, SHT_HASH: DT_HASH, SHT_GNU_HASH: DT_GNU_HASH, SHT_GNU_VERSYM: DT_VERSYM}
    for kind, tag in tags.items():
        part = symbols.parts[kind]
        if part and tag in numbers and loaded.read(numbers[tag], len(part)) != part:
            return "a loader sees another table at the tag %#x" % tag
    if symbols.needs and DT_VERNEEDNUM in numbers and numbers[DT_VERNEEDNUM] != len(symbols.needs):
        return "DT_VERNEEDNUM is %d" % numbers[DT_VERNEEDNUM]
    return None


def shows(data):
    """What both views of a file have; it is an error where they differ."""
    file, loaded = model.File(data), Loaded(data)
    seen = loaded.entries, loaded.interpreter, loaded.stack
    if (file.entries, file.interpreter, file.stack) != seen:
        raise ValueError("the views differ: %r and %r" % ((file.entries, file.interpreter, file.stack), seen))
    return seen + (loaded.abi,)


def shrinking_of(words):
    """The prefixes of a command that shrinks run paths, whose options stand apart from their values or behind a `=`."""
    prefixes, rest = [], list(words)
    while rest:
        word = rest.pop(0)
        if word in ("-a", "--allowed-rpath-prefixes"):
            prefixes.append(model.plain(rest.pop(0)))
        elif word.startswith("--allowed-rpath-prefixes="):
            prefixes.append(word.partition("=")[2])
    return prefixes


def edits_of(words):
    """The edits of the words of a command, as the model has them."""
    name, rest = words[0], [word for word in words[1:] if word != "--"]
    if name == "apply":
        return model.read_edits(" ".join(rest[1:]))
    values = rest[1:] if name in model.MANY else rest[:-1]
    return model.read_edits(" ".join([name] + values))


def laid(old, lines):
    """The bytes that rows of changes make of a file's."""
    if not lines or lines[0] in ("no new bytes", "%d bytes, as before" % len(old)):
        return old
    length = int(lines[0].removesuffix(" bytes"))
    new = bytearray(old[:length].ljust(length, b"\0"))
    for line in lines[1:]:
        at, _, row = line.partition(" ")
        content = bytes.fromhex(row.replace(" ", ""))
        new[int(at, 16) : int(at, 16) + len(content)] = content
    return bytes(new)


def why_not_shrunk(image):
    """Why the run paths of a file can't shrink."""
    if image.machine == 8:
        return "MIPS"
    if image.entries is None:
        return "no dynamic section, can't shrink rpath"
    return None if any(tag in model.RUN_PATHS for tag, _ in image.entries) else "no run path"


def told(removed):
    """The lines in which the program tells of the directories that go."""
    lines = []
    for line in removed.splitlines():
        directory, _, reason = line.removeprefix("removed ").rpartition(": ")
        lines.append(
            "Removing %s from RPATH due to non-allowed prefix" % directory if reason == "prefix"
            else "Removing directory %s" % directory
        )
    return lines


def compare_shrunk(data, words, printed, has_text):
    """The same of a command that shrinks run paths, and finds no library."""
    at = next((i for i, line in enumerate(printed) if line.startswith("status ")), 0)
    lines = printed[at:]
    image = model.Image(model.File(data))
    why = why_not_shrunk(image)
    if why is not None:
        return data, None if lines[0].endswith(model.refusal(why)) and at == 0 else "not told: " + why
    if lines[0] != "status 0":
        return data, None if OVERLAP in lines[0] else "refused"
    image.entries, removed = model.shrunk_list(image.entries, shrinking_of(words[1:]), "", "")
    new = laid(data, lines[1:])
    if has_text and printed[:at] != told(removed):
        return new, "told are %r" % printed[:at]
    if not removed:
        return new, None if new == data else "bytes that nothing changes"
    seen, meant = shows(new), (image.entries, image.interpreter, image.stack, image.abi)
    return new, None if seen == meant else "shown are %r, meant %r" % (seen, meant)


def without_leave(words):
    """The words of a command without those that give leave that the dynamic section moves, and whether there is one."""
    end = words.index("--") if "--" in words else len(words)
    left = [word for word in words[:end] if word != LEAVE] + words[end:]
    return left, len(left) != len(words)


def place_of(data):
    """Address, offset and size of the dynamic section, as its program header has them, and the segments that are loaded."""
    segments = Loaded(data).segments
    place = next((row[2:5] for row in segments if row[0] == PT_DYNAMIC), None)
    return place and (place[1], place[0], place[2]), [row for row in segments if row[0] == PT_LOAD]


def written_anew(data):
    """Where the program header table and the interpreter stand."""
    file, loaded = model.File(data), Loaded(data)
    start = file.number(file.word, 32 if file.big else 28)
    yield from range(start, start + len(loaded.segments) * (56 if file.big else 32))
    for kind, _, offset, _, size, _ in loaded.segments:
        if kind == PT_INTERP:
            yield from range(offset, offset + size)


def holder_of(place, loaded):
    """The loaded segment that has the range in memory."""
    return next(row for row in loaded if row[3] <= place[0] and place[0] + place[2] <= row[3] + row[4])


def why_misplaced(old, new, has_leave):
    """What is wrong with the place of the dynamic section: with leave alone it moves, into an added segment that may be written, and
    its old place keeps its bytes, but for those that the program header table or the interpreter has now; so where the loaded
    segment of the old place is still there, since a spare one goes."""
    (before, segments), (after, loaded) = place_of(old), place_of(new)
    if before is None or before[0] == after[0]:
        return None
    if not has_leave:
        return "the dynamic section moved"
    _, offset, size = before
    kept = [row for row in segments if row in loaded]
    written = set(written_anew(new))
    if holder_of(before, segments) in kept and any(new[at] != old[at] and at not in written for at in range(offset, offset + size)):
        return "the old place of the dynamic section has other bytes"
    holder = holder_of(after, loaded)
    if not holder[1] & 2 or any(holder[3] < row[3] + row[4] for row in kept):
        return "the segment of the dynamic section may not be written, or isn't behind all others"
    return None


def compare(data, words, lines):
    """The new bytes of a file, and what is wrong with the answer to a command that edits it."""
    words, has_leave = without_leave(words)
    edits, fault = edits_of(words)
    status = lines[0]
    if fault is not None:
        is_list = words[0] == "apply" or has_leave
        return data, None if is_list and fault.strip() in status else "not told: " + fault
    image = model.Image(model.File(data))
    for index, edit in enumerate(edits):
        why = model.cause(edit, image.facts())
        if why is not None:
            told = model.refusal(why)
            place = "edit %d: " % index if words[0] == "apply" or has_leave else ""
            is_told = status.startswith("status 1: ") and place in status and status.endswith(told)
            return data, None if is_told else "not told: " + place + told
        image.edit(edit)
    if status != "status 0":
        return data, None if OVERLAP in status else "refused"
    new = laid(data, lines[1:])
    if not image.changed:
        return new, None if new == data else "bytes that nothing changes"
    entries, why = compare_symbols(data, new, image)
    if why is not None:
        return new, why
    seen, meant = shows(new), (entries, image.interpreter, image.stack, image.abi)
    if seen != meant:
        return new, "shown are %r, meant %r" % (seen, meant)
    why = why_misplaced(data, new, has_leave)
    if why is not None:
        return new, why
    sizes = [edit[1][0] for edit in edits if edit[0] == "set-page-size"]
    if sizes and set(Loaded(new).aligned) != {sizes[-1]}:
        return new, "segments aligned to %r" % Loaded(new).aligned
    return new, None


def parts(text):
    """What was printed of each file of lines, without the heading."""
    found = {}
    for part in re.split("^==== ", text, flags=re.M)[1:]:
        name, _, printed = part.partition("\n")
        found[name] = printed
    return found


def steps(text):
    """The lines of a file, each with what was printed of it."""
    found = []
    for line in text.split("\n"):
        if line[:2] in ("= ", "> ", "m ", "! ", "$ ", "? ", "* ", "h ", "p ", "n ", "@ ", "q ", "w ", "f ") or line[:1] in ("#", "", "?", ">"):
            found.append((line, []))
        elif found:
            found[-1][1].append(line)
    return found


def is_checked(status):
    """Whether an answer is that to words that are a command, and to a file that is read."""
    return not status.startswith("status 2: error: ") and UNREAD not in status


def is_edit(line, printed):
    """Whether a line is an edit of the ELF file that lines work on, and it was read."""
    kind, *words = line.split(" ")
    names = model.ALONE + model.ONE + model.MANY + ["apply", "shrink-rpath"]
    is_named = words[:1] == ["elf"] and len(words) > 2 and words[1] in names and words[1:3] != ["shrink-rpath", LEAVE]
    is_known = is_named and not any(word in model.OF_TABLES for word in words)
    is_of_file = "file" in words or "f" in words
    return kind in (">", "m", "!", "p") and is_known and is_of_file and printed[:1] != [] and is_checked(printed[0])


def is_shown(data):
    """Whether the model reads a file."""
    try:
        shows(data)
    except (ValueError, TypeError, IndexError, KeyError, model.struct.error):
        return False
    return True


def after_line(data, printed):
    """The bytes of a file after a line that is done to it."""
    at = next((i for i, line in enumerate(printed) if line.startswith("status ")), len(printed))
    rows = printed[at + 1 :]
    return laid(data, rows) if rows and re.fullmatch("[0-9]+ bytes", rows[0]) else data


def check_edit(data, line, printed):
    """The new bytes of a file, and what is wrong with the answer to a line that edits it."""
    kind, *words = line.split(" ")
    if words[1] == "shrink-rpath":
        return compare_shrunk(data, words[1:], printed, kind == "p")
    return compare(data, words[1:], printed)


def check_lines(text, folder):
    """How many edits there are in a file of lines on the command line, and how many of them are wrong."""
    data, count, wrong = None, 0, 0
    for line, printed in steps(text):
        kind, *words = line.split(" ")
        if kind == "=":
            path = os.path.join(folder, words[0])
            data = model.content(folder, words[0]) if os.path.isfile(path) else None
        after = after_line(data, printed) if kind in (">", "m") and data else data
        if is_edit(line, printed) and is_shown(data):
            new, why = check_edit(data, line, printed)
            count += 1
            if why is not None:
                wrong += 1
                print("%s\n    %s" % (line, why))
        data = after
    return count, wrong


def main():
    folder = os.path.join(HERE, "data")
    with open(sys.argv[1] if len(sys.argv) > 1 else os.path.join(HERE, "stdout"), errors="replace") as text:
        printed = parts(text.read())
    counts = [check_lines(text, folder) for name, text in printed.items() if name.startswith("line/")]
    count, wrong = sum(count for count, _ in counts), sum(wrong for _, wrong in counts)
    print("%d edits of ELF files, %d of them wrong" % (count, wrong))
    others = [name for name in model.names_of(folder) if parts(model.printed(folder, name)) != {name: printed.get(name)}]
    print("files of lines about edits that print something else: %s" % (" ".join(others) or "none"))
    return 1 if wrong or others else 0


if __name__ == "__main__":
    sys.exit(main())
