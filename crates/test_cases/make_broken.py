#!/usr/bin/env python3
"""Makes ELF files of which each breaks one read rule, of `data/program-gnu-x86_64`, into `data` or the folder that is named.

A rule's file is `broken-` with the rule's name; those that break a rule on links, texts or versions in another way have the
name of what is wrong. Each is the linked program with a number or two changed, or cut; so what is wrong with it can be said in
a line.
"""
import os
import struct
import sys

HERE = os.path.dirname(os.path.abspath(__file__))
PT_LOAD, PT_DYNAMIC, PT_INTERP = 1, 2, 3
SHT_HASH, SHT_NOBITS = 5, 8
DT_STRTAB = 5
# Where a number stands in a program header, a section header, and the file header (64 bits), and its form.
SEGMENT = {"p_type": (0, "<I"), "p_offset": (8, "<Q"), "p_vaddr": (16, "<Q"), "p_filesz": (32, "<Q"), "p_memsz": (40, "<Q")}
SECTION = {
    "sh_name": (0, "<I"),
    "sh_type": (4, "<I"),
    "sh_addr": (16, "<Q"),
    "sh_offset": (24, "<Q"),
    "sh_size": (32, "<Q"),
    "sh_link": (40, "<I"),
    "sh_info": (44, "<I"),
}
HEADER = {"e_type": (16, "<H"), "e_phoff": (32, "<Q"), "e_shoff": (40, "<Q"), "e_phnum": (56, "<H"), "e_shnum": (60, "<H")}


class File:
    """A linked program, whose numbers can be read and changed."""

    def __init__(self, data):
        self.data = bytearray(data)

    def get(self, at, field):
        return struct.unpack_from(field[1], self.data, at + field[0])[0]

    def put(self, at, field, value):
        struct.pack_into(field[1], self.data, at + field[0], value)

    def header(self, name):
        return self.get(0, HEADER[name])

    def segment(self, kind, nth=0):
        """Where the nth program header of a kind stands."""
        table = self.header("e_phoff")
        found = [table + 56 * i for i in range(self.header("e_phnum"))]
        return [at for at in found if self.get(at, SEGMENT["p_type"]) == kind][nth]

    def section(self, name):
        """Where the header of the section with that name stands."""
        table = self.header("e_shoff")
        found = [table + 64 * i for i in range(self.header("e_shnum"))]
        names = self.get(found[-1], SECTION["sh_offset"])
        for at in found:
            begin = names + struct.unpack_from("<I", self.data, at)[0]
            if self.data[begin : self.data.index(0, begin)] == name:
                return at
        raise KeyError(name)

    def change(self, at, field, by):
        self.put(at, field, self.get(at, field) + by)


def flawed(data):
    """Files that break a rule on links, texts or versions in one more way each, by name."""
    made = {}

    def header(name, section, field, value):
        file = File(data)
        file.put(file.section(section), SECTION[field], value)
        made[name] = bytes(file.data)

    def number(name, section, at, form, value):
        file = File(data)
        file.put(file.get(file.section(section), SECTION["sh_offset"]) + at, (0, form), value)
        made[name] = bytes(file.data)

    header("repeated-type", b".gnu.hash", "sh_type", SHT_HASH)
    header("missing-link", b".gnu.version", "sh_link", 40)
    header("wrong-link", b".gnu.hash", "sh_link", 5)
    header("partial-entry", b".dynsym", "sh_size", 0x2F)
    number("symbol-section", b".symtab", 5 * 24 + 6, "<H", 40)
    number("relocation-symbol", b".rela.plt", 12, "<I", 9)
    header("partial-relocation", b".rela.plt", "sh_size", 0x17)
    header("info-section", b".rela.plt", "sh_info", 40)
    header("section-name", b".text", "sh_name", 0x1000)
    number("library-name", b".gnu.version_r", 4, "<I", 0x1000)
    number("version-name", b".gnu.version_r", 16 + 8, "<I", 0x1000)
    header("version-count", b".gnu.version", "sh_size", 2)
    number("unknown-version", b".gnu.version", 2, "<H", 9)
    header("shared-strings", b".text", "sh_link", 5)
    return made


def broken(data):
    """The files, by name."""
    made = {"identification": data[:10], "magic": b"\x7fELf" + data[4:], "class": data[:5] + b"\x03" + data[6:], "file-header": data[:40]}

    def by(rule, change):
        file = File(data)
        change(file)
        made[rule] = bytes(file.data)

    by("file-kind", lambda f: f.put(0, HEADER["e_type"], 1))
    by("header-tables", lambda f: f.put(0, HEADER["e_shoff"], len(data) - 64))
    by("ranges-in-file", lambda f: f.put(f.section(b".symtab"), SECTION["sh_size"], len(data)))
    by("file-parts", lambda f: f.change(f.segment(PT_LOAD), SEGMENT["p_memsz"], -1))
    by("segments-apart", lambda f: f.put(f.segment(PT_LOAD, 1), SEGMENT["p_vaddr"], 0x200))
    by("sections-loaded", lambda f: f.change(f.section(b".text"), SECTION["sh_addr"], 16))

    def uninitialized(f):
        section = f.section(b".got.plt")
        f.put(section, SECTION["sh_type"], SHT_NOBITS)
        f.change(section, SECTION["sh_addr"], 8)
        f.change(f.segment(PT_LOAD, 1), SEGMENT["p_memsz"], 8)

    by("uninitialized-data", uninitialized)
    by("table-links", lambda f: f.put(f.section(b".dynsym"), SECTION["sh_link"], 0))
    by("dynamic-section", lambda f: f.change(f.segment(PT_DYNAMIC), SEGMENT["p_vaddr"], 8))
    by("interpreter", lambda f: f.change(f.segment(PT_INTERP), SEGMENT["p_filesz"], -1))

    def strings(f):
        at = f.get(f.section(b".dynamic"), SECTION["sh_offset"])
        while struct.unpack_from("<Q", f.data, at)[0] != DT_STRTAB:
            at += 16
        f.change(at + 8, (0, "<Q"), 1)

    by("dynamic-tables", strings)
    by("texts", lambda f: f.put(f.get(f.section(b".dynsym"), SECTION["sh_offset"]) + 24, (0, "<I"), 0x1000))

    def version(f):
        at = f.get(f.section(b".gnu.version_r"), SECTION["sh_offset"])
        f.put(at, (2, "<H"), 2)

    by("versions", version)

    def moved_table(f):
        table = f.header("e_phoff")
        size = 56 * f.header("e_phnum")
        f.data += bytes(-len(f.data) % 8) + f.data[table : table + size]
        f.put(0, HEADER["e_phoff"], len(f.data) - size)

    by("loaded-header-table", moved_table)
    made.update(flawed(data))
    return {"broken-" + rule: file for rule, file in made.items()}


def main():
    folder = sys.argv[1] if len(sys.argv) > 1 else os.path.join(HERE, "data")
    with open(os.path.join(HERE, "data", "program-gnu-x86_64"), "rb") as file:
        data = file.read()
    for name, made in broken(data).items():
        with open(os.path.join(folder, name), "wb") as out:
            out.write(made)


if __name__ == "__main__":
    main()
