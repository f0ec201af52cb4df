#!/usr/bin/env python3
"""Makes ELF files whose dynamic symbols keep their names, of `data/library-gnu-x86_64`, into `data` or the folder that is named.

Each is the linked library with a number or two changed, so that a hash table can't be made anew, or that a section of a kind that
isn't read links to the symbols: `fixed-` and what is wrong with it. The symbols of four others may have other names: in
`looped-chain` a symbol of the hash tables is the next one of itself, `late-gnu-hash` has a GNU hash table that begins behind
a symbol that is defined, `unlinked-relocations` has relocations that name symbols of no table, and in `own-address` a symbol that
is defined elsewhere has an address.
"""
import os
import sys

HERE = os.path.dirname(os.path.abspath(__file__))
sys.path.insert(0, HERE)
sys.dont_write_bytecode = True
from make_broken import SECTION, File  # noqa: E402

WORD = (0, "<I")
SH_ENTSIZE = (56, "<Q")


def made(data):
    """The files, by name."""
    files = {}

    def number(name, section, at, value):
        file = File(data)
        file.put(file.get(file.section(section), SECTION["sh_offset"]) + at, WORD, value)
        files[name] = bytes(file.data)

    def header(name, section, field, value):
        file = File(data)
        file.put(file.section(section), field, value)
        files[name] = bytes(file.data)

    number("fixed-no-bucket", b".hash", 0, 0)
    number("fixed-too-many-buckets", b".hash", 0, 0xFFFFFFFF)
    number("fixed-too-many-chains", b".hash", 4, 1000)
    header("fixed-wide-entries", b".hash", SH_ENTSIZE, 8)
    number("fixed-no-gnu-bucket", b".gnu.hash", 0, 0)
    number("fixed-too-many-gnu-buckets", b".gnu.hash", 0, 0x40000000)
    number("fixed-no-filter", b".gnu.hash", 8, 0)
    number("fixed-three-filter-words", b".gnu.hash", 8, 3)
    number("fixed-long-filter", b".gnu.hash", 8, 0x80000000)
    number("fixed-shift-32", b".gnu.hash", 12, 32)
    file = File(data)
    table = (file.section(b".dynsym") - file.header("e_shoff")) // 64
    header("fixed-other-user", b".data", SECTION["sh_link"], table)

    # the last symbol of the gABI's table: its chain's entry is its own number
    file = File(data)
    at = file.get(file.section(b".hash"), SECTION["sh_offset"])
    buckets, chains = file.get(at, WORD), file.get(at + 4, WORD)
    file.put(at + 4 * (2 + buckets + chains - 1), WORD, chains - 1)
    files["looped-chain"] = bytes(file.data)

    # the first symbol of the GNU hash table is the one behind the first that is defined
    number("late-gnu-hash", b".gnu.hash", 4, 3)
    header("unlinked-relocations", b".rela.dyn", SECTION["sh_link"], 0)

    # the value of symbol 1, which is defined elsewhere
    number("own-address", b".dynsym", 24 + 8, 0x1000)
    return files


def main():
    folder = sys.argv[1] if len(sys.argv) > 1 else os.path.join(HERE, "data")
    with open(os.path.join(HERE, "data", "library-gnu-x86_64"), "rb") as file:
        data = file.read()
    for name, content in made(data).items():
        with open(os.path.join(folder, name), "wb") as out:
            out.write(content)


if __name__ == "__main__":
    main()
