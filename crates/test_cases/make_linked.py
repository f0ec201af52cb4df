#!/usr/bin/env python3
"""Makes the ELF files of this crate's folder `data` that linkers make, by compilers and linkers.

    python3 crates/test_cases/make_linked.py [FOLDER]

The files are written into FOLDER, or into the folder `data` beside this script. Wanted are clang, GNU ld (`ld.bfd`) and
LLVM's (`ld.lld`), and objcopy; the files that stand there were made by clang 14, GNU ld 2.40 and lld 14. Other versions make files
that hold the same in other places.

For each linker and machine there is

- `library-LINKER-MACHINE`: a shared library with a name of its own, a needed library, a run path of two directories
  (DT_RUNPATH), a version that it defines and one that it needs, and hash tables;
- `program-LINKER-MACHINE`: a program with an interpreter, two needed libraries, a run path (DT_RPATH) and a stack that
  may be run.

For some of them there is

- `both-LINKER-MACHINE`: a shared library that needs two libraries, and a version of each.

Besides there are, each by one linker, a program without a dynamic section and without an interpreter, and a library
without a program header for the stack, and what objcopy keeps of a program for a debugger. No file is made by hand.
"""

import os
import subprocess
import sys
import tempfile

HELP = "int help(void) { return 2; }\n"
GREET = "extern int help(void);\nint number = 1;\nint greet(void) { return help() + number; }\n"
HELLO = "extern int greet(void);\nvoid _start(void) { greet(); for (;;); }\n"
BOTH = "extern int greet(void), help(void);\nint both(void) { return greet() + help(); }\n"
ALONE = "void _start(void) { for (;;); }\n"

HELP_VERSIONS = "HELP_1 { global: help; local: *; };\n"
GREET_VERSIONS = "GREET_1 { global: greet; number; local: *; };\n"

CFLAGS = [
    "-O1", "-fPIC", "-ffreestanding", "-fno-ident", "-fno-asynchronous-unwind-tables",
    "-fno-stack-protector",
]

# For each machine: the compiler's target with its options, the linker's emulation, the interpreter, and the kind of hash
# tables that the linkers make for it.
MACHINES = {
    "x86_64": (["x86_64-linux-gnu"], "elf_x86_64", "/lib64/ld-linux-x86-64.so.2", "both"),
    "i386": (["i386-linux-gnu"], "elf_i386", "/lib/ld-linux.so.2", "both"),
    "aarch64": (["aarch64-linux-gnu"], "aarch64linux", "/lib/ld-linux-aarch64.so.1", "both"),
    "aarch64_be": (["aarch64_be-linux-gnu"], "aarch64linuxb", "/lib/ld-linux-aarch64_be.so.1", "both"),
    "ppc64": (["powerpc64-linux-gnu", "-mabi=elfv2"], "elf64ppc", "/lib64/ld64.so.2", "both"),
    "ppc": (["powerpc-linux-gnu"], "elf32ppclinux", "/lib/ld.so.1", "both"),
    "mips": (["mips-linux-gnu"], "elf32btsmip", "/lib/ld.so.1", "sysv"),
    "mips64el": (["mips64el-linux-gnuabi64"], "elf64ltsmip", "/lib64/ld.so.1", "sysv"),
}

LINKERS = {
    "gnu": (["ld.bfd"], ["x86_64", "i386"]),
    "lld": (["ld.lld"], list(MACHINES)),
}
# Linkers and machines of libraries that need a version of each of two others.
OF_BOTH = [("gnu", "x86_64"), ("gnu", "i386"), ("lld", "x86_64"), ("lld", "ppc")]


class Workshop:
    """A folder of sources and of what is made of them."""

    def __init__(self, folder):
        self.folder = folder
        for name, text in [
            ("help.c", HELP), ("greet.c", GREET), ("hello.c", HELLO), ("both.c", BOTH),
            ("alone.c", ALONE), ("help.map", HELP_VERSIONS), ("greet.map", GREET_VERSIONS),
        ]:
            with open(os.path.join(folder, name), "w") as file:
                file.write(text)

    def run(self, *words):
        subprocess.run(words, cwd=self.folder, check=True)

    def compile(self, machine, source):
        target = MACHINES[machine][0]
        self.run("clang", "--target=" + target[0], *target[1:], *CFLAGS, "-c", source + ".c")

    def link(self, linker, machine, out, *words):
        emulation = MACHINES[machine][1]
        options = ["-m", emulation, "-z", "noseparate-code", "--build-id=none"]
        self.run(*LINKERS[linker][0], *options, "-o", out, *words)

    def content(self, name):
        with open(os.path.join(self.folder, name), "rb") as file:
            return file.read()

    def debug_of(self, content):
        """What objcopy keeps of a file for a debugger."""
        whole, kept = os.path.join(self.folder, "whole"), os.path.join(self.folder, "kept")
        with open(whole, "wb") as file:
            file.write(content)
        subprocess.run(["objcopy", "--only-keep-debug", whole, kept], check=True)
        return self.content("kept")


def pair(shop, linker, machine):
    """A library and a program."""
    interpreter, hashes = MACHINES[machine][2:]
    for source in ["help", "greet", "hello"]:
        shop.compile(machine, source)
    shared = ["-shared", "--hash-style=" + hashes]
    shop.link(linker, machine, "libhelp.so", *shared, "-soname", "libhelp.so.1",
              "--version-script=help.map", "help.o")
    shop.link(linker, machine, "libgreet.so", *shared, "-soname", "libgreet.so.1",
              "--version-script=greet.map", "--enable-new-dtags", "-rpath", "/opt/lib:$ORIGIN",
              "greet.o", "libhelp.so")
    shop.link(linker, machine, "hello", "-pie", "-e", "_start", "--hash-style=" + hashes, "-dynamic-linker", interpreter,
              "--disable-new-dtags", "-rpath", "/usr/local/lib", "-z", "execstack", "hello.o",
              "libgreet.so", "libhelp.so")
    return shop.content("libgreet.so"), shop.content("hello")


def both(shop, linker, machine):
    """A library that needs the two others, which were just made."""
    shop.compile(machine, "both")
    shop.link(linker, machine, "libboth.so", "-shared", "--hash-style=" + MACHINES[machine][3], "-soname", "libboth.so.1",
              "both.o", "libgreet.so", "libhelp.so")
    return shop.content("libboth.so")


def files(shop):
    """The files by their names."""
    made = {}
    for linker, (_, machines) in LINKERS.items():
        for machine in machines:
            library, program = pair(shop, linker, machine)
            made["library-%s-%s" % (linker, machine)] = library
            made["program-%s-%s" % (linker, machine)] = program
            if (linker, machine) in OF_BOTH:
                made["both-%s-%s" % (linker, machine)] = both(shop, linker, machine)
    shop.compile("x86_64", "alone")
    shop.link("gnu", "x86_64", "alone", "alone.o")
    made["static-gnu-x86_64"] = shop.content("alone")
    shop.compile("aarch64", "help")
    shop.link("lld", "aarch64", "libhelp.so", "-shared", "-z", "nognustack", "help.o")
    made["no-stack-lld-aarch64"] = shop.content("libhelp.so")
    made["debug-gnu-x86_64"] = shop.debug_of(made["program-gnu-x86_64"])
    return made


def main():
    here = os.path.dirname(os.path.abspath(__file__))
    folder = sys.argv[1] if len(sys.argv) > 1 else os.path.join(here, "data")
    with tempfile.TemporaryDirectory() as work:
        for name, content in files(Workshop(work)).items():
            with open(os.path.join(folder, name), "wb") as file:
                file.write(content)


if __name__ == "__main__":
    main()
