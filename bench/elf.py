#!/usr/bin/env python3
"""Times `arwen elf set-rpath` and `rename-dynamic-symbols` beside `cp` and patchelf, and measures their memory.

    python3 bench/elf.py [--runs N] [--only WORD] [--tool NAME] [--program PATH]

The libraries are linked by gcc into bench/made, which git ignores: a small one, one of 300 MB with few
symbols, and three with 50,000, 200,000 and 500,000 dynamic symbols, the largest of 300 MB too. Each is edited by a run path
that fits where the old one stands, and by a long one, which moves the strings. Of those with many symbols one gets another
name, which sorts all of them anew, and of the smallest of these all do. Each timed run works on a fresh
copy, made outside the timed part. The times are medians of N runs (5), or of five times as many of the small library,
whose edit takes a millisecond, and all runs of one call stand side by side: each round times every program once.
`cp --reflink=never` writes onto a file that is there already. The peak is the largest resident size of the runs; it
says nothing for the small library.

The targets: a run path that fits takes, in 300 MB with few symbols, at most 0.7 times the time of cp, and with
500,000 symbols at most half the time of patchelf; one that moves the strings takes no longer than patchelf; an edit of the
small library takes no longer than patchelf, and at most 1.5 ms, which is what patchelf took where that was set (on a
slower machine, where patchelf takes longer, its time alone counts); memory is at most 2.2 times the file; and from
50,000 to 500,000 symbols the time for each byte of the file doesn't grow to more than 1.5 times, nor does that of a new name
for each symbol; a new name takes no longer than patchelf, where that has such an edit (since 0.18). The status is 1 where
one is missed, 2 where a program is missing or fails. A target whose tool is not there is named as not checked.
"""

import argparse
import os
import resource
import shutil
import statistics
import subprocess
import sys
import time

HERE = os.path.dirname(os.path.abspath(__file__))
TOP = os.path.dirname(HERE)
WORK = os.path.join(HERE, "made")
PROGRAM = os.path.join(TOP, "crates", "arwen", "out", "arwen")
OLD_PATH = "/opt/old/lib/that/is/here"
FITS = "/opt/new/lib"
MOVES = "/opt/" + "long/" * 40 + "lib"
MEGABYTE = 1 << 20

# How many symbols a library has, and how many bytes of data.
LIBRARIES = {
    "small": (10, 0),
    "few-300": (10, 300 * MEGABYTE),
    "symbols-30": (50_000, 24 * MEGABYTE),
    "symbols-120": (200_000, 96 * MEGABYTE),
    "symbols-300": (500_000, 240 * MEGABYTE),
}

# The run paths, by the kind of an edit.
PATHS = {"fits": FITS, "moves": MOVES}

# A library, the kind of an edit (a run path, or a new name for one symbol or for all), and the targets: at most so many times
# the time of cp, that of patchelf, so many seconds, and so many times the file in memory.
EDITS = [
    ("small", "fits", None, 1.0, 0.0015, None),
    ("small", "moves", None, 1.0, 0.0015, None),
    ("few-300", "fits", 0.7, None, None, 2.2),
    ("few-300", "moves", None, 1.0, None, 2.2),
    ("symbols-30", "fits", None, None, None, 2.2),
    ("symbols-300", "fits", None, 0.5, None, 2.2),
    ("symbols-300", "moves", None, 1.0, None, 2.2),
    ("symbols-30", "one name", None, 1.0, None, None),
    ("symbols-120", "one name", None, 1.0, None, None),
    ("symbols-300", "one name", None, 1.0, None, None),
    ("symbols-30", "all names", None, 1.0, None, None),
]

# How many times as often an edit is run that has a target in seconds: what it takes is little beside the noise.
SHORT = 5

# The pair of libraries whose times for a byte, or of new names for a symbol, are compared, and by how much the larger one's may
# be more.
GROWTH = ("symbols-30", "symbols-300", 1.5)

# As many bytes as the words of a command line may have together, where the machine allows it: a quarter of the stack.
STACK = 64 * MEGABYTE


def make_library(name):
    """Links one of the libraries, unless it is there."""
    path = os.path.join(WORK, name + ".so")
    if os.path.exists(path):
        return path
    os.makedirs(WORK, exist_ok=True)
    symbols, data = LIBRARIES[name]
    source = os.path.join(WORK, name + ".s")
    with open(source, "w") as out:
        out.write(".data\n")
        if data:
            out.write(f".fill {data // 8}, 8, 0x5a5a5a5a5a5a5a5a\n")
        for number in range(symbols):
            out.write(f".globl value_of_number_{number}\nvalue_of_number_{number}: .byte 1\n")
    words = ["gcc", "-shared", "-nostdlib", "-o", path + ".part", source, "-Wl,-soname,libbench.so.1",
             "-Wl,-rpath," + OLD_PATH, "-Wl,--enable-new-dtags", "-Wl,-z,noexecstack"]
    done = subprocess.run(words)
    os.remove(source)
    if done.returncode != 0:
        print("gcc could not link a library", file=sys.stderr)
        sys.exit(2)
    os.replace(path + ".part", path)
    return path


def pairs_of(name, kind):
    """The old and the new names of an edit."""
    symbols = LIBRARIES[name][0]
    numbers = range(symbols) if kind == "all names" else [symbols // 2]
    return [(f"value_of_number_{number}", f"other_{number}") for number in numbers]


def words_of(name, kind, copy):
    """The words of an edit by arwen."""
    if kind in PATHS:
        return ["set-rpath", PATHS[kind], copy]
    return ["rename-dynamic-symbols", copy, *(f"{old}={new}" for old, new in pairs_of(name, kind))]


def words_of_tool(tool, name, kind, copy):
    """The words of the same edit by patchelf, `None` where it has no such edit."""
    if kind in PATHS:
        return [tool, "--set-rpath", PATHS[kind], copy]
    helped = subprocess.run([tool, "--help"], capture_output=True, text=True)
    if "--rename-dynamic-symbols" not in helped.stdout + helped.stderr:
        return None
    names = os.path.join(WORK, "names")
    with open(names, "w") as out:
        out.writelines(f"{old} {new}\n" for old, new in pairs_of(name, kind))
    return [tool, "--rename-dynamic-symbols", names, copy]


def timed(words):
    """The wall time of a program in seconds, and its peak resident size in bytes."""
    start = time.perf_counter()
    process = subprocess.Popen(words, stdin=subprocess.DEVNULL)
    _, status, usage = os.wait4(process.pid, 0)
    wall = time.perf_counter() - start
    process.returncode = os.waitstatus_to_exitcode(status)
    if process.returncode != 0:
        print(f"{words[0]} ended with status {process.returncode}", file=sys.stderr)
        sys.exit(2)
    return wall, usage.ru_maxrss * 1024


def fresh_copy(path):
    """A copy of a file that nothing has touched, on disk before the clock starts."""
    copy = os.path.join(WORK, "copy")
    shutil.copyfile(path, copy)
    with open(copy, "rb+") as file:
        os.fsync(file.fileno())
    return copy


def measure(name, kind, runs, options, tool):
    """The median times of arwen, cp and patchelf (None where it is not there), and arwen's peak."""
    path, copy = make_library(name), os.path.join(WORK, "copy")
    programs = {
        "arwen": [options.program, "elf", *words_of(name, kind, copy)],
        "cp": ["cp", "--reflink=never", path, copy],
    }
    by_tool = words_of_tool(tool, name, kind, copy) if tool else None
    if by_tool:
        programs["patchelf"] = by_tool
    times = {program: [] for program in programs}
    peak = 0
    for _ in range(runs):
        for program, words in programs.items():
            fresh_copy(path)
            wall, resident = timed(words)
            times[program].append(wall)
            if program == "arwen":
                peak = max(peak, resident)
    os.remove(copy)
    medians = {program: statistics.median(walls) for program, walls in times.items()}
    return medians["arwen"], medians["cp"], medians.get("patchelf"), peak


def verdict(value, target):
    if target is None:
        return f"{value:.2f}"
    return f"{value:.2f} ({'within' if value <= target else 'PAST'} {target})"


def compare(edit, options, tool, speeds):
    """Times an edit, prints the ratios, and answers whether one is past its target."""
    name, kind, most_cp, most_tool, most_time, most_memory = edit
    path = make_library(name)
    size = os.path.getsize(path)
    runs = options.runs * SHORT if most_time else options.runs
    arwen, cp, patchelf, peak = measure(name, kind, runs, options, tool)
    if kind in PATHS:
        speeds.setdefault(name, arwen / size)
    if kind == "one name":
        speeds[name, kind] = arwen / LIBRARIES[name][0]
    if tool and not patchelf:
        print(f"not checked, as {tool} has no such edit: {name}, {kind}")
    ratios = [("to cp", arwen / cp, most_cp)]
    if patchelf:
        ratios.append(("to patchelf", arwen / patchelf, most_tool))
    if most_time:
        is_slow = patchelf is not None and patchelf > most_time
        ratios.append(("ms", arwen * 1000, None if is_slow else most_time * 1000))
    if most_memory or kind not in PATHS:
        ratios.append(("peak to size", peak / size, most_memory))
    print(f"{name} {kind}: {size} bytes, arwen {arwen * 1000:.1f} ms, cp {cp * 1000:.1f} ms; "
          + ", ".join(f"{what} {verdict(value, most)}" for what, value, most in ratios), flush=True)
    return any(most is not None and value > most for _, value, most in ratios)


def main():
    parser = argparse.ArgumentParser(description=__doc__.split("\n", 1)[0])
    parser.add_argument("--runs", type=int, default=5)
    parser.add_argument("--only", default="")
    parser.add_argument("--tool", default="patchelf", help="patchelf's name or path")
    parser.add_argument("--program", default=PROGRAM, help="arwen's path")
    options = parser.parse_args()
    if not os.access(options.program, os.X_OK):
        print("the program is not built: run ./arwen --help first", file=sys.stderr)
        return 2
    if not shutil.which("gcc"):
        print("gcc is not there, which links the libraries", file=sys.stderr)
        return 2
    tool = shutil.which(options.tool)
    hard = resource.getrlimit(resource.RLIMIT_STACK)[1]
    resource.setrlimit(resource.RLIMIT_STACK, (STACK if hard < 0 else min(STACK, hard), hard))
    missed = False
    speeds = {}
    for edit in EDITS:
        if options.only in edit[0]:
            missed = compare(edit, options, tool, speeds) or missed
    less, more, most = GROWTH
    for what, one, other in [
        ("time for a byte", less, more), ("time for a symbol, of one new name,", (less, "one name"), (more, "one name")),
    ]:
        if one in speeds and other in speeds:
            growth = speeds[other] / speeds[one]
            print(f"{what} from {less} to {more}: {verdict(growth, most)}")
            missed = missed or growth > most
    if not tool:
        print("not checked, as a tool is not there: the times of patchelf")
    return 1 if missed else 0


if __name__ == "__main__":
    sys.exit(main())
