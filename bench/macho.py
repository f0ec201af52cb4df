#!/usr/bin/env python3
"""Times `arwen macho add-rpath` beside `cp` and LLVM's install_name_tool, and measures its memory.

    python3 bench/macho.py [--runs N] [--only WORD] [--tool NAME]

Each file is made in bench/made, which git ignores. Each timed run works on a fresh copy of it, made
outside the timed part. The times are medians of N runs (5), and all runs of one call stand side by side:
each round times every program once. `cp --reflink=never` writes onto a file that is there already. The
peak is the largest resident size of one more run, as GNU time tells it. Last, `strace` counts the bytes that
one edit of the largest file writes, and shows that no open cuts a file. Files whose name begins with `signed` have an
ad-hoc code signature: they are edited with `--sign`, and `arwen macho sign` of each is timed beside `sha256sum`.

The targets: of the files of 300 MB at most 0.02 times the time of cp, of all large ones at most 8 MB of memory, of
the small one at most 0.2 times the time of LLVM's tool, `sign` at most 3 times the time of sha256sum, and at most 64 KB written. The status is 1 where one is
missed, 2 where a program is missing or fails. A target whose tool is not there is named as not checked.
"""

import argparse
import hashlib
import os
import re
import shutil
import statistics
import struct
import subprocess
import sys
import time

HERE = os.path.dirname(os.path.abspath(__file__))
TOP = os.path.dirname(HERE)
WORK = os.path.join(HERE, "made")
PROGRAM = os.path.join(TOP, "crates", "arwen", "out", "arwen")
RUN_PATH = "/usr/local/lib"
MEGABYTE = 1 << 20

sys.path.insert(0, os.path.join(TOP, "examples"))
sys.dont_write_bytecode = True

import make  # noqa: E402

# The most memory that an edit of a large file may take, in MB: it reads its front, or that of each slice.
MOST_MEMORY = 8

# A file's size in bytes, its slices, and the targets: at most so many times the time of cp, the time of
# LLVM's tool, and so many MB of memory.
FILES = {
    "small": (0, 1, None, 0.2, None),
    "thin-50": (50 * MEGABYTE, 1, None, None, MOST_MEMORY),
    "fat-50": (50 * MEGABYTE, 2, None, None, MOST_MEMORY),
    "thin-300": (300 * MEGABYTE, 1, 0.02, None, MOST_MEMORY),
    "fat-300": (300 * MEGABYTE, 2, 0.02, None, MOST_MEMORY),
    "signed-thin-300": (300 * MEGABYTE, 1, 0.02, None, MOST_MEMORY),
    "signed-fat-300": (300 * MEGABYTE, 2, 0.02, None, MOST_MEMORY),
}

# The bytes of a page of a signed file, and the most times of sha256sum that `sign` may take.
PAGE = 4096
MOST_HASHING = 3
IDENTIFIER = b"bench\0"

# The file whose writes are counted, and the most bytes that they may have together.
COUNTED = "thin-300"
MOST_WRITTEN = 64 * 1024


def is_signed(name):
    return name.startswith("signed")


def signature_of(pages):
    """An ad-hoc code signature of pages with these hashes, the last of which ends where the signature begins: the number of
    pages and where they end are told by `pages`, a pair of the hashes and that place."""
    hashes, limit = pages
    slots = 88 + len(IDENTIFIER)
    length = slots + 32 * len(hashes)
    fields = (0xFADE0C02, length, 0x20400, 2, slots, 88, 0, len(hashes), limit)
    directory = struct.pack(">9I", *fields) + bytes([32, 2, 0, 12]) + bytes(88 - 40) + IDENTIFIER + b"".join(hashes)
    return struct.pack(">5I", 0xFADE0CC0, 20 + length, 1, 0, 20) + directory


def signature_size(limit):
    """How many bytes that has, for so many signed bytes."""
    return len(signature_of(([bytes(32)] * -(-limit // PAGE), limit)))


def sign_at(out, offset, limit):
    """Puts a signature behind the bytes of a program that begins at an offset, for all of them."""
    hashes = []
    for at in range(0, limit, PAGE):
        out.seek(offset + at)
        hashes.append(hashlib.sha256(out.read(min(PAGE, limit - at))).digest())
    out.seek(offset + limit)
    out.write(signature_of((hashes, limit)))


def head(size, signed=False):
    """The bytes before the code of a program of about this size, and those behind it."""
    form = make.Form(64, "<")
    base = 0x100000000
    code_at = 4096
    code_size = size - code_at
    code = make.section(form, b"__text", b"__TEXT", base + code_at, code_size, code_at)
    table, link_data = make.symbol_table(form, size, b"_main", base + code_at)
    link_data = link_data.ljust(-(-len(link_data) // 16) * 16, b"\0")
    limit = size + len(link_data)
    signature = signature_size(limit) if signed else 0
    linked = len(link_data) + signature
    commands = [
        make.segment(form, b"__PAGEZERO", 0, base, 0, 0, 0),
        make.segment(form, b"__TEXT", base, size, 0, size, 5, [code]),
        make.segment(form, b"__LINKEDIT", base + size, -(-linked // PAGE) * PAGE, size, linked, 1),
        table,
        make.dylib(form, make.LC_LOAD_DYLIB, make.SYSTEM_LIBRARY),
    ]
    if signed:
        commands.append(form.pack("IIII", 0x1D, 16, limit, signature))
    area = b"".join(commands)
    fields = (0xFEEDFACF, *make.X86_64, make.MH_EXECUTE, len(commands), len(area), make.MH_FLAGS)
    header = form.pack("IIIIIII", *fields)
    return (header.ljust(form.header_size, b"\0") + area).ljust(code_at, b"\0"), link_data


def write_thin(out, size, signed=False):
    """Writes a program of about this size, whose code is a pattern; answers how many bytes it has, apart from a signature."""
    front, link_data = head(size, signed)
    pattern = bytes(range(256)) * (MEGABYTE // 256)
    out.write(front)
    left = size - len(front)
    while left > 0:
        left -= out.write(pattern[: min(left, MEGABYTE)])
    out.write(link_data)
    return size + len(link_data)


def write_fat(out, size, count, signed=False):
    """Writes a fat file of so many programs, together of about this size; answers where they begin, and how many bytes each
    has, apart from a signature."""
    one = size // count // 4096 * 4096 - 4096
    limit = one + len(head(one, signed)[1])
    length = limit + (signature_size(limit) if signed else 0)
    offsets = [4096 + at * (-(-length // 4096) * 4096) for at in range(count)]
    processors = [make.X86_64, make.ARM64][:count]
    out.write(struct.pack(">II", 0xCAFEBABE, count))
    for processor, offset in zip(processors, offsets):
        out.write(struct.pack(">IIIII", *processor, offset, length, 12))
    for processor, offset in zip(processors, offsets):
        out.write(bytes(offset - out.tell()))
        write_thin(out, one, signed)
        out.write(bytes(length - limit))
        end = out.tell()
        out.seek(offset + 4)
        out.write(struct.pack("<II", *processor))
        out.seek(end)
    return offsets, limit


def make_file(name):
    """Makes one of the files, unless it is there."""
    path = os.path.join(WORK, name)
    size, slices = FILES[name][:2]
    if os.path.exists(path):
        return path
    os.makedirs(WORK, exist_ok=True)
    signed = is_signed(name)
    with open(path + ".part", "wb+") as out:
        offsets, limit = [], 0
        if size == 0:
            out.write(make.files()["hello"])
        elif slices == 1:
            offsets, limit = [0], write_thin(out, size, signed)
        else:
            offsets, limit = write_fat(out, size, slices, signed)
        for offset in offsets if signed else []:
            sign_at(out, offset, limit)
    os.replace(path + ".part", path)
    return path


def timed(words):
    """The wall time of a program in seconds."""
    start = time.perf_counter()
    status = subprocess.call(words, stdin=subprocess.DEVNULL)
    wall = time.perf_counter() - start
    if status != 0:
        print(f"{words[0]} ended with status {status}", file=sys.stderr)
        sys.exit(2)
    return wall


def peak_of(words):
    """The largest resident size of a program in bytes; None where GNU time is not there. Of a child of this script
    the system would tell the script's own size where that is larger."""
    gnu_time = shutil.which("time")
    if not gnu_time:
        return None
    said = os.path.join(WORK, "peak")
    timed([gnu_time, "-f", "%M", "-o", said, *words])
    with open(said) as text:
        peak = int(text.read()) * 1024
    os.remove(said)
    return peak


def fresh_copy(path):
    """A copy of a file that nothing has touched, on disk before the clock starts."""
    copy = os.path.join(WORK, "copy")
    shutil.copyfile(path, copy)
    with open(copy, "rb+") as file:
        os.fsync(file.fileno())
    return copy


def edit_of(name, copy):
    """The words of an edit of a copy of a file."""
    return [PROGRAM, "macho", "add-rpath", *(["--sign"] if is_signed(name) else []), RUN_PATH, copy]


def measure(name, path, runs, tool):
    """The median times of arwen, cp and LLVM's tool (None where it is not there), and arwen's peak."""
    copy = os.path.join(WORK, "copy")
    programs = {
        "arwen": edit_of(name, copy),
        "cp": ["cp", "--reflink=never", path, copy],
    }
    if tool:
        programs["llvm"] = [tool, "-add_rpath", RUN_PATH, copy]
    times = {name: [] for name in programs}
    for _ in range(runs):
        for name, words in programs.items():
            fresh_copy(path)
            times[name].append(timed(words))
    fresh_copy(path)
    peak = peak_of(programs["arwen"])
    os.remove(copy)
    medians = {name: statistics.median(walls) for name, walls in times.items()}
    return medians["arwen"], medians["cp"], medians.get("llvm"), peak


def verdict(value, target):
    if target is None:
        return f"{value:.3f}"
    return f"{value:.3f} ({'within' if value <= target else 'PAST'} {target})"


def compare(name, options, tool):
    """Times a file's edit, prints the ratios, and answers whether one is past its target."""
    _, _, most_time, most_llvm, most_memory = FILES[name]
    path = make_file(name)
    size = os.path.getsize(path)
    arwen, cp, llvm, peak = measure(name, path, options.runs, tool)
    ratios = [(arwen / cp, most_time)]
    if llvm:
        ratios.append((arwen / llvm, most_llvm))
    if peak:
        ratios.append((peak / MEGABYTE, most_memory))
    beside = verdict(arwen / llvm, most_llvm) if llvm else "-"
    memory = verdict(peak / MEGABYTE, most_memory) if peak else "-"
    print(
        f"{name}: {size} bytes, arwen {arwen * 1000:.1f} ms, cp {cp * 1000:.1f} ms, "
        + (f"llvm {llvm * 1000:.1f} ms; " if llvm else "")
        + f"to cp {verdict(arwen / cp, most_time)}, to llvm {beside}, "
        + f"peak in MB {memory}",
        flush=True,
    )
    return any(most is not None and value > most for value, most in ratios)


def hash_all(name, runs):
    """Times `sign` of a file beside sha256sum, prints the ratio, and answers whether it is past its target."""
    path = make_file(name)
    copy = os.path.join(WORK, "copy")
    signs, sums = [], []
    for _ in range(runs):
        fresh_copy(path)
        signs.append(timed([PROGRAM, "macho", "sign", copy]))
        start = time.perf_counter()
        subprocess.run(["sha256sum", copy], stdout=subprocess.DEVNULL, check=True)
        sums.append(time.perf_counter() - start)
    os.remove(copy)
    sign, whole = statistics.median(signs), statistics.median(sums)
    print(
        f"{name}: sign {sign * 1000:.1f} ms, sha256sum {whole * 1000:.1f} ms, to sha256sum {verdict(sign / whole, MOST_HASHING)}",
        flush=True,
    )
    return sign > MOST_HASHING * whole


def calls_of(name):
    """The calls by which one edit of a file opens, writes and cuts, as strace tells them."""
    copy = fresh_copy(make_file(name))
    log = os.path.join(WORK, "calls")
    traced = "trace=open,openat,creat,write,pwrite64,writev,pwritev,truncate,ftruncate"
    words = ["strace", "-f", "-qq", "-o", log, "-e", traced]
    timed(words + [PROGRAM, "macho", "add-rpath", RUN_PATH, copy])
    with open(log, errors="replace") as lines:
        calls = lines.read().splitlines()
    os.remove(log)
    os.remove(copy)
    return calls


def count_writes(name):
    """Counts the bytes that one edit of a file writes; answers whether they are too many, or an open cuts."""
    calls = calls_of(name)
    answers = [re.search(r"p?writev?(?:64)?\(.*= (\d+)$", call) for call in calls]
    counts = [int(answer[1]) for answer in answers if answer]
    cuts = [call for call in calls if re.search(r"O_TRUNC|O_CREAT|creat\(|truncate\(", call)]
    past = not counts or sum(counts) > MOST_WRITTEN or bool(cuts)
    said = f"{'PAST' if past else 'within'} {MOST_WRITTEN}"
    print(f"{name}: {sum(counts)} bytes in {len(counts)} writes ({said}), {len(cuts)} calls that cut or create")
    return past


def newest_tool():
    """LLVM's tool on the path, the one without a version or the newest; None where there is none."""
    name = "llvm-install-name-tool"
    return next(filter(None, map(shutil.which, [name, *(f"{name}-{version}" for version in range(30, 12, -1))])), None)


def main():
    parser = argparse.ArgumentParser(description=__doc__.split("\n", 1)[0])
    parser.add_argument("--runs", type=int, default=5)
    parser.add_argument("--only", default="")
    parser.add_argument("--tool", help="LLVM's tool (the newest llvm-install-name-tool on the path)")
    options = parser.parse_args()
    if not os.access(PROGRAM, os.X_OK):
        print("the program is not built: run ./arwen --help first", file=sys.stderr)
        return 2
    unchecked = []
    tool = shutil.which(options.tool) if options.tool else newest_tool()
    if not tool:
        unchecked.append("the times of LLVM's tool")
    if not shutil.which("time"):
        unchecked.append("the memory")
    missed = False
    for name in FILES:
        if options.only in name:
            missed = compare(name, options, None if is_signed(name) else tool) or missed
    for name in FILES:
        if options.only in name and is_signed(name):
            missed = hash_all(name, options.runs) or missed
    if not shutil.which("strace"):
        unchecked.append("the bytes written")
    elif options.only in COUNTED:
        missed = count_writes(COUNTED) or missed
    for what in unchecked:
        print(f"not checked, as a tool is not there: {what}")
    return 1 if missed else 0


if __name__ == "__main__":
    sys.exit(main())
