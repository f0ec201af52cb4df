#!/usr/bin/env python3
"""Prints what the program is to print: a second, plain reader of the sample files.

Run in this folder: python3 show_model.py; it prints the part of `stdout` below the heading `show/files`
"""
import hashlib
import json
import struct

MACHINES = {3: 'i386', 8: 'mips', 20: 'powerpc', 21: 'powerpc64', 22: 's390', 40: 'arm', 43: 'sparcv9', 62: 'x86-64',
            183: 'aarch64', 243: 'riscv', 258: 'loongarch'}
CPUS = {7: 'i386', 12: 'arm', 18: 'ppc', 0x1000007: 'x86_64', 0x100000c: 'arm64', 0x1000012: 'ppc64', 0x200000c: 'arm64_32'}
FILE_TYPES = {1: 'object', 2: 'program', 6: 'library', 7: 'loader', 8: 'bundle', 9: 'stub', 10: 'debug'}
FLAGS = [(1, 'NOW'), (8, 'NODELETE'), (0x20, 'INITFIRST'), (0x80, 'ORIGIN'), (0x800, 'NODEFLIB'), (0x8000000, 'PIE')]
LOADS = {0xc, 0x20, 0x80000018, 0x8000001f, 0x80000023}
HASHES = {1: ('sha1', 20), 2: ('sha256', 32)}
# What each refused file is answered with.
REFUSED = {
    'elf-object': 'error while reading ELF file: Elf(Parse(Unsupported))',
    'fat-archive': 'error while reading Mach-O file: Macho(UnixArchive)',
    'script': 'neither an ELF file nor a Mach-O file: UnknownFormat',
    'three-bytes': 'neither an ELF file nor a Mach-O file: UnknownFormat',
}

LINES = {
    'elf-object': 'error while reading ELF file: A parse error occurred while reading the file: Unsupported (a relocatable object)',
    'fat-archive': 'error while reading Mach-O file: unix archive is not supported as fat file format',
    'script': 'neither an ELF file nor a Mach-O file (a script)',
    'three-bytes': 'neither an ELF file nor a Mach-O file (text)',
    'missing': 'file error: No such file or directory (os error 2)',
}


def text(data, at=0):
    return data[at:data.index(b'\0', at)].decode('utf-8', 'replace')


def elf(data):
    wide, order = data[4] == 2, '<' if data[5] == 1 else '>'

    def records(form, at, size, count):
        return [struct.unpack_from(order + form, data, at + i * size) for i in range(count)]

    head = struct.unpack_from(order + ('HHIQQQIHHHHHH' if wide else 'HHIIIIIHHHHHH'), data, 16)
    e_type, machine, phoff, shoff = head[0], head[1], head[4], head[5]
    programs = records('IIQQQQQQ' if wide else 'IIIIIIII', phoff, head[8], head[9])
    sections = records('IIQQQQIIQQ' if wide else 'IIIIIIIIII', shoff, head[10], head[11])
    stack = next((p[1] if wide else p[6] for p in programs if p[0] == 0x6474e551), None)
    interp = next((text(data, p[2] if wide else p[1]) for p in programs if p[0] == 3), None)
    by_type = {s[1]: s for s in reversed(sections)}
    entries, spare, needs = [], None, {}
    if 6 in by_type:
        s = by_type[6]
        size = 16 if wide else 8
        places = records('QQ' if wide else 'II', s[4], size, s[5] // size)
        entries = places[:[tag for tag, _ in places].index(0)]
        spare = len(places) - len(entries) - 1
        strings = data[sections[s[6]][4]:]
    if 0x6ffffffe in by_type:
        s = by_type[0x6ffffffe]
        names, at = data[sections[s[6]][4]:], s[4]
        for _ in range(s[7]):
            _, count, file, aux, following = struct.unpack_from(order + 'HHIII', data, at)
            to = at + aux
            for _ in range(count):
                *_, name, step = struct.unpack_from(order + 'IHHII', data, to)
                needs.setdefault(text(names, file), []).append(text(names, name))
                to += step
            at += following
    tagged = lambda tag: [text(strings, value) for t, value in entries if t == tag]
    first = lambda list: list[0] if list else None
    flags = first([value for t, value in entries if t == 0x6ffffffb]) or 0
    soname = first(tagged(14))
    if e_type == 2:
        kind = 'program'
    elif flags & 0x8000000:
        kind = 'position-independent program' if interp is not None else 'static position-independent program'
    else:
        kind = 'position-independent program' if interp is not None and soname is None else 'library'
    return [('format', 'elf'), ('kind', kind), ('machine', MACHINES.get(machine, str(machine))), ('class', 64 if wide else 32),
            ('byte_order', 'little' if order == '<' else 'big'), ('os_abi', data[7]), ('interpreter', interp), ('soname', soname),
            ('needed', [{'name': name, 'versions': needs.get(name, [])} for name in tagged(1)]), ('rpath', first(tagged(15))),
            ('runpath', first(tagged(29))),
            ('stack', None if stack is None else ''.join(c if stack & bit else '-' for bit, c in [(4, 'r'), (2, 'w'), (1, 'x')])),
            ('flags', [name for bit, name in FLAGS if flags & bit]), ('spare_entries', spare), ('views_agree', True)]


class Unreadable(Exception):
    """The name of what a signature is refused for."""


def big(data, at):
    return struct.unpack_from('>I', data, at)[0]


def directory(blob, data):
    """What a code directory says: its flags, identifier and hash, and how many slots don't hold the hash of their page."""
    name = blob[big(blob, 20):].partition(b'\0')[0].decode('utf-8', 'replace')
    if blob[37] not in HASHES or HASHES[blob[37]][1] != blob[36]:
        raise Unreadable('UnknownHash')
    hash_name, size = HASHES[blob[37]]
    first, count, limit, page = big(blob, 16), big(blob, 28), big(blob, 32), 1 << blob[39]
    unfit = sum(hashlib.new(hash_name, data[i * page:min((i + 1) * page, limit)]).digest() != blob[first + i * size:first + (i + 1) * size]
                for i in range(count))
    return big(blob, 12), name, hash_name, unfit


def signature(data, places):
    """What is told of the signature at the one of these places."""
    if len(places) > 1:
        raise Unreadable('SeveralSignatures')
    (start, size), = places
    content = data[start:start + size]
    blobs = [(big(content, at), big(content, at + 4)) for at in range(12, 12 + 8 * big(content, 8), 8)]
    found = [directory(content[at:at + big(content, at + 4)], data) for kind, at in blobs if kind == 0 or 0x1000 <= kind <= 0x1004]
    if all(kind for kind, _ in blobs):
        raise Unreadable('NoDirectory')
    by_identity = any(kind == 0x10000 and big(content, at) == 0xfade0b01 and big(content, at + 4) > 8 for kind, at in blobs)
    flags, name = found[0][:2]
    kind = 'by an identity' if by_identity else 'linker-signed ad hoc' if flags & 0x20000 else 'ad hoc'
    unfit = sum(one[3] for one in found)
    return [('signature', kind), ('identifier', name), ('hashes', [one[2] for one in found]), ('pages_fit', unfit == 0),
            ('unfit_pages', unfit)]


def signature_told(data, places):
    """What is told of a signature, or of why it isn't read; nothing where there is none."""
    try:
        return signature(data, places) if places else []
    except Unreadable as refusal:
        return [('signature', 'unreadable'), ('refusal', str(refusal))]


def macho(data):
    magic = data[:4].hex()
    order = '<' if magic in ('cefaedfe', 'cffaedfe') else '>'
    wide = magic in ('cffaedfe', 'feedfacf')
    cpu, subtype, kind, count, size = struct.unpack_from(order + 'IIIII', data, 4)
    at = 32 if wide else 28
    end, content = at + size, [len(data)]
    names, places = {'id': [], 'load': [], 'path': []}, []
    for _ in range(count):
        cmd, length = struct.unpack_from(order + 'II', data, at)
        if cmd in LOADS or cmd in (0xd, 0x8000001c):
            start, = struct.unpack_from(order + 'I', data, at + 8)
            name = data[at + start:at + length].split(b'\0')[0].decode('utf-8', 'replace')
            names['id' if cmd == 0xd else 'path' if cmd == 0x8000001c else 'load'].append(name)
        if cmd == 0x1d:
            places.append(struct.unpack_from(order + 'II', data, at + 8))
        if cmd in (1, 0x19):
            large = cmd == 0x19
            numbers = struct.unpack_from(order + ('QQQQ' if large else 'IIII'), data, at + 24)
            sections, = struct.unpack_from(order + 'I', data, at + (64 if large else 48))
            if numbers[2] and numbers[3]:
                content.append(numbers[2])
            for i in range(sections):
                to = at + (72 + 80 * i if large else 56 + 68 * i)
                length_of, offset = struct.unpack_from(order + ('QI' if large else 'II'), data, to + (40 if large else 36))
                flags, = struct.unpack_from(order + 'I', data, to + (64 if large else 56))
                if offset and length_of and flags & 0xff not in (1, 0xc, 0x12):
                    content.append(offset)
        if cmd == 2:
            symbols, n, strings, bytes_of = struct.unpack_from(order + 'IIII', data, at + 8)
            content += [offset for offset, much in [(symbols, n), (strings, bytes_of)] if offset and much]
        at += length
    return [('cpu', CPUS.get(cpu, str(cpu))), ('cpu_subtype', subtype), ('file_type', FILE_TYPES.get(kind, str(kind))),
            ('class', 64 if wide else 32), ('byte_order', 'little' if order == '<' else 'big'), ('id', (names['id'] + [None])[0]),
            ('libraries', names['load']), ('run_paths', names['path']), ('signed', places != []), *signature_told(data, places),
            ('header_pad', max(min(content) - end, 0))]


def facts(data):
    if data[:4] == b'\x7fELF':
        return elf(data)
    if data[:4] != bytes.fromhex('cafebabe'):
        return [('format', 'macho')] + macho(data)
    slices = []
    for i in range(struct.unpack_from('>I', data, 4)[0]):
        _, _, offset, size, _ = struct.unpack_from('>IIIII', data, 8 + 20 * i)
        slices.append(dict([('slice_offset', offset), ('slice_size', size)] + macho(data[offset:offset + size])))
    return [('format', 'fat'), ('slices', slices)]


def lines(told):
    for key, value in told:
        if key == 'slices':
            for one in value:
                yield from lines(one.items())
        elif key == 'needed' and isinstance(value, list):
            for library in value:
                yield from lines([('needed', library['name'])] + [('version', v) for v in library['versions']])
        elif isinstance(value, list):
            for one in value:
                yield from lines([(key, one)])
        elif value is not None:
            shown = {True: 'yes', False: 'no'}[value] if isinstance(value, bool) else value
            yield '  %s:%s%s' % (key, ' ' * max(15 - len(key), 0), shown)


def json_line(name, told):
    return json.dumps(dict(told, file=name), sort_keys=True, separators=(',', ':'), ensure_ascii=False)


def main():
    shown, refused = [], []
    with open('data/show/files') as cases:
        names = cases.read().split()
    for name in names:
        if name in REFUSED:
            print('%s: %s' % (name, REFUSED[name]) + '\n%s: %s' % (name, REFUSED[name]))
            continue
        with open('data/' + name, 'rb') as file:
            told = facts(file.read())
        print(name + ':')
        for line in lines(told):
            print(line)
        print(json_line(name, told))
        shown.append(json_line(name, told))
    for line in shown + ['%s: %s' % (name, LINES[name]) for name in names + ['missing'] if name in LINES]:
        print(line)
    print('some files are not shown')


if __name__ == '__main__':
    main()
