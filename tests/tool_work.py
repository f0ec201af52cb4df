"""What tests share that run other tools: words that are run, editors by the names of these tools, and programs with libraries that
each link editor makes."""
import base64
import functools
import glob
import hashlib
import os
import re
import shutil
import subprocess
import tempfile
import zipfile

LATE, AT_ONCE = 120, 8
LINKERS = {'bfd': 'ld.bfd', 'gold': 'ld.gold', 'lld': 'ld.lld', 'mold': 'mold'}


class Fault(Exception):
    """What isn't as it has to be, of several tries the faults of each."""

    def __init__(self, text, parts=None):
        super().__init__(text)
        self.parts = parts or [text]


class LeftOut(Exception):
    """What a machine lacks for a case."""


def run(words, **more):
    """What a program answers, with both outputs as text."""
    try:
        return subprocess.run(words, **{'stdin': subprocess.DEVNULL, 'stdout': subprocess.PIPE, 'stderr': subprocess.PIPE, 'text': True,
                                        'errors': 'replace', 'timeout': LATE, 'check': False, **more})
    except subprocess.TimeoutExpired:
        return subprocess.CompletedProcess(words, 124, '', 'no end within %d seconds' % LATE)
    except OSError as why:
        return subprocess.CompletedProcess(words, 127, '', str(why))


def last_line(text):
    """The end of what a program says; all of it where it is short."""
    lines = text.strip().splitlines() or ['']
    return '; '.join(lines if len(lines) < 4 else lines[-1:])[-220:]


def done(words, **more):
    """What words print that have to succeed."""
    ran = run(words, **more)
    if ran.returncode != 0:
        raise Fault('%s: %s' % (os.path.basename(words[0]), last_line(ran.stderr) or last_line(ran.stdout) or 'status %d' % ran.returncode))
    return ran.stdout


def expect(is_so, fault):
    if not is_so:
        raise Fault(fault)


def wants(*tools):
    for tool in tools:
        if shutil.which(tool) is None:
            raise LeftOut('no %s here' % tool)


def write(path, text):
    os.makedirs(os.path.dirname(path), exist_ok=True)
    with open(path, 'w', encoding='utf-8') as file:
        file.write(text)


def each(tries):
    """Makes all tries, each with a name, and raises the first fault and how many there are."""
    count, parts = 0, []
    for name, work in tries:
        try:
            work()
        except Fault as fault:
            count, parts = count + 1, parts + ['%s: %s' % (name, part) for part in fault.parts]
    if not tries:
        raise LeftOut('there are no files for it')
    if parts:
        raise Fault('%d of %d, %s' % (count, len(tries), parts[0]), parts)


# ---- the programs that are compared

class Editor:
    """Arwen or the real tools: a folder with those names that stands first on PATH."""

    def __init__(self, name, folder, program=None):
        self.name, self.folder, self.program = name, folder, program
        self.env = {**os.environ, 'PATH': folder + os.pathsep + os.environ['PATH'], 'LC_ALL': 'C', 'PYTHONDONTWRITEBYTECODE': '1'}
        for word in ('LD_LIBRARY_PATH', 'DESTDIR', 'PYTHONPATH'):
            self.env.pop(word, None)

    def has(self, tool):
        return os.path.exists(os.path.join(self.folder, tool))

    def edit(self, path, *lines):
        """Makes edits of a file, each by a line of patchelf."""
        for words in lines:
            done([os.path.join(self.folder, 'patchelf'), *words, path], env=self.env)


def is_script(program):
    with open(program, 'rb') as file:
        return file.read(2) == b'#!'


def arwen(program, folder):
    """Arwen by its links; a script that doesn't look at its name is called with the word."""
    os.makedirs(folder)
    for name, word in (('patchelf', 'patchelf'), ('install_name_tool', 'install-name-tool')):
        path = os.path.join(folder, name)
        if is_script(program):
            write(path, '#!/bin/sh\nexec "%s" %s "$@"\n' % (program, word))
            os.chmod(path, 0o755)
        else:
            os.symlink(program, path)
    return with_otool(Editor('arwen', folder, program))


def real(folder):
    """The real tools, where they are there, and are no links to arwen."""
    os.makedirs(folder)
    found = {'patchelf': shutil.which('patchelf'), 'install_name_tool': shutil.which('install_name_tool') or llvm('install-name-tool')}
    for name, path in found.items():
        if path and 'arwen' not in run([path, '--version']).stdout:
            os.symlink(os.path.realpath(path), os.path.join(folder, name))
    return with_otool(Editor('real', folder))


def with_otool(editor):
    """The same with llvm's otool by its short name, where it is there."""
    if llvm('otool'):
        os.symlink(llvm('otool'), os.path.join(editor.folder, 'otool'))
    return editor


def llvm(tool):
    """The path of a tool of llvm, whose name may end with a version."""
    for folder in os.environ['PATH'].split(os.pathsep):
        for path in sorted(glob.glob(os.path.join(folder, 'llvm-%s*' % tool)), reverse=True):
            if re.fullmatch(r'llvm-%s(-\d+)?' % tool, os.path.basename(path)):
                return path
    return None


# ---- a program and its libraries

BASE = 'int base_one(void) { return 40; }\nint base_two(void) { return 2; }\n'
PART = ('extern int base_one(void), base_two(void);\n'
        'int part_one(void) { return base_one() + 1; }\nint part_two(void) { return base_two() - 1; }\n')
VERSIONS = '{0}_1 {{ global: {1}_one; local: *; }};\n{0}_2 {{ global: {1}_two; }} {0}_1;\n'
PROGRAM = '''#include <stdio.h>
#include <stdlib.h>
extern int part_one(void), part_two(void);
static int table[] = {1, 2, 3};
static int *const pointers[] = {&table[0], &table[2]};
static _Thread_local int own = 5;
int sum(int count)
{
    int found = 0;
    for (int i = 0; i < count; i++)
        found += *pointers[i & 1] + own;
    return found;
}
int main(int count, char **words)
{
    printf("%d %d %s\\n", part_one() + part_two(), sum(count + 3), getenv("NOT_THERE") ? "there" : "not there");
    return words[0] == NULL;
}
'''
PRINTS = '42 28 not there\n'
LONG = '/opt/' + 'long/' * 40 + 'lib'
OWN = {'prog': '$ORIGIN/lib', 'lib/libpart.so.1': '$ORIGIN'}
# More libraries of glibc than GNU ld leaves entries for.
FURTHER = ['libm.so.6', 'libdl.so.2', 'libpthread.so.0', 'librt.so.1', 'libutil.so.1', 'libresolv.so.2']
ADDS = [word for name in FURTHER for word in ('--add-needed', name)]


def longer(count, own):
    return ':'.join([LONG] * count + [own])


# The lines of patchelf of an edit, by the directory that a file needs, with the run path and the needed libraries that it leaves.
EDITS = {
    'run path': lambda own: ([['--set-rpath', longer(1, own)]], longer(1, own), []),
    'run path and libraries': lambda own: ([['--set-rpath', longer(1, own)], ADDS], longer(1, own), FURTHER),
    'three run paths': lambda own: ([['--set-rpath', longer(count, own)] for count in (1, 2, 3)], longer(3, own), []),
}
# Those that are tried with each tool.
MAIN_EDITS = ['run path and libraries', 'three run paths']


def linked(folder, linker):
    """Links the program and its libraries with debug information; none where the linker isn't there or can't."""
    if not shutil.which(LINKERS[linker]):
        return None
    for name, text in {'base.c': BASE, 'part.c': PART, 'prog.c': PROGRAM, 'base.map': VERSIONS.format('BASE', 'base'),
                       'part.map': VERSIONS.format('PART', 'part'), 'lib/README': ''}.items():
        write(os.path.join(folder, name), text)
    gcc = ['gcc', '-g', '-O1', '-fuse-ld=' + linker, '-Wl,--build-id', '-Wl,--enable-new-dtags', '-Wl,-rpath,']
    for words in (['-shared', '-fPIC', 'base.c', '-o', 'lib/libbase.so.1', '-Wl,--version-script=base.map', '-Wl,-soname,libbase.so.1'],
                  ['-shared', '-fPIC', 'part.c', 'lib/libbase.so.1', '-o', 'lib/libpart.so.1', '-Wl,--version-script=part.map',
                   '-Wl,-soname,libpart.so.1'],
                  ['-c', 'prog.c'], ['prog.o', 'lib/libpart.so.1', '-Wl,-rpath-link,lib', '-o', 'prog']):
        own = '$ORIGIN/lib' if 'prog' in words else '$ORIGIN'
        if run([*gcc[:-1], gcc[-1] + own, *words], cwd=folder).returncode:
            return None
    return folder


def all_facts(folder, names):
    """The needed libraries and the run paths of files by readelf, and what that says on standard error of all of them."""
    told = run(['readelf', '-a', '-W', *names], cwd=folder, env={**os.environ, 'LC_ALL': 'C'})
    texts = re.split(r'^File: .*$', told.stdout, flags=re.M)[1:] if len(names) > 1 else [told.stdout]
    expect(len(texts) == len(names), 'readelf: ' + last_line(told.stderr))
    found = [(re.findall(r'\(NEEDED\)\s+Shared library: \[(.*)\]', text),
              re.findall(r'\((?:RPATH|RUNPATH)\)\s+Library (?:rpath|runpath): \[(.*)\]', text)) for text in texts]
    return found, set(told.stderr.splitlines())


def facts(path):
    """The same of one file."""
    folder, name = os.path.split(path)
    found, said = all_facts(folder, [name])
    return *found[0], said


def prints(folder, env=None):
    """Expects that a folder's program prints what it has to."""
    ran = run([os.path.join(folder, 'prog')], cwd='/', env=env)
    why = last_line(ran.stderr) or 'status %d, it prints %r' % (ran.returncode, ran.stdout)
    expect((ran.returncode, ran.stdout) == (0, PRINTS), 'the program: ' + why)


class Place:
    """The folder in which all is made, with what is linked and edited once for all cases."""

    def __init__(self, folder, editors):
        self.folder, self.editors = folder, editors
        os.makedirs(self.path('tries'))
        wanted = {linker: linked(self.path('linked', linker), linker) for linker in LINKERS} if shutil.which('gcc') else {}
        self.linked = {linker: path for linker, path in wanted.items() if path}
        self.said = {linker: all_facts(path, [*OWN])[1] for linker, path in self.linked.items()}

    def path(self, *parts):
        return os.path.join(self.folder, *parts)

    def new(self, source=None):
        """A new folder, with what another one holds."""
        goal = tempfile.mkdtemp(dir=self.path('tries'))
        if source:
            shutil.copytree(source, goal, symlinks=True, dirs_exist_ok=True)
        return goal

    @functools.lru_cache(maxsize=None)
    def edited(self, editor, linker, edit):
        """The linked files after an edit of the program and of the library."""
        goal = self.new(self.linked[linker])
        self.edit(editor, goal, edit)
        return goal

    def edit(self, editor, folder, edit):
        for name, own in OWN.items():
            editor.edit(os.path.join(folder, name), *EDITS[edit](own)[0])

    def works(self, folder, linker, edit=None):
        """Expects that edited files work, show what the edit left, and are read as they were."""
        prints(folder)
        found, said = all_facts(folder, [*OWN])
        for (name, own), (needed, paths) in zip(OWN.items(), found):
            _, path, further = EDITS[edit](own) if edit else (None, own, [])
            expect(paths == [path], '%s: run path %s' % (name, paths))
            expect(set(further) <= set(needed), '%s: needs %s' % (name, needed))
        expect(said <= self.said[linker], 'readelf: ' + last_line('\n'.join(sorted(said - self.said[linker]))))

    def tried(self, edits=MAIN_EDITS):
        """The linkers and edits to try."""
        return [(linker, edit) for linker in self.linked for edit in edits]


# ---- wheels


def record_line(path, content):
    return '%s,sha256=%s,%d\n' % (path, base64.urlsafe_b64encode(hashlib.sha256(content).digest()).rstrip(b'=').decode(), len(content))


def packed(folder, goal):
    """Packs a folder as a wheel, with its list of files."""
    record = 'trial-1.0.dist-info/RECORD'
    names = sorted(os.path.relpath(os.path.join(at, name), folder) for at, _, found in os.walk(folder) for name in found)
    with zipfile.ZipFile(goal, 'w') as wheel:
        lines = []
        for name in names:
            if name != record:
                with open(os.path.join(folder, name), 'rb') as file:
                    content = file.read()
                wheel.writestr(name, content)
                lines.append(record_line(name, content))
        wheel.writestr(record, ''.join(lines) + record + ',,\n')
    return goal


def unpacked(wheel, goal):
    with zipfile.ZipFile(wheel) as file:
        file.extractall(goal)
    return goal
