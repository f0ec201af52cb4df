"""A file that is edited in memory, and saved."""
import contextlib
import os
import stat
import tempfile
from typing import Any, Dict, Iterable, List, Optional

from . import _calls
from ._calls import AnyEdit, Name, Result, Verdict
from ._edit import Text


class File:
    """An ELF or Mach-O file. It is read when something is first asked of it, edited in memory, and written by `save`."""

    def __init__(self, path: Name) -> None:
        #: The path that was given.
        self.path = path
        self._data: Optional[bytes] = None
        self._status: Optional[os.stat_result] = None
        self._facts: Optional[Dict[str, Any]] = None
        self._is_edited = False

    def __repr__(self) -> str:
        return 'arwen.File(%r)' % (self.path,)

    @property
    def bytes(self) -> bytes:
        """The file's bytes, with all edits that were made."""
        if self._data is None:
            with open(self.path, 'rb') as file:
                self._status = os.fstat(file.fileno())
                self._data = file.read()
        return self._data

    def facts(self) -> Dict[str, Any]:
        """What `arwen.facts` tells of the bytes as they are now."""
        if self._facts is None:
            self._facts = _calls.facts(self.bytes, self.path)
        return dict(self._facts)

    def _parts(self) -> List[Dict[str, Any]]:
        """The facts of each slice of a fat file, and of any other file its own."""
        facts = self.facts()
        parts: List[Dict[str, Any]] = facts['slices'] if facts['format'] == 'fat' else [facts]
        return parts

    def _texts(self, key: str) -> List[str]:
        """The texts that parts of a Mach-O file have under a key, each once."""
        return list(dict.fromkeys(text for part in self._parts() for text in part[key]))

    @property
    def format(self) -> str:
        """`elf`, `macho` or `fat`."""
        found: str = self.facts()['format']
        return found

    @property
    def run_paths(self) -> List[str]:
        """The directories of the run path of an ELF file, or the run paths of a Mach-O file; of a fat file those of all slices,
        each once."""
        if self.format == 'elf':
            return [] if self.rpath is None else self.rpath.split(':')
        return self._texts('run_paths')

    @property
    def rpath(self) -> Optional[str]:
        """The run path of an ELF file as it stands there, that is `DT_RUNPATH` or else `DT_RPATH`; of a Mach-O file its
        `run_paths` with colons between them. None where there is none."""
        if self.format == 'elf':
            facts = self.facts()
            found: Optional[str] = facts['rpath'] if facts['runpath'] is None else facts['runpath']
            return found
        return ':'.join(self.run_paths) if self.run_paths else None

    @property
    def needed(self) -> List[str]:
        """The libraries that an ELF file needs, or those that a Mach-O file loads; of a fat file those of all slices, each once."""
        if self.format == 'elf':
            return [library['name'] for library in self.facts()['needed']]
        return self._texts('libraries')

    @property
    def libraries(self) -> List[str]:
        """The same as `needed`."""
        return self.needed

    @property
    def soname(self) -> Optional[str]:
        """A library's own name: the soname of an ELF file, the install id of a Mach-O file, of a fat file that of the first slice
        that has one. None where there is none."""
        key = 'soname' if self.format == 'elf' else 'id'
        found: List[str] = [part[key] for part in self._parts() if part[key] is not None]
        return found[0] if found else None

    @property
    def id(self) -> Optional[str]:
        """The same as `soname`."""
        return self.soname

    @property
    def interpreter(self) -> Optional[str]:
        """The interpreter of an ELF program; None where there is none, as in each Mach-O file."""
        found: Optional[str] = self.facts().get('interpreter')
        return found

    def _keep(self, result: Result) -> List[str]:
        self._is_edited = self._is_edited or result.bytes != self._data
        self._data, self._facts = result.bytes, None
        return result.notes

    def apply(self, edits: Iterable[AnyEdit], *, move_dynamic: bool = False, sign: bool = False) -> List[str]:
        """Makes all edits, in order, or none; answers the notes. As `arwen.apply`."""
        return self._keep(_calls.apply(self.bytes, edits, self.path, move_dynamic=move_dynamic, sign=sign))

    def apply_words(self, *words: Text, move_dynamic: bool = False, sign: bool = False) -> List[str]:
        """The same by words, as `file.apply_words("set-rpath", "$ORIGIN", "+", "add-needed", "libm.so.6")`."""
        return self._keep(_calls.apply_words(self.bytes, words, self.path, move_dynamic=move_dynamic, sign=sign))

    def sign(self) -> List[str]:
        """Makes all pages of ad-hoc code signatures of a Mach-O file fit; answers the notes."""
        return self._keep(_calls.sign(self.bytes, self.path))

    def verify(self) -> Verdict:
        """Tells whether all pages of the code signatures of a Mach-O file fit."""
        return _calls.verify(self.bytes, self.path)

    def save(self, path: Optional[Name] = None) -> None:
        """Writes the bytes to another path, or to the file's own if they were edited: into a new file beside it, which then takes
        its place and its mode, and its owner where that is allowed. A symbolic link is followed; other hard links keep the old
        file. A file that is new at another path gets the mode of this one."""
        data = self.bytes
        if path is None and not self._is_edited:
            return
        assert self._status is not None
        _replace(os.path.realpath(os.fsencode(self.path if path is None else path)), data, self._status)
        if path is None:
            self._is_edited = False


def _replace(target: bytes, data: bytes, model: os.stat_result) -> None:
    """Puts a file in the place of another: its owner and mode are that one's, or where there is none, its mode is that of the
    model."""
    is_there = os.path.exists(target)
    old = os.stat(target) if is_there else model
    number, beside = tempfile.mkstemp(prefix=b'.arwen-', dir=os.path.dirname(target))
    try:
        with open(number, 'wb') as file:
            file.write(data)
            if is_there:
                with contextlib.suppress(OSError):
                    os.chown(number, old.st_uid, old.st_gid)
            os.chmod(number, _mode(old, os.fstat(number)))
            file.flush()
            os.fsync(number)
        os.replace(beside, target)
    except BaseException:
        with contextlib.suppress(FileNotFoundError):
            os.unlink(beside)
        raise


def _mode(old: os.stat_result, new: os.stat_result) -> int:
    """The mode of a file, but the bits that lend its owner's or its group's rights only where the new one belongs to the same."""
    is_same = (old.st_uid, old.st_gid) == (new.st_uid, new.st_gid)
    return stat.S_IMODE(old.st_mode) & (0o7777 if is_same else 0o1777)
