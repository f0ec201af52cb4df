"""Links by which the program takes the lines of patchelf and of install_name_tool.

    python -m arwen.peers install [--dir DIR]
    python -m arwen.peers remove [--dir DIR]

`install` puts them into DIR, or beside the program; `remove` takes them away again. What is there by these names and is no such
link stays, a line tells so, and the status is 1. Remove them before the package.
"""
import argparse
import os
import sys
from typing import List, Optional

from ._program import program

NAMES = ('patchelf', 'install_name_tool')


def _folder(directory: Optional[str]) -> str:
    return os.path.dirname(program()) if directory is None else directory


def _is_link(path: str) -> bool:
    """Whether a path is a link to the program."""
    return os.path.islink(path) and os.path.realpath(path) == os.path.realpath(program())


def install(directory: Optional[str] = None) -> List[str]:
    """Puts the links into a folder, or beside the program. Answers the paths that something else has, which stays."""
    folder, others = _folder(directory), []
    beside = os.path.realpath(folder) == os.path.realpath(os.path.dirname(program()))
    for name in NAMES:
        path = os.path.join(folder, name)
        try:
            os.symlink(os.path.basename(program()) if beside else program(), path)
        except FileExistsError:
            others += [] if _is_link(path) else [path]
    return others


def remove(directory: Optional[str] = None) -> List[str]:
    """Removes the links from a folder, or from beside the program. Answers the paths that something else has, which stays."""
    folder, others = _folder(directory), []
    for name in NAMES:
        path = os.path.join(folder, name)
        if _is_link(path):
            os.unlink(path)
        elif os.path.lexists(path):
            others.append(path)
    return others


def main(words: Optional[List[str]] = None) -> int:
    """Does what the words ask for; answers the status."""
    parser = argparse.ArgumentParser(prog='python -m arwen.peers', description=(__doc__ or '').partition('\n')[0])
    parser.add_argument('action', choices=('install', 'remove'), help='put the links, or take them away')
    parser.add_argument('--dir', help='the folder for the links; beside the program where none is given')
    given = parser.parse_args(words)
    try:
        others = install(given.dir) if given.action == 'install' else remove(given.dir)
    except OSError as error:
        print('peers: %s' % error, file=sys.stderr)
        return 1
    for path in others:
        print('peers: %s is no link to the program, and stays as it is' % path, file=sys.stderr)
    return 1 if others else 0


if __name__ == '__main__':
    sys.exit(main())
