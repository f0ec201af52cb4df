"""The edits of Mach-O files."""
from ._edit import Edit, Text, edit_of
from ._header import Kind

__all__ = ['add_rpath', 'change_install_id', 'change_install_name', 'change_rpath', 'delete_rpath']


def add_rpath(path: Text) -> Edit:
    """Adds a run path last, even if it is there already."""
    return edit_of(Kind.MACHO_ADD_RPATH, (path,))


def change_install_id(name: Text) -> Edit:
    """Changes the library's own name."""
    return edit_of(Kind.MACHO_CHANGE_INSTALL_ID, (name,))


def change_install_name(old: Text, new: Text) -> Edit:
    """Changes the first library that is loaded by the old name."""
    return edit_of(Kind.MACHO_CHANGE_INSTALL_NAME, (old, new))


def change_rpath(old: Text, new: Text) -> Edit:
    """Changes the first run path that is the old one."""
    return edit_of(Kind.MACHO_CHANGE_RPATH, (old, new))


def delete_rpath(path: Text) -> Edit:
    """Removes the first run path that is this one."""
    return edit_of(Kind.MACHO_DELETE_RPATH, (path,))
