"""The edits of ELF files. All stand in `arwen` itself too: `arwen.set_rpath` is `arwen.elf.set_rpath`."""
from ._edit import Edit, Pairs, Text, edit_of, edit_of_pairs
from ._header import Kind

__all__ = [
    'add_debug_tag', 'add_needed', 'add_rpath', 'clear_exec_stack', 'clear_symbol_version', 'delete_sections', 'delete_symbols',
    'force_rpath', 'no_default_lib', 'remove_needed', 'remove_rpath', 'rename_dynamic_symbols', 'rename_sections',
    'rename_symbols', 'replace_library', 'replace_needed', 'set_exec_stack', 'set_interpreter', 'set_os_abi', 'set_page_size',
    'set_rpath', 'set_soname',
]


def add_debug_tag() -> Edit:
    """Adds `DT_DEBUG` if there is none."""
    return edit_of(Kind.ELF_ADD_DEBUG_TAG)


def add_needed(*names: Text) -> Edit:
    """Adds those needed libraries that weren't needed before, in front, in this order."""
    return edit_of(Kind.ELF_ADD_NEEDED, names)


def add_rpath(*directories: Text) -> Edit:
    """Adds directories to each run path; where there is none, adds a `DT_RUNPATH`."""
    return edit_of(Kind.ELF_ADD_RPATH, directories)


def clear_exec_stack() -> Edit:
    """Makes the stack one that isn't executable."""
    return edit_of(Kind.ELF_CLEAR_EXEC_STACK)


def clear_symbol_version(symbol: Text) -> Edit:
    """Clears the version of each dynamic symbol with this name."""
    return edit_of(Kind.ELF_CLEAR_SYMBOL_VERSION, (symbol,))


def delete_sections(*names: Text) -> Edit:
    """Deletes the sections with these names, and the symbols for link editors that are defined in them."""
    return edit_of(Kind.ELF_DELETE_SECTIONS, names)


def delete_symbols(*names: Text) -> Edit:
    """Deletes the symbols with these names, both for the loader and for link editors."""
    return edit_of(Kind.ELF_DELETE_SYMBOLS, names)


def force_rpath() -> Edit:
    """Makes each `DT_RUNPATH` a `DT_RPATH`."""
    return edit_of(Kind.ELF_FORCE_RPATH)


def no_default_lib() -> Edit:
    """Makes the loader skip its default directories."""
    return edit_of(Kind.ELF_NO_DEFAULT_LIB)


def remove_needed(*names: Text) -> Edit:
    """Removes needed libraries."""
    return edit_of(Kind.ELF_REMOVE_NEEDED, names)


def remove_rpath() -> Edit:
    """Removes all run paths."""
    return edit_of(Kind.ELF_REMOVE_RPATH)


def rename_dynamic_symbols(pairs: Pairs) -> Edit:
    """Renames symbols for the loader, all at once."""
    return edit_of_pairs(Kind.ELF_RENAME_DYNAMIC_SYMBOLS, pairs)


def rename_sections(pairs: Pairs) -> Edit:
    """Renames sections, all at once."""
    return edit_of_pairs(Kind.ELF_RENAME_SECTIONS, pairs)


def rename_symbols(pairs: Pairs) -> Edit:
    """Renames symbols both for the loader and for link editors, all at once."""
    return edit_of_pairs(Kind.ELF_RENAME_SYMBOLS, pairs)


def replace_library(pairs: Pairs) -> Edit:
    """Renames needed libraries, all at once, also where versions of them are needed."""
    return edit_of_pairs(Kind.ELF_REPLACE_LIBRARY, pairs)


def replace_needed(pairs: Pairs) -> Edit:
    """Renames needed libraries in the list of these alone, all at once. Mostly `replace_library` is what is wanted."""
    return edit_of_pairs(Kind.ELF_REPLACE_NEEDED, pairs)


def set_exec_stack() -> Edit:
    """Makes the stack executable."""
    return edit_of(Kind.ELF_SET_EXEC_STACK)


def set_interpreter(path: Text) -> Edit:
    """Sets the interpreter of a program that has one."""
    return edit_of(Kind.ELF_SET_INTERPRETER, (path,))


def set_os_abi(name: Text) -> Edit:
    """Sets the ABI byte, by a name as `linux`."""
    return edit_of(Kind.ELF_SET_OS_ABI, (name,))


def set_page_size(size: int) -> Edit:
    """Sets the alignment of all loaded segments, and moves nothing."""
    return edit_of(Kind.ELF_SET_PAGE_SIZE, ('%d' % size,))


def set_rpath(path: Text) -> Edit:
    """Gives each run path this text, directories with colons between them; where there is none, adds a `DT_RUNPATH`."""
    return edit_of(Kind.ELF_SET_RPATH, (path,))


def set_soname(name: Text) -> Edit:
    """Sets the library's own name, or adds it."""
    return edit_of(Kind.ELF_SET_SONAME, (name,))
