"""Edits ELF and Mach-O files, and tells what they say.

    >>> import arwen
    >>> greet = arwen.File("greet")
    >>> notes = greet.apply([arwen.set_rpath("$ORIGIN"), arwen.add_needed("libm.so.6")])
    >>> greet.rpath
    '$ORIGIN'
    >>> greet.save()

`arwen.apply`, `arwen.facts`, `arwen.sign` and `arwen.verify` do the same with bytes. Edits of ELF files stand here and in
`arwen.elf`, those of Mach-O files in `arwen.macho`. `arwen.Error` tells why something is refused.
"""
from . import elf, macho
from ._calls import AnyEdit, Data, Name, Result, Verdict, apply, apply_words, facts, sign, verify
from ._edit import Edit, Pairs, Text
from ._errors import Error, NotEdits, Refused
from ._file import File
from ._header import VERSION, Cause, Kind
from ._library import cause_text
from ._library import version as library_version
from .elf import (
    add_debug_tag, add_needed, add_rpath, clear_exec_stack, clear_symbol_version, delete_sections, delete_symbols, force_rpath,
    no_default_lib, remove_needed, remove_rpath, rename_dynamic_symbols, rename_sections, rename_symbols, replace_library,
    replace_needed, set_exec_stack, set_interpreter, set_os_abi, set_page_size, set_rpath, set_soname,
)

__version__ = VERSION

__all__ = [
    'AnyEdit', 'Cause', 'Data', 'Edit', 'Error', 'File', 'Kind', 'Name', 'NotEdits', 'Pairs', 'Refused', 'Result', 'Text',
    'Verdict', 'add_debug_tag', 'add_needed', 'add_rpath', 'apply', 'apply_words', 'cause_text', 'clear_exec_stack',
    'clear_symbol_version', 'delete_sections', 'delete_symbols', 'elf', 'facts', 'force_rpath', 'library_version', 'macho',
    'no_default_lib', 'remove_needed', 'remove_rpath', 'rename_dynamic_symbols', 'rename_sections', 'rename_symbols',
    'replace_library', 'replace_needed', 'set_exec_stack', 'set_interpreter', 'set_os_abi', 'set_page_size', 'set_rpath',
    'set_soname', 'sign', 'verify',
]
