"""The numbers of the header for C, arwen.h. `tools/make_wheel --numbers` makes this file from it."""
from enum import IntEnum

VERSION = '0.1.0'

MOVE_DYNAMIC = 1
SIGN = 2
OK = 0
REFUSED = 1
WORDS = 2
UNFIT = 3
MEMORY = 4


class Kind(IntEnum):
    """The kinds of edits, with the texts that they take."""

    #: no text
    ELF_ADD_DEBUG_TAG = 1
    #: names
    ELF_ADD_NEEDED = 2
    #: directories
    ELF_ADD_RPATH = 3
    #: no text
    ELF_CLEAR_EXEC_STACK = 4
    #: a symbol
    ELF_CLEAR_SYMBOL_VERSION = 5
    #: names
    ELF_DELETE_SECTIONS = 6
    #: names
    ELF_DELETE_SYMBOLS = 7
    #: no text
    ELF_FORCE_RPATH = 8
    #: no text
    ELF_NO_DEFAULT_LIB = 9
    #: names
    ELF_REMOVE_NEEDED = 10
    #: no text
    ELF_REMOVE_RPATH = 11
    #: old, new, old, new ..
    ELF_RENAME_DYNAMIC_SYMBOLS = 12
    #: old, new, ..
    ELF_RENAME_SECTIONS = 13
    #: old, new, ..
    ELF_RENAME_SYMBOLS = 14
    #: old, new, ..
    ELF_REPLACE_LIBRARY = 15
    #: old, new, ..
    ELF_REPLACE_NEEDED = 16
    #: no text
    ELF_SET_EXEC_STACK = 17
    #: a path
    ELF_SET_INTERPRETER = 18
    #: a name
    ELF_SET_OS_ABI = 19
    #: a decimal number
    ELF_SET_PAGE_SIZE = 20
    #: a run path
    ELF_SET_RPATH = 21
    #: a name
    ELF_SET_SONAME = 22
    #: a run path
    MACHO_ADD_RPATH = 101
    #: a name
    MACHO_CHANGE_INSTALL_ID = 102
    #: old, new
    MACHO_CHANGE_INSTALL_NAME = 103
    #: old, new
    MACHO_CHANGE_RPATH = 104
    #: a run path
    MACHO_DELETE_RPATH = 105


class Cause(IntEnum):
    """Why a file or an edit is refused."""

    #: the file can't be read: of arwen_show_path alone
    FILE = 1
    #: neither an ELF file nor a Mach-O file: of arwen_show alone
    FORMAT = 2
    ELF_TRUNCATED = 101
    ELF_UNSUPPORTED = 102
    ELF_DISAGREE = 103
    ELF_BAD_TEXT = 104
    ELF_NUMBER = 105
    ELF_BAD_MAGIC = 106
    ELF_WRITE = 121
    ELF_NO_DYNAMIC = 141
    ELF_NO_INTERPRETER = 142
    ELF_UNKNOWN_ABI = 143
    ELF_BAD_PAGE_SIZE = 144
    ELF_NO_RPATH = 145
    ELF_OVERLAP = 146
    ELF_NUL_IN_TEXT = 147
    ELF_MIPS = 148
    ELF_SYMBOL_IN_RELOCATION = 149
    ELF_CANNOT_RENUMBER = 150
    ELF_SECTION_IN_USE = 151
    ELF_TOO_MANY_HEADERS = 152
    MACHO_BAD_MAGIC = 201
    MACHO_TRUNCATED = 202
    MACHO_BAD_COMMAND_SIZE = 203
    MACHO_BAD_NAME_OFFSET = 204
    MACHO_COUNTS_DISAGREE = 205
    MACHO_SLICE_OUTSIDE = 206
    MACHO_SLICES_OVERLAP = 207
    MACHO_TOO_LONG = 208
    MACHO_UNIX_ARCHIVE = 209
    MACHO_BAD_COMMAND = 221
    MACHO_RPATH_MISSING = 222
    MACHO_NAME_MISSING = 223
    MACHO_ID_MISSING = 224
    #: where there is none behind the last edit, edit is the number of edits
    MACHO_NO_ROOM = 225
    SIGNING_BAD_COMMAND = 241
    SIGNING_SEVERAL_SIGNATURES = 242
    SIGNING_IN_COMMANDS = 243
    SIGNING_CHANGED_SIGNATURE = 244
    SIGNATURE_OUTSIDE = 251
    SIGNATURE_NO_SUPER_BLOB = 252
    SIGNATURE_BAD_LENGTH = 253
    SIGNATURE_BAD_INDEX = 254
    SIGNATURE_BAD_BLOB = 255
    SIGNATURE_BAD_DIRECTORY = 256
    SIGNATURE_UNKNOWN_HASH = 257
    SIGNATURE_BAD_PAGE_SIZE = 258
    SIGNATURE_SCATTERED = 259
    SIGNATURE_BAD_SLOTS = 260
    SIGNATURE_BAD_LIMIT = 261
    SIGNATURE_NO_DIRECTORY = 262
    WORDS_EMPTY = 301
    WORDS_UNKNOWN_EDIT = 302
    WORDS_WRONG_WORDS = 303
    WORDS_KEY_VALUE = 304
    WORDS_NUMBER = 305
    WORDS_NO_TEXT = 310
    EDITS_UNKNOWN_KIND = 321
    EDITS_WRONG_COUNT = 322
    EDITS_NO_TEXT = 323
    EDITS_OTHER_FORMAT = 324
