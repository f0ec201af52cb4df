/* Edits ELF and Mach-O files in memory, and tells what they say.
 *
 * Link with libarwen.a or libarwen.so, as `./install` leaves them: `pkg-config --cflags --libs arwen`, or `-larwen` with the
 * folders. Both need nothing but the C library; tools/build_library makes both of the archive that the gate proves. That
 * archive, crates/arwen_c/out/libarwen_c.a, can be linked too, with crates/arwen_c/c/arwen_path.c and with libos_c.a and
 * liblibc_c.a of the kit's folder c. Memory comes from malloc, realloc and free of the C library.
 *
 * No pointer may be null, also where its length is 0. What is handed in is only read, and is the caller's again when a call
 * returns. An answer is written whole by each call; what it held before isn't freed, and it may not overlap what is handed in.
 * Calls from several threads are fine. */
#ifndef ARWEN_H
#define ARWEN_H

#include <stddef.h>
#include <stdint.h>

#ifdef __cplusplus
extern "C" {
#endif

#define ARWEN_VERSION "0.1.0"

/* Bytes: a file, a name, a message. There is no NUL behind them. */
typedef struct {
    const uint8_t *at; /* not null, also where len is 0 */
    size_t len;
} arwen_text;

/* ---- edits */

/* One edit: its kind, and its texts. */
typedef struct {
    uint32_t kind; /* ARWEN_ELF_.. or ARWEN_MACHO_.. */
    const arwen_text *texts; /* not null, also where there are none */
    size_t texts_len;
} arwen_edit;

/* Edits of ELF files, named as the program's. Texts are any bytes without a NUL; those of SET_OS_ABI and SET_PAGE_SIZE are
 * UTF-8. */
#define ARWEN_ELF_ADD_DEBUG_TAG 1           /* no text */
#define ARWEN_ELF_ADD_NEEDED 2              /* names */
#define ARWEN_ELF_ADD_RPATH 3               /* directories */
#define ARWEN_ELF_CLEAR_EXEC_STACK 4        /* no text */
#define ARWEN_ELF_CLEAR_SYMBOL_VERSION 5    /* a symbol */
#define ARWEN_ELF_DELETE_SECTIONS 6         /* names */
#define ARWEN_ELF_DELETE_SYMBOLS 7          /* names */
#define ARWEN_ELF_FORCE_RPATH 8             /* no text */
#define ARWEN_ELF_NO_DEFAULT_LIB 9          /* no text */
#define ARWEN_ELF_REMOVE_NEEDED 10          /* names */
#define ARWEN_ELF_REMOVE_RPATH 11           /* no text */
#define ARWEN_ELF_RENAME_DYNAMIC_SYMBOLS 12 /* old, new, old, new .. */
#define ARWEN_ELF_RENAME_SECTIONS 13        /* old, new, .. */
#define ARWEN_ELF_RENAME_SYMBOLS 14         /* old, new, .. */
#define ARWEN_ELF_REPLACE_LIBRARY 15        /* old, new, .. */
#define ARWEN_ELF_REPLACE_NEEDED 16         /* old, new, .. */
#define ARWEN_ELF_SET_EXEC_STACK 17         /* no text */
#define ARWEN_ELF_SET_INTERPRETER 18        /* a path */
#define ARWEN_ELF_SET_OS_ABI 19             /* a name */
#define ARWEN_ELF_SET_PAGE_SIZE 20          /* a decimal number */
#define ARWEN_ELF_SET_RPATH 21              /* a run path */
#define ARWEN_ELF_SET_SONAME 22             /* a name */

/* Edits of Mach-O files. Texts are UTF-8. */
#define ARWEN_MACHO_ADD_RPATH 101           /* a run path */
#define ARWEN_MACHO_CHANGE_INSTALL_ID 102   /* a name */
#define ARWEN_MACHO_CHANGE_INSTALL_NAME 103 /* old, new */
#define ARWEN_MACHO_CHANGE_RPATH 104        /* old, new */
#define ARWEN_MACHO_DELETE_RPATH 105        /* a run path */

/* Flags of a call. */
#define ARWEN_MOVE_DYNAMIC 1 /* leave for the dynamic section of an ELF file to move where it has no room */
#define ARWEN_SIGN 2         /* pages that the edits touch are made to fit again in ad-hoc code signatures of a Mach-O file */

/* ---- answers */

/* What a call answers. Start with ARWEN_ANSWER_INIT, and hand it to arwen_free when done. */
typedef struct {
    arwen_text bytes; /* the edited file; empty where there is none */
    arwen_text text;  /* after ARWEN_OK and ARWEN_UNFIT notes, each a line, or what was asked for; else why, in one line */
    uint32_t cause;   /* 0, or ARWEN_CAUSE_.. */
    size_t edit;      /* the edit that the cause stands against, counted from 0; SIZE_MAX where it is none */
} arwen_answer;

#define ARWEN_ANSWER_INIT { { (const uint8_t *)"", 0 }, { (const uint8_t *)"", 0 }, 0, SIZE_MAX }

/* What calls return. */
#define ARWEN_OK 0
#define ARWEN_REFUSED 1 /* the file or an edit is refused; cause, text and edit say why */
#define ARWEN_WORDS 2   /* the words or the array are no list of edits for this file; cause, text and edit say why */
#define ARWEN_UNFIT 3   /* some pages of a code signature don't fit */
#define ARWEN_MEMORY 4  /* there was no memory; the answer is empty, with no cause */

/* Edits the bytes of a file: an ELF file where it begins as one, else a Mach-O file. All edits are made, or none. The name is
 * what notes call the file; what of it is no UTF-8 is U+FFFD in them. flags: ARWEN_MOVE_DYNAMIC, ARWEN_SIGN, or both; others
 * are passed over. */
uint32_t arwen_apply(const uint8_t *bytes, size_t bytes_len,
                     const arwen_edit *edits, size_t edits_len,
                     const uint8_t *name, size_t name_len,
                     uint32_t flags, arwen_answer *answer);

/* The same by the words that stand behind `arwen elf apply FILE` and `arwen macho apply FILE`: an edit's name and its values,
 * "+", the next edit. The edit that a cause stands against is a group of words between two "+". */
uint32_t arwen_apply_words(const uint8_t *bytes, size_t bytes_len,
                           const arwen_text *words, size_t words_len,
                           const uint8_t *name, size_t name_len,
                           uint32_t flags, arwen_answer *answer);

/* Makes all pages of ad-hoc code signatures of a Mach-O file fit, as `arwen macho sign` does. */
uint32_t arwen_sign(const uint8_t *bytes, size_t bytes_len,
                    const uint8_t *name, size_t name_len, arwen_answer *answer);

/* Tells whether all pages of the code signatures of a Mach-O file fit: ARWEN_OK or ARWEN_UNFIT, and text is what
 * `arwen macho verify` prints. */
uint32_t arwen_verify(const uint8_t *bytes, size_t bytes_len, arwen_answer *answer);

/* Tells what a file is and what it asks of a loader: text is the line that `arwen show --json` prints, with this name. */
uint32_t arwen_show(const uint8_t *bytes, size_t bytes_len,
                    const uint8_t *name, size_t name_len, arwen_answer *answer);

/* ---- causes */

#define ARWEN_CAUSE_FILE 1    /* the file can't be read: of arwen_show_path alone */
#define ARWEN_CAUSE_FORMAT 2  /* neither an ELF file nor a Mach-O file: of arwen_show alone */

/* An ELF file isn't read. */
#define ARWEN_CAUSE_ELF_TRUNCATED 101
#define ARWEN_CAUSE_ELF_UNSUPPORTED 102
#define ARWEN_CAUSE_ELF_DISAGREE 103
#define ARWEN_CAUSE_ELF_BAD_TEXT 104
#define ARWEN_CAUSE_ELF_NUMBER 105
#define ARWEN_CAUSE_ELF_BAD_MAGIC 106

/* The edited one can't be written: a number is past its field. */
#define ARWEN_CAUSE_ELF_WRITE 121

/* An edit of an ELF file is refused. */
#define ARWEN_CAUSE_ELF_NO_DYNAMIC 141
#define ARWEN_CAUSE_ELF_NO_INTERPRETER 142
#define ARWEN_CAUSE_ELF_UNKNOWN_ABI 143
#define ARWEN_CAUSE_ELF_BAD_PAGE_SIZE 144
#define ARWEN_CAUSE_ELF_NO_RPATH 145
#define ARWEN_CAUSE_ELF_OVERLAP 146
#define ARWEN_CAUSE_ELF_NUL_IN_TEXT 147
#define ARWEN_CAUSE_ELF_MIPS 148
#define ARWEN_CAUSE_ELF_SYMBOL_IN_RELOCATION 149
#define ARWEN_CAUSE_ELF_CANNOT_RENUMBER 150
#define ARWEN_CAUSE_ELF_SECTION_IN_USE 151
#define ARWEN_CAUSE_ELF_TOO_MANY_HEADERS 152

/* A Mach-O file isn't read: by ARWEN_CAUSE_MACHO_BAD_MAGIC also what is neither an ELF file nor a Mach-O file. */
#define ARWEN_CAUSE_MACHO_BAD_MAGIC 201
#define ARWEN_CAUSE_MACHO_TRUNCATED 202
#define ARWEN_CAUSE_MACHO_BAD_COMMAND_SIZE 203
#define ARWEN_CAUSE_MACHO_BAD_NAME_OFFSET 204
#define ARWEN_CAUSE_MACHO_COUNTS_DISAGREE 205
#define ARWEN_CAUSE_MACHO_SLICE_OUTSIDE 206
#define ARWEN_CAUSE_MACHO_SLICES_OVERLAP 207
#define ARWEN_CAUSE_MACHO_TOO_LONG 208
#define ARWEN_CAUSE_MACHO_UNIX_ARCHIVE 209

/* An edit of a Mach-O file is refused. */
#define ARWEN_CAUSE_MACHO_BAD_COMMAND 221
#define ARWEN_CAUSE_MACHO_RPATH_MISSING 222
#define ARWEN_CAUSE_MACHO_NAME_MISSING 223
#define ARWEN_CAUSE_MACHO_ID_MISSING 224
#define ARWEN_CAUSE_MACHO_NO_ROOM 225 /* where there is none behind the last edit, edit is the number of edits */

/* A code signature isn't read, or can't be made to fit. */
#define ARWEN_CAUSE_SIGNING_BAD_COMMAND 241
#define ARWEN_CAUSE_SIGNING_SEVERAL_SIGNATURES 242
#define ARWEN_CAUSE_SIGNING_IN_COMMANDS 243
#define ARWEN_CAUSE_SIGNING_CHANGED_SIGNATURE 244
#define ARWEN_CAUSE_SIGNATURE_OUTSIDE 251
#define ARWEN_CAUSE_SIGNATURE_NO_SUPER_BLOB 252
#define ARWEN_CAUSE_SIGNATURE_BAD_LENGTH 253
#define ARWEN_CAUSE_SIGNATURE_BAD_INDEX 254
#define ARWEN_CAUSE_SIGNATURE_BAD_BLOB 255
#define ARWEN_CAUSE_SIGNATURE_BAD_DIRECTORY 256
#define ARWEN_CAUSE_SIGNATURE_UNKNOWN_HASH 257
#define ARWEN_CAUSE_SIGNATURE_BAD_PAGE_SIZE 258
#define ARWEN_CAUSE_SIGNATURE_SCATTERED 259
#define ARWEN_CAUSE_SIGNATURE_BAD_SLOTS 260
#define ARWEN_CAUSE_SIGNATURE_BAD_LIMIT 261
#define ARWEN_CAUSE_SIGNATURE_NO_DIRECTORY 262

/* With ARWEN_WORDS: words are no list of edits. */
#define ARWEN_CAUSE_WORDS_EMPTY 301
#define ARWEN_CAUSE_WORDS_UNKNOWN_EDIT 302
#define ARWEN_CAUSE_WORDS_WRONG_WORDS 303
#define ARWEN_CAUSE_WORDS_KEY_VALUE 304
#define ARWEN_CAUSE_WORDS_NUMBER 305
#define ARWEN_CAUSE_WORDS_NO_TEXT 310

/* With ARWEN_WORDS: an array is none. */
#define ARWEN_CAUSE_EDITS_UNKNOWN_KIND 321
#define ARWEN_CAUSE_EDITS_WRONG_COUNT 322
#define ARWEN_CAUSE_EDITS_NO_TEXT 323
#define ARWEN_CAUSE_EDITS_OTHER_FORMAT 324

/* The words for a cause, of no particular file; empty for a number that is none. They aren't freed. */
void arwen_cause_text(uint32_t cause, arwen_text *text);

/* The version of the library, as ARWEN_VERSION. It isn't freed. */
void arwen_version(arwen_text *text);

/* ---- by the path of a file, and memory: in C, over the calls above */

/* arwen_show of the file at a path, which is its name too. ARWEN_REFUSED with ARWEN_CAUSE_FILE where it is no regular file, or
 * can't be read; text says why. */
uint32_t arwen_show_path(const char *path, arwen_answer *answer);

/* Frees what an answer holds, and makes it empty. */
void arwen_free(arwen_answer *answer);

#ifdef __cplusplus
}
#endif

#endif
