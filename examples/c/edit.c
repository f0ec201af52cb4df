/* Edits a file in memory: reads OLD, makes the edits that the words name, writes NEW, and prints the notes.
 *
 *     edit OLD NEW [--move-dynamic] [--sign] WORD..      as: edit greet greet.new set-rpath '$ORIGIN'
 *
 * With --move-dynamic the dynamic section of an ELF file moves where it has no room. With --sign pages that the edits touch are
 * made to fit again in ad-hoc code signatures of a Mach-O file. */
#include <stdio.h>
#include <stdlib.h>
#include <string.h>

#include "arwen.h"

/* The bytes of a file; NULL where it can't be read. */
static uint8_t *read_file(const char *path, size_t *len)
{
    FILE *file = fopen(path, "rb");
    uint8_t *bytes = NULL;
    if (file != NULL && fseek(file, 0, SEEK_END) == 0) {
        long end = ftell(file);
        bytes = malloc((size_t)end + 1);
        rewind(file);
        *len = bytes == NULL ? 0 : fread(bytes, 1, (size_t)end, file);
    }
    if (file != NULL)
        fclose(file);
    return bytes;
}

static int write_file(const char *path, arwen_text bytes)
{
    FILE *file = fopen(path, "wb");
    return file != NULL && fwrite(bytes.at, 1, bytes.len, file) == bytes.len && fclose(file) == 0;
}

/* The flag of an option; 0 of a word that is none. */
static uint32_t flag_of(const char *word)
{
    if (strcmp(word, "--move-dynamic") == 0)
        return ARWEN_MOVE_DYNAMIC;
    return strcmp(word, "--sign") == 0 ? ARWEN_SIGN : 0;
}

int main(int argc, char **argv)
{
    uint32_t flags = 0, status;
    int first = 3, failed = 1;
    while (first < argc && flag_of(argv[first]) != 0)
        flags |= flag_of(argv[first++]);
    if (argc <= first) {
        fprintf(stderr, "usage: edit OLD NEW [--move-dynamic] [--sign] WORD..\n");
        return 2;
    }
    size_t len = 0, count = (size_t)(argc - first);
    uint8_t *old = read_file(argv[1], &len);
    arwen_text *words = malloc(count * sizeof *words);
    if (old == NULL || words == NULL) {
        fprintf(stderr, "edit: %s can't be read\n", argv[1]);
        return 1;
    }
    for (size_t i = 0; i < count; i++) {
        words[i].at = (const uint8_t *)argv[first + (int)i];
        words[i].len = strlen(argv[first + (int)i]);
    }
    arwen_answer answer = ARWEN_ANSWER_INIT;
    const uint8_t *name = (const uint8_t *)argv[1];
    status = arwen_apply_words(old, len, words, count, name, strlen(argv[1]), flags, &answer);
    if (status != ARWEN_OK)
        fprintf(stderr, "edit: %s: %.*s\n", argv[1], (int)answer.text.len, (const char *)answer.text.at);
    else if (!write_file(argv[2], answer.bytes))
        fprintf(stderr, "edit: %s can't be written\n", argv[2]);
    else
        failed = fprintf(stderr, "%.*s", (int)answer.text.len, (const char *)answer.text.at) < 0;
    arwen_free(&answer);
    free(words);
    free(old);
    return failed;
}
