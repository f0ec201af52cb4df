/* What of arwen.h takes a path or frees memory: in C, over the calls of the library. */
#include <errno.h>
#include <stdio.h>
#include <stdlib.h>
#include <string.h>
#include <sys/stat.h>

#include "arwen.h"

static const arwen_answer empty = ARWEN_ANSWER_INIT;

static uint32_t no_memory(arwen_answer *answer)
{
    *answer = empty;
    return ARWEN_MEMORY;
}

/* That a file can't be read, and why. */
static uint32_t unread(const char *why, arwen_answer *answer)
{
    static const char start[] = "the file can't be read: ";
    size_t len = sizeof start - 1 + strlen(why);
    char *text = malloc(len + 1);
    if (text == NULL)
        return no_memory(answer);
    memcpy(text, start, sizeof start - 1);
    memcpy(text + sizeof start - 1, why, strlen(why) + 1);
    *answer = empty;
    answer->text.at = (const uint8_t *)text;
    answer->text.len = len;
    answer->cause = ARWEN_CAUSE_FILE;
    return ARWEN_REFUSED;
}

/* Why the file at a path isn't read; NULL of a regular file. Its length. No other kind is opened, as that may wait forever. */
static const char *refused(const char *path, size_t *len)
{
    struct stat found;
    if (stat(path, &found) != 0)
        return strerror(errno);
    if (S_ISDIR(found.st_mode))
        return strerror(EISDIR);
    if (!S_ISREG(found.st_mode))
        return "it is no regular file";
    *len = (size_t)found.st_size;
    return NULL;
}

/* What arwen_show tells of the first len bytes of a file; fewer, where it has become shorter. */
static uint32_t show_file(FILE *file, size_t len, const char *path, arwen_answer *answer)
{
    uint8_t *bytes = malloc(len + 1);
    uint32_t status;
    if (bytes == NULL)
        return no_memory(answer);
    errno = 0;
    len = fread(bytes, 1, len, file);
    status = ferror(file) ? unread(strerror(errno), answer)
                          : arwen_show(bytes, len, (const uint8_t *)path, strlen(path), answer);
    free(bytes);
    return status;
}

uint32_t arwen_show_path(const char *path, arwen_answer *answer)
{
    size_t len = 0;
    const char *why = refused(path, &len);
    FILE *file = why == NULL ? fopen(path, "rb") : NULL;
    uint32_t status;
    if (file == NULL)
        return unread(why == NULL ? strerror(errno) : why, answer);
    status = show_file(file, len, path, answer);
    fclose(file);
    return status;
}

void arwen_free(arwen_answer *answer)
{
    if (answer->bytes.len != 0)
        free((void *)answer->bytes.at);
    if (answer->text.len != 0)
        free((void *)answer->text.at);
    *answer = empty;
}
