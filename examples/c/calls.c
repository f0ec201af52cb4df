/* Makes one call of arwen.h, and prints what it answers.
 *
 *     calls apply IN OUT NAME FLAGS [KIND [TEXT]..] [-- KIND [TEXT]..]..   edits of an array, by the numbers of their kinds
 *     calls sign IN OUT NAME
 *     calls verify IN
 *     calls show IN NAME
 *     calls show-path PATH
 *     calls cause NUMBER
 *     calls version
 *
 * Prints what the call returned, the number of the cause and of the edit (- for none), and then the text. New bytes are written to
 * OUT. */
#include <stdio.h>
#include <stdlib.h>
#include <string.h>

#include "arwen.h"

static arwen_text text_of(const char *word)
{
    arwen_text text = { (const uint8_t *)word, strlen(word) };
    return text;
}

static void fail(const char *why)
{
    fprintf(stderr, "calls: %s\n", why);
    exit(9);
}

/* The bytes of a file, in memory of their own. */
static arwen_text bytes_of(const char *path)
{
    FILE *file = fopen(path, "rb");
    arwen_text bytes;
    uint8_t *room;
    long end;
    if (file == NULL || fseek(file, 0, SEEK_END) != 0 || (end = ftell(file)) < 0)
        fail("the file can't be read");
    rewind(file);
    room = malloc((size_t)end + 1);
    if (room == NULL || fread(room, 1, (size_t)end, file) != (size_t)end)
        fail("the file can't be read");
    fclose(file);
    bytes.at = room;
    bytes.len = (size_t)end;
    return bytes;
}

static void put(const char *path, arwen_text bytes)
{
    FILE *file = fopen(path, "wb");
    if (file == NULL || fwrite(bytes.at, 1, bytes.len, file) != bytes.len || fclose(file) != 0)
        fail("the file can't be written");
}

/* Prints an answer, and frees it. */
static int tell(uint32_t status, arwen_answer *answer, const char *out)
{
    if (out != NULL && status == ARWEN_OK)
        put(out, answer->bytes);
    printf("%u %u ", (unsigned)status, (unsigned)answer->cause);
    if (answer->edit == SIZE_MAX)
        printf("-\n");
    else
        printf("%zu\n", answer->edit);
    fwrite(answer->text.at, 1, answer->text.len, stdout);
    arwen_free(answer);
    /* An answer that was freed is empty, and may be freed again. */
    arwen_free(answer);
    return answer->bytes.len != 0 || answer->text.len != 0 || answer->cause != 0 ? 9 : (int)status;
}

/* The edits that words tell: a number and texts, with `--` between two edits. */
static size_t edits_of(char **words, int count, arwen_edit *edits, arwen_text *texts)
{
    size_t made = 0;
    for (int i = 0; i < count; i++) {
        if (i == 0 || strcmp(words[i - 1], "--") == 0) {
            edits[made].kind = (uint32_t)strtoul(words[i], NULL, 10);
            edits[made].texts = texts + i;
            edits[made++].texts_len = 0;
        } else if (strcmp(words[i], "--") != 0) {
            edits[made - 1].texts = texts + i - edits[made - 1].texts_len;
            texts[i] = text_of(words[i]);
            edits[made - 1].texts_len++;
        }
    }
    return made;
}

static int apply(int count, char **words)
{
    arwen_answer answer = ARWEN_ANSWER_INIT;
    arwen_text bytes = bytes_of(words[0]), name = text_of(words[2]);
    arwen_edit *edits = malloc((size_t)count * sizeof *edits);
    arwen_text *texts = malloc((size_t)count * sizeof *texts);
    uint32_t flags = (uint32_t)strtoul(words[3], NULL, 10), status;
    size_t made;
    if (edits == NULL || texts == NULL)
        fail("out of memory");
    made = edits_of(words + 4, count - 4, edits, texts);
    status = arwen_apply(bytes.at, bytes.len, edits, made, name.at, name.len, flags, &answer);
    free(edits);
    free(texts);
    free((void *)bytes.at);
    return tell(status, &answer, words[1]);
}

static int sign(const char *in, const char *out, const char *name)
{
    arwen_answer answer = ARWEN_ANSWER_INIT;
    arwen_text bytes = bytes_of(in), called = text_of(name);
    uint32_t status = arwen_sign(bytes.at, bytes.len, called.at, called.len, &answer);
    free((void *)bytes.at);
    return tell(status, &answer, out);
}

static int verify(const char *in)
{
    arwen_answer answer = ARWEN_ANSWER_INIT;
    arwen_text bytes = bytes_of(in);
    uint32_t status = arwen_verify(bytes.at, bytes.len, &answer);
    free((void *)bytes.at);
    return tell(status, &answer, NULL);
}

static int show(const char *in, const char *name)
{
    arwen_answer answer = ARWEN_ANSWER_INIT;
    arwen_text bytes = bytes_of(in), called = text_of(name);
    uint32_t status = arwen_show(bytes.at, bytes.len, called.at, called.len, &answer);
    free((void *)bytes.at);
    return tell(status, &answer, NULL);
}

static int show_path(const char *path)
{
    arwen_answer answer = ARWEN_ANSWER_INIT;
    return tell(arwen_show_path(path, &answer), &answer, NULL);
}

/* Prints a text that isn't freed. */
static int told(arwen_text text)
{
    printf("%.*s\n", (int)text.len, (const char *)text.at);
    return 0;
}

int main(int argc, char **argv)
{
    const char *call = argc < 2 ? "" : argv[1];
    arwen_text text = text_of("");
    if (argc > 5 && strcmp(call, "apply") == 0)
        return apply(argc - 2, argv + 2);
    if (argc == 5 && strcmp(call, "sign") == 0)
        return sign(argv[2], argv[3], argv[4]);
    if (argc == 3 && strcmp(call, "verify") == 0)
        return verify(argv[2]);
    if (argc == 4 && strcmp(call, "show") == 0)
        return show(argv[2], argv[3]);
    if (argc == 3 && strcmp(call, "show-path") == 0)
        return show_path(argv[2]);
    if (argc == 3 && strcmp(call, "cause") == 0) {
        arwen_cause_text((uint32_t)strtoul(argv[2], NULL, 10), &text);
        return told(text);
    }
    if (argc == 2 && strcmp(call, "version") == 0) {
        arwen_version(&text);
        return told(text);
    }
    fail("no such call, or other words");
    return 9;
}
