/* Picks versions from an index: pick FILE [STEPS [ROOM]]
 *
 * The answer is printed, and the exit status is what became of the index, or 4 if the file can't be read, a word is no
 * number, or the answer can't be printed. If a first buffer of ROOM bytes is too small, a second one has the size that
 * the answer needs. */
#include "picking.h"

#include <errno.h>
#include <stdio.h>
#include <stdlib.h>
#include <string.h>

enum { FAILED = 4 };

/* Ends the program because something failed, for the reason in `errno`. */
static void fail(const char *what)
{
    fprintf(stderr, "%s: %s\n", what, strerror(errno));
    exit(FAILED);
}

/* The number that a word is; the program ends if it is none, or too large. */
static uint64_t number(const char *word)
{
    char *end;
    errno = 0;
    unsigned long long value = strtoull(word, &end, 10);
    if (*word < '0' || *word > '9' || *end != '\0' || errno != 0) {
        fprintf(stderr, "%s is no number below 2^64\n", word);
        exit(FAILED);
    }
    return value;
}

/* A buffer, which the caller frees; the program ends if there is no memory. */
static uint8_t *buffer(uint8_t *old, size_t size)
{
    uint8_t *new = realloc(old, size > 0 ? size : 1);
    if (new == NULL) {
        fputs("no memory\n", stderr);
        exit(FAILED);
    }
    return new;
}

/* All bytes of a file. */
static uint8_t *contents(const char *name, size_t *length)
{
    size_t room = 4096;
    uint8_t *text = buffer(NULL, room);
    FILE *file = fopen(name, "rb");
    if (file == NULL) {
        fail("the index");
    }
    *length = 0;
    for (size_t got; (got = fread(text + *length, 1, room - *length, file)) > 0;) {
        *length += got;
        if (*length == room) {
            room *= 2;
            text = buffer(text, room);
        }
    }
    if (ferror(file)) {
        fail("the index");
    }
    fclose(file);
    return text;
}

int main(int count, char **words)
{
    if (count < 2) {
        fputs("pick FILE [STEPS [ROOM]]\n", stderr);
        return FAILED;
    }
    uint64_t steps = count > 2 ? number(words[2]) : 1 << 20;
    size_t room = count > 3 ? number(words[3]) : 256;
    size_t length, needed;
    uint8_t *index = contents(words[1], &length);
    uint8_t *answer = buffer(NULL, room);

    uint32_t status = nivolakku_pick(index, length, steps, answer, room, &needed);
    if (status == NIVOLAKKU_TOO_SMALL) {
        fprintf(stderr, "%zu bytes are needed\n", needed);
        room = needed;
        answer = buffer(answer, room);
        status = nivolakku_pick(index, length, steps, answer, room, &needed);
    }
    if (fwrite(answer, 1, needed, stdout) < needed || fflush(stdout) != 0) {
        fail("standard output");
    }
    free(answer);
    free(index);
    return (int)status;
}
