/* Calls the libraries ten thousand times: calls INDEX SCRIPT
 *
 * Each buffer has just the size that a first call without one told. The versions of an answer are its lines, no place
 * behind the last one is written, and a call leaves no block of memory behind: for that the program is linked with
 * --wrap for malloc, realloc and free. The status is 0 if all is so. */
#include "picking.h"
#include "script.h"

#include <stdio.h>
#include <stdlib.h>
#include <string.h>

enum { CALLS = 10000, STEPS = 1 << 20, MOST = 1 << 20 };

/* How many blocks of memory there are. */
static long blocks;

void *__real_malloc(size_t size);
void *__real_realloc(void *block, size_t size);
void __real_free(void *block);

void *__wrap_malloc(size_t size)
{
    void *block = __real_malloc(size);
    blocks += block != NULL;
    return block;
}

void *__wrap_realloc(void *block, size_t size)
{
    void *new = __real_realloc(block, size);
    blocks += block == NULL && new != NULL;
    return new;
}

void __wrap_free(void *block)
{
    blocks -= block != NULL;
    __real_free(block);
}

/* Ends the program because something isn't as it should be. */
static void check(int is_right, const char *what)
{
    if (!is_right) {
        printf("wrong: %s\n", what);
        exit(1);
    }
}

/* A block of just this size. */
static void *room(size_t size)
{
    void *block = malloc(size);
    check(block != NULL || size == 0, "no memory");
    return block;
}

/* The first megabyte of a file, in a block of its size. */
static uint8_t *contents(const char *name, size_t *length)
{
    static uint8_t text[MOST];
    FILE *file = fopen(name, "rb");
    if (file == NULL) {
        perror(name);
        exit(4);
    }
    *length = fread(text, 1, MOST, file);
    fclose(file);
    return memcpy(room(*length + 1), text, *length);
}

/* The versions of an answer are the lines below the first one. */
static void compare(const uint8_t *answer, size_t size, const struct nivolakku_version *versions, size_t count)
{
    const uint8_t *feed = memchr(answer, '\n', size);
    size_t at = count > 0 && feed != NULL ? (size_t)(feed - answer) + 1 : 0;
    for (size_t i = 0; i < count; i++) {
        const struct nivolakku_version *v = &versions[i];
        check(v->name == at && v->version == at + v->name_length + 1, "a version's place");
        check(v->version + v->version_length < size, "a version's end");
        check(answer[v->version - 1] == ' ' && answer[v->version + v->version_length] == '\n', "a version's line");
        at = v->version + v->version_length + 1;
    }
}

/* Takes an answer apart. */
static void take_apart(const uint8_t *answer, size_t size, uint32_t status)
{
    size_t count = nivolakku_versions(answer, size, NULL, 0);
    check(status == NIVOLAKKU_PICKED || count == 0, "versions of what isn't picked");
    struct nivolakku_version *versions = room(count * sizeof *versions);
    if (count > 0) {
        check(nivolakku_versions(answer, size, versions, count) == count, "how many versions");
        compare(answer, size, versions, count);
        struct nivolakku_version first = versions[0];
        memset(versions, 0xA5, count * sizeof *versions);
        check(nivolakku_versions(answer, size, versions, 1) == count, "how many versions, with too little room");
        check(memcmp(&first, versions, sizeof first) == 0, "the first version");
        const uint8_t *behind = (const uint8_t *)(versions + 1);
        for (size_t i = 0; i < (count - 1) * sizeof *versions; i++) {
            check(behind[i] == 0xA5, "a place behind the room");
        }
    }
    free(versions);
}

/* Answers an index. */
static void pick(const uint8_t *index, size_t length)
{
    size_t size, needed;
    check(nivolakku_pick(index, length, STEPS, NULL, 0, &size) == NIVOLAKKU_TOO_SMALL, "a pick without room");
    uint8_t *answer = room(size);
    uint32_t status = nivolakku_pick(index, length, STEPS, answer, size, &needed);
    check(status < NIVOLAKKU_TOO_SMALL && needed == size, "a pick with room");
    take_apart(answer, size, status);
    free(answer);
}

/* Obeys a script. */
static void obey(const uint8_t *script, size_t length)
{
    size_t size, needed;
    check(nivolakku_script(script, length, NULL, 0, &size) == NIVOLAKKU_SCRIPT_TOO_SMALL, "a script without room");
    uint8_t *transcript = room(size);
    uint32_t status = nivolakku_script(script, length, transcript, size, &needed);
    check(status < NIVOLAKKU_SCRIPT_CUT && needed == size, "a script with room");
    free(transcript);
}

int main(int count, char **words)
{
    if (count != 3) {
        fputs("calls INDEX SCRIPT\n", stderr);
        return 4;
    }
    size_t index_length, script_length;
    uint8_t *index = contents(words[1], &index_length);
    uint8_t *script = contents(words[2], &script_length);
    long before = blocks;
    for (int i = 0; i < CALLS; i++) {
        pick(index, index_length);
        obey(script, script_length);
        check(blocks == before, "a call left memory behind");
    }
    free(index);
    free(script);
    printf("%d calls: as picking.h and script.h say\n", CALLS);
    return 0;
}
