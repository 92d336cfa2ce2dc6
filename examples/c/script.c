/* Obeys a script: script FILE
 *
 * The transcript is printed, and the exit status is that of clause_store, or 4 if the file can't be read, or the
 * transcript can't be printed. The first megabyte of the file is the script. */
#include "script.h"

#include <stdio.h>
#include <stdlib.h>

enum { FAILED = 4, MOST = 1 << 20 };

/* Ends the program because something failed. */
static int fail(const char *what)
{
    perror(what);
    return FAILED;
}

int main(int count, char **words)
{
    static uint8_t script[MOST];
    if (count != 2) {
        fputs("script FILE\n", stderr);
        return FAILED;
    }
    FILE *file = fopen(words[1], "rb");
    if (file == NULL) {
        return fail(words[1]);
    }
    size_t length = fread(script, 1, MOST, file), needed;
    fclose(file);

    uint32_t status = nivolakku_script(script, length, NULL, 0, &needed);
    uint8_t *transcript = malloc(needed + 1);
    if (transcript == NULL) {
        return fail("the transcript");
    }
    status = nivolakku_script(script, length, transcript, needed, &needed);
    if (fwrite(transcript, 1, needed, stdout) < needed || fflush(stdout) != 0) {
        return fail("standard output");
    }
    free(transcript);
    return (int)status;
}
