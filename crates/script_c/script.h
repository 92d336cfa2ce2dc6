/* Scripts of Nivolakku's clause store, whose replies are proved. docs/C.md explains it.
 *
 * Link libscript_c.a, and behind it the Rattle kit's c/liblibc_c.a, which calls malloc, realloc and free. */
#ifndef NIVOLAKKU_SCRIPT_H
#define NIVOLAKKU_SCRIPT_H

#include <stddef.h>
#include <stdint.h>

#ifdef __cplusplus
extern "C" {
#endif

/* How a script ended: what nivolakku_script returns. */
enum {
    /* All lines were read. */
    NIVOLAKKU_SCRIPT_READ = 0,
    /* A line isn't in the format: the transcript's last line is "line NUMBER unreadable". */
    NIVOLAKKU_SCRIPT_UNREADABLE = 1,
    /* Memory was refused for the transcript. It is a beginning. */
    NIVOLAKKU_SCRIPT_CUT = 2,
    /* Memory was refused outside a command. The transcript answers the lines before. */
    NIVOLAKKU_SCRIPT_NO_MEMORY = 3,
    /* The transcript takes more room than there is; nothing is written. */
    NIVOLAKKU_SCRIPT_TOO_SMALL = 4
};

/* Obeys the commands of a whole script, over a store of its own, and answers each by a line, as the program
 * clause_store does.
 *
 *   script, length       the text: any bytes
 *   transcript, room     where the answers are written, without a zero byte at their end. They are written whole or not
 *                        at all, and the bytes behind them stay as they were. If the room is 0, transcript may be null
 *   needed               gets the transcript's length, also where the room is too small
 *
 * No other pointer may be null, not even where its length is 0. The script, the transcript's room and needed may not
 * overlap, and no length may be above PTRDIFF_MAX. Calls may run beside one another, and keep nothing; none may be made
 * from a signal handler, or in the forked child of a process with threads. */
uint32_t nivolakku_script(const uint8_t *script, size_t length,
                          uint8_t *transcript, size_t room, size_t *needed);

#ifdef __cplusplus
}
#endif

#endif
