/* Picking versions by Nivolakku's search, whose picks are proved to be solutions. docs/C.md explains it.
 *
 * Link libpicking_c.a, and behind it the Rattle kit's c/liblibc_c.a, which calls malloc, realloc and free. */
#ifndef NIVOLAKKU_PICKING_H
#define NIVOLAKKU_PICKING_H

#include <stddef.h>
#include <stdint.h>

#ifdef __cplusplus
extern "C" {
#endif

/* What became of an index: what nivolakku_pick returns. */
enum {
    /* Versions are picked, and are a solution: the answer is the line "request:" and a line for each
     * version, and maybe one that says by how many wishes for newest versions no solution is shown to be better. */
    NIVOLAKKU_PICKED = 0,
    /* There is no solution: the answer says so, below the line "request:". */
    NIVOLAKKU_NO_SOLUTION = 1,
    /* The search gave up: the answer says why, or is empty where memory was refused even for it. */
    NIVOLAKKU_GAVE_UP = 2,
    /* A line isn't in the format, or the text has no index, or several: the answer is "line NUMBER unreadable". */
    NIVOLAKKU_UNREADABLE = 3,
    /* The answer takes more room than there is; nothing is written. */
    NIVOLAKKU_TOO_SMALL = 4
};

/* Where an answer names a version: at which bytes the package's name and the version begin, and how many bytes each
 * of them has. */
struct nivolakku_version {
    size_t name;
    size_t name_length;
    size_t version;
    size_t version_length;
};

/* Answers the index of a text, in at most `steps` steps.
 *
 *   index, length    the text: any bytes
 *   steps            how far the search may go; a million is plenty
 *   answer, room     where the answer is written, without a zero byte at its end. It is written whole or not at all,
 *                    and the bytes behind it stay as they were. If the room is 0, answer may be null
 *   needed           gets the answer's length, also where the room is too small; 0 where not even the answer got memory
 *
 * No other pointer may be null, not even where its length is 0. The text, the answer's room and needed may not overlap,
 * and no length may be above PTRDIFF_MAX. Calls may run beside one another, and keep nothing; none may be made from a
 * signal handler, or in the forked child of a process with threads. */
uint32_t nivolakku_pick(const uint8_t *index, size_t length, uint64_t steps,
                        uint8_t *answer, size_t room, size_t *needed);

/* How many versions an answer of nivolakku_pick names: none unless its status is NIVOLAKKU_PICKED. They are put into
 * `versions` in their order, as many as it has room for, and no other place of it changes. If the room is 0, versions
 * may be null. It takes no memory; what else is said of pointers and lengths above holds here. */
size_t nivolakku_versions(const uint8_t *answer, size_t length,
                          struct nivolakku_version *versions, size_t room);

#ifdef __cplusplus
}
#endif

#endif
