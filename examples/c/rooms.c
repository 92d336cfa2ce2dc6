/* Tries buffers of each size for an answer: rooms < FILE
 *
 * An answer that fits is written whole, one that doesn't fit not at all, and no byte beside it changes. The first
 * megabyte of the input is the index. */
#include "picking.h"

#include <stdio.h>
#include <string.h>

enum { MOST = 1 << 20, MARK = 0xA5 };

static uint8_t text[MOST], whole[MOST], answer[MOST];

/* Whether these bytes all have the mark. */
static int is_marked(const uint8_t *from, const uint8_t *to)
{
    while (from < to && *from == MARK) {
        from++;
    }
    return from == to;
}

int main(void)
{
    size_t length = fread(text, 1, MOST, stdin), size, needed;
    uint32_t wanted = nivolakku_pick(text, length, 1 << 20, whole, MOST, &size);
    for (size_t room = 0; room < size + 16; room++) {
        memset(answer, MARK, MOST);
        uint32_t status = nivolakku_pick(text, length, 1 << 20, answer, room, &needed);
        int fits = room >= size;
        size_t written = fits ? size : 0;
        if (needed != size || status != (fits ? wanted : NIVOLAKKU_TOO_SMALL)
            || memcmp(answer, whole, written) != 0 || !is_marked(answer + written, answer + MOST)) {
            printf("a buffer of %zu bytes: wrong\n", room);
            return 1;
        }
    }
    printf("%zu buffers: as picking.h says\n", size + 16);
    return 0;
}
