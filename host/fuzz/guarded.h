/* Memory between guard pages: pages that nobody may touch lie on both sides of
 * an area, so that a read or write past the end of a buffer ends the program
 * at once, also in code that no sanitizer has seen. */
#ifndef GUARDED_H
#define GUARDED_H

#include <stddef.h>
#include <stdint.h>

/* An area and the buffer that is lent from it. The rest of the area next to
 * the buffer holds guard bytes. */
typedef struct {
    uint8_t *area;
    size_t room;
    uint8_t *start;
    size_t bytes;
} Guarded;

/* Where in its area a buffer lies. */
typedef enum { AT_END, AT_START } Side;

/* Makes an area with room for so many bytes. */
Guarded guarded_new(size_t room);

/* Lends so many bytes of the area, filled from a seed. They end at the last
 * guard page (AT_END) or begin behind the first (AT_START). */
void guarded_lend(Guarded *guarded, size_t bytes, Side side, uint32_t seed);

/* Whether the lent bytes from `from` on are what guarded_lend put there, and
 * the guard bytes too. */
int guarded_unchanged(const Guarded *guarded, size_t from, uint32_t seed);

#endif
