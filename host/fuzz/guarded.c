#define _DEFAULT_SOURCE
#include "guarded.h"

#include <stdio.h>
#include <stdlib.h>
#include <sys/mman.h>
#include <unistd.h>

/* The guard bytes next to a buffer, on the side without a guard page. */
enum { GUARD_BYTES = 128 };

static const uint32_t GUARD_SEED = 0x5eed;

Guarded guarded_new(size_t room) {
    size_t page = (size_t)sysconf(_SC_PAGESIZE);
    size_t whole = (room + GUARD_BYTES + page - 1) / page * page;
    uint8_t *pages = mmap(NULL, whole + 2 * page, PROT_READ | PROT_WRITE,
                          MAP_PRIVATE | MAP_ANONYMOUS, -1, 0);
    if (pages == MAP_FAILED || mprotect(pages, page, PROT_NONE) != 0 ||
        mprotect(pages + page + whole, page, PROT_NONE) != 0) {
        perror("fuzz: no memory between guard pages");
        exit(2);
    }
    Guarded guarded = {pages + page, whole, pages + page, 0};
    return guarded;
}

static uint8_t *guard_of(const Guarded *guarded) {
    int at_start = guarded->start == guarded->area;
    return at_start ? guarded->start + guarded->bytes : guarded->start - GUARD_BYTES;
}

/* The byte at an index of what is filled from a seed. */
static uint8_t filling(size_t index, uint32_t seed) {
    uint32_t mixed = ((uint32_t)index + seed) * 0x9e3779b1u;
    return (uint8_t)(mixed >> 21);
}

void guarded_lend(Guarded *guarded, size_t bytes, Side side, uint32_t seed) {
    if (bytes + GUARD_BYTES > guarded->room) {
        fprintf(stderr, "fuzz: %zu bytes do not fit their area\n", bytes);
        exit(2);
    }
    guarded->start = side == AT_START ? guarded->area : guarded->area + guarded->room - bytes;
    guarded->bytes = bytes;
    for (size_t index = 0; index < bytes; index++) {
        guarded->start[index] = filling(index, seed);
    }
    uint8_t *guard = guard_of(guarded);
    for (size_t index = 0; index < GUARD_BYTES; index++) {
        guard[index] = filling(index, GUARD_SEED);
    }
}

int guarded_unchanged(const Guarded *guarded, size_t from, uint32_t seed) {
    for (size_t index = from; index < guarded->bytes; index++) {
        if (guarded->start[index] != filling(index, seed)) {
            return 0;
        }
    }
    const uint8_t *guard = guard_of(guarded);
    for (size_t index = 0; index < GUARD_BYTES; index++) {
        if (guard[index] != filling(index, GUARD_SEED)) {
            return 0;
        }
    }
    return 1;
}
