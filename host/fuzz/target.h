#ifndef TARGET_H
#define TARGET_H

#include <stddef.h>
#include <stdint.h>

/* Asks everything of the library for these bytes; ends the program where
 * something does not hold. */
int LLVMFuzzerTestOneInput(const uint8_t *data, size_t size);

/* How many inputs were accepted so far. */
extern unsigned long fuzz_accepted;

#endif
