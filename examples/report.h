/* Reads the words and the checks of blocks, and prints a path of a report as document 01 does. */

#ifndef REPORT_H
#define REPORT_H

#include <inttypes.h>
#include <stdio.h>

#include "mirokefa.h"

/* A word of blocks; byte by byte, so that the host may have any byte order. */
static inline uint64_t word(const uint8_t *blocks, size_t place)
{
    uint64_t value = 0;
    for (size_t byte = 8; byte-- > 0;)
        value = value << 8 | blocks[8 * place + byte];
    return value;
}

/* What the check of a block has to be. */
static inline uint64_t check_of(const uint8_t *block)
{
    uint64_t sum = 1;
    for (size_t place = 0; place < MIROKEFA_BLOCK_CHECK; place++)
        sum = (sum << 1 | sum >> 63) + word(block, place);
    return sum;
}

static inline void print_path(const uint8_t *path)
{
    printf("path %" PRIu64 " end %" PRIu64 " at %" PRIu64 " steps %" PRIu64,
           word(path, MIROKEFA_PATH_NUMBER), word(path, MIROKEFA_PATH_KIND),
           word(path, MIROKEFA_PATH_PC), word(path, MIROKEFA_PATH_STEPS));
    for (size_t input = 0; input < word(path, MIROKEFA_PATH_INPUT_COUNT); input++)
        printf(" in %" PRIu64 "..%" PRIu64,
               word(path, MIROKEFA_PATH_LOWS + input), word(path, MIROKEFA_PATH_HIGHS + input));
    if (word(path, MIROKEFA_PATH_KIND) == MIROKEFA_EXIT)
        printf(" exit %" PRIu64 "..%" PRIu64,
               word(path, MIROKEFA_PATH_EXIT_LOW), word(path, MIROKEFA_PATH_EXIT_HIGH));
    if (word(path, MIROKEFA_PATH_KIND) == MIROKEFA_NOT_FOLLOWED)
        printf(" reason %" PRIu64, word(path, MIROKEFA_PATH_REASON));
    putchar('\n');
}

#endif
