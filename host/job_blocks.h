/* What the callers that make a job's blocks share: sizes, a requirement, and words put in their places. A caller defines CALLER, its name in
 * messages, before it includes this. */

#ifndef JOB_BLOCKS_H
#define JOB_BLOCKS_H

#include <stdbool.h>
#include <stdlib.h>
#include <string.h>

#include "../examples/report.h"
#include "mirokefa.h"

enum { BLOCK_BYTES = MIROKEFA_BLOCK_BYTES, MOST_BYTES = MIROKEFA_MOST_JOB_BYTES };

/* Document 01's places of the words in a job's header. */
enum { MARK = 0, CODE_COUNT = 1, INPUT_COUNT = 2, STEP_LIMIT = 3, FIRST_PATH = 4, FIRST_LOW = 5, FIRST_HIGH = 13, MEMORY_GIVEN = 21 };

static void require(bool holds, const char *what, size_t at)
{
    if (!holds) {
        fprintf(stderr, CALLER ": %s, at %zu\n", what, at);
        exit(1);
    }
}

static void put_word(uint8_t *blocks, size_t place, uint64_t value)
{
    for (size_t byte = 0; byte < 8; byte++)
        blocks[8 * place + byte] = (uint8_t)(value >> 8 * byte);
}

static void put_check(uint8_t *block)
{
    put_word(block, MIROKEFA_BLOCK_CHECK, check_of(block));
}

#endif
