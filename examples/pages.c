/* Explores document 01's Job A page by page, with pages of one path, and prints each path.
 *
 *     gcc -std=c11 -Iinclude -o pages examples/pages.c target/staticlib/libmirokefa_c.a */

#include "job_a.h"
#include "mirokefa.h"
#include "report.h"

static uint64_t memory[MIROKEFA_MEMORY_WORDS];
static uint64_t table[MIROKEFA_USUAL_TABLE_WORDS];
static uint8_t page[MIROKEFA_PATH_BYTES(JOB_A_INPUTS)];

static struct mirokefa_outcome explore_from(uint64_t first)
{
    return mirokefa_explore(
        JOB_A, JOB_A_WORDS,
        memory, MIROKEFA_MEMORY_WORDS,
        JOB_A_BOX, 2 * JOB_A_INPUTS,
        JOB_A_LIMIT,
        table, MIROKEFA_USUAL_TABLE_WORDS,
        page, sizeof page,
        first);
}

int main(void)
{
    struct mirokefa_outcome outcome;
    uint64_t next = 0;
    do {
        outcome = explore_from(next);
        if (outcome.refused != MIROKEFA_ACCEPTED) {
            printf("turned away %" PRIu64 "\n", outcome.refused);
            return 1;
        }
        if (outcome.count > 0)
            print_path(page);
        next += outcome.count;
    } while (outcome.more);
    return 0;
}
