/* What the callers that lend a report share: sizes, a requirement, reports to lend, and what is wrong with a report. A caller defines
 * CALLER, its name in messages, before it includes this. */

#ifndef LENDING_H
#define LENDING_H

#include <stdbool.h>
#include <stdio.h>
#include <stdlib.h>
#include <string.h>

#include "../examples/job_a.h"
#include "mirokefa.h"

enum {
    PATH_BYTES = MIROKEFA_PATH_BYTES(MIROKEFA_MOST_INPUTS),
    BLOCK_BYTES = MIROKEFA_BLOCK_BYTES,
    MARGIN = 8,
    FILL = 0xA5
};

static const uint64_t TWO_INPUTS[4] = {0, 255, 3, 7};

static void require(bool holds, const char *what)
{
    if (!holds) {
        fprintf(stderr, CALLER ": %s\n", what);
        exit(1);
    }
}

/* Writes the paths of Job A's code, or of another as long, on a box; it reads the first input alone. */
static void explore_code(const uint32_t *code, const uint64_t *box, size_t inputs, uint64_t limit, uint8_t *report, uint64_t paths)
{
    static uint64_t memory[MIROKEFA_MEMORY_WORDS];
    static uint64_t table[MIROKEFA_USUAL_TABLE_WORDS];
    struct mirokefa_outcome outcome = mirokefa_explore(
        code, JOB_A_WORDS, memory, MIROKEFA_MEMORY_WORDS, box, 2 * inputs, limit,
        table, MIROKEFA_USUAL_TABLE_WORDS, report, paths * PATH_BYTES, 0);
    require(outcome.refused == MIROKEFA_ACCEPTED && outcome.count == paths && outcome.more == 0, "the code has other paths");
}

/* The caller's own: it lends so many bytes of its report, all else rightly, and requires that this is refused with 12. */
static void refuses_report(uint64_t inputs, size_t report_bytes, const char *what);

static void flip_bit(uint8_t *report, size_t bit)
{
    report[bit / 8] ^= (uint8_t)(1u << bit % 8);
}

static void every_flipped_bit(uint8_t *report)
{
    for (size_t bit = 0; bit < 8 * 2 * PATH_BYTES; bit++) {
        flip_bit(report, bit);
        refuses_report(JOB_A_INPUTS, 2 * PATH_BYTES, "a flipped bit is not refused with 12");
        flip_bit(report, bit);
    }
}

static void every_part_of_a_path(void)
{
    for (size_t length = 0; length < 2 * PATH_BYTES; length++) {
        if (length % PATH_BYTES != 0)
            refuses_report(JOB_A_INPUTS, length, "a part of a path is not refused with 12");
    }
}

/* Counts that no report has are wrong without a path too. */
static void wrong_counts(void)
{
    static const uint64_t counts[5] = {0, MIROKEFA_MOST_INPUTS + 1, (UINT64_C(1) << 32) + 1, UINT64_C(1) << 63, UINT64_MAX};
    refuses_report(JOB_A_INPUTS + 1, 2 * PATH_BYTES, "another input count is not refused with 12");
    for (size_t k = 0; k < 5; k++) {
        refuses_report(counts[k], 2 * PATH_BYTES, "a wrong input count is not refused with 12");
        refuses_report(counts[k], 0, "a wrong input count is not refused with 12 where no path is lent");
    }
}

/* Writes Job A's report where the caller lends it from, and has it lent wrongly. */
static void refuse_reports(uint8_t *report)
{
    explore_code(JOB_A, JOB_A_BOX, JOB_A_INPUTS, JOB_A_LIMIT, report, 2);
    every_flipped_bit(report);
    every_part_of_a_path();
    wrong_counts();
}

/* The noes of a report of two inputs and two paths; those that a caller adds come behind them. */
enum { COUNT, LENGTH, OTHER_COUNT, FIRST_CHECK, LAST_CHECK, REPORT_NOES };

static void spoil_report(unsigned noes, uint8_t *report, uint64_t *inputs, size_t *report_bytes)
{
    if (noes >> COUNT & 1)
        *inputs = MIROKEFA_MOST_INPUTS + 1;
    if (noes >> LENGTH & 1)
        --*report_bytes;
    /* the last path becomes one with another count and its right check; within 5 steps the code has one path alone */
    if (noes >> OTHER_COUNT & 1)
        explore_code(JOB_A, JOB_A_BOX, JOB_A_INPUTS, 5, report + PATH_BYTES, 1);
    if (noes >> FIRST_CHECK & 1)
        report[BLOCK_BYTES - 1] ^= 1;
    if (noes >> LAST_CHECK & 1)
        report[2 * PATH_BYTES - 1] ^= 1;
}

/* The number of the first no: of the report, or else of what the caller adds. */
static uint64_t number_of(unsigned noes, uint64_t added)
{
    return noes % (1u << REPORT_NOES) == 0 ? added : MIROKEFA_REFUSED_RECORDS;
}

#endif
