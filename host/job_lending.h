/* What the callers that lend a job share: the questions on it, and a job lent wrongly. A caller defines CALLER, its name in messages, before it
 * includes this. */

#ifndef JOB_LENDING_H
#define JOB_LENDING_H

#include "job_blocks.h"

/* Jobs that are too long fit too. */
enum { ROOM = 2 * MOST_BYTES, NOISE_ROUNDS = 400 };

/* The questions on a job in document 01's order; those that a caller adds come behind them. */
enum { BLOCKS, CHECK, CODE, INPUTS, ORDER, LIMIT, MEMORY, FIRST, FORM, JOB_QUESTIONS };

/* The number of a no; for a question on the header also a place, and two words for it that bring the no. */
struct question {
    uint64_t number;
    size_t place;
    uint64_t words[2];
};

/* The first interval of a job that is lent wrongly ends at 255 at most. */
static const struct question questions[JOB_QUESTIONS] = {
    [BLOCKS] = {MIROKEFA_REFUSED_BLOCKS, 0, {0}},
    [CHECK] = {MIROKEFA_REFUSED_CHECK, 0, {0}},
    [CODE] = {MIROKEFA_REFUSED_CODE, CODE_COUNT, {0, MIROKEFA_MOST_CODE_WORDS + 1}},
    [INPUTS] = {MIROKEFA_REFUSED_INPUTS, INPUT_COUNT, {MIROKEFA_MOST_INPUTS + 1, UINT64_MAX}},
    [ORDER] = {MIROKEFA_REFUSED_ORDER, FIRST_LOW, {256, UINT64_MAX}},
    [LIMIT] = {MIROKEFA_REFUSED_LIMIT, STEP_LIMIT, {0, MIROKEFA_MOST_STEPS + 1}},
    [MEMORY] = {MIROKEFA_REFUSED_MEMORY, MEMORY_GIVEN, {MIROKEFA_MEMORY_WORDS + 1, UINT64_MAX}},
    [FIRST] = {MIROKEFA_REFUSED_FIRST, FIRST_PATH, {MIROKEFA_PATH_NUMBERS, UINT64_MAX}},
    [FORM] = {MIROKEFA_REFUSED_FORM, MARK, {0, 2}},
};

/* The job that is lent wrongly, and what it is changed to. */
static uint8_t job[ROOM];
static uint8_t changed[ROOM];

/* The caller's own: it lends so many bytes, all else rightly, and requires that they are refused with a number. */
static void refuses_job(const uint8_t *bytes, size_t length, uint64_t number, const char *what, size_t at);

/* Changes the job to a set of noes; bit k is the no of question k, which has two causes. Returns its length. */
static size_t spoil_job(unsigned noes, unsigned cause, size_t length)
{
    memcpy(changed, job, ROOM);
    for (size_t k = CODE; k <= FORM; k++)
        if (noes >> k & 1)
            put_word(changed, questions[k].place, questions[k].words[cause]);
    put_check(changed);
    if (noes >> CHECK & 1)
        changed[(cause + 1) * BLOCK_BYTES - 1] ^= 1;
    if (noes >> BLOCKS & 1)
        return cause == 0 ? length - 1 : MOST_BYTES + BLOCK_BYTES;
    return length;
}

/* The number of the first no; the caller has the numbers of the questions that it adds. */
static uint64_t number_of(unsigned noes, const uint64_t *added)
{
    size_t first = 0;
    while (!(noes >> first & 1))
        first++;
    return first < JOB_QUESTIONS ? questions[first].number : added[first - JOB_QUESTIONS];
}

/* A flipped bit changes one word of a block, and so its check. */
static void every_flipped_bit(size_t length)
{
    for (size_t bit = 0; bit < 8 * length; bit++) {
        job[bit / 8] ^= (uint8_t)(1u << bit % 8);
        refuses_job(job, length, MIROKEFA_REFUSED_CHECK, "a flipped bit is not 10", bit);
        job[bit / 8] ^= (uint8_t)(1u << bit % 8);
    }
}

static bool whole_blocks(size_t length)
{
    return length > 0 && length % BLOCK_BYTES == 0 && length <= MOST_BYTES;
}

/* Whole blocks that are too few miss the code that the header needs. */
static void every_truncation(size_t length)
{
    for (size_t n = 0; n < length; n++) {
        uint64_t number = whole_blocks(n) ? MIROKEFA_REFUSED_FORM : MIROKEFA_REFUSED_BLOCKS;
        refuses_job(job, n, number, "a truncation has another number", n);
    }
}

static void noise(void)
{
    uint64_t state = 1;
    for (size_t round = 0; round < NOISE_ROUNDS; round++) {
        for (size_t k = 0; k < ROOM; k++) {
            state = state * 6364136223846793005u + 1442695040888963407u;
            changed[k] = (uint8_t)(state >> 56);
        }
        size_t length = state % (ROOM + 1);
        if (round % 2)
            length -= length % BLOCK_BYTES;
        uint64_t number = whole_blocks(length) ? MIROKEFA_REFUSED_CHECK : MIROKEFA_REFUSED_BLOCKS;
        refuses_job(changed, length, number, "noise has another number", length);
    }
}

/* The job in each bit and to each length, and noise. */
static void refuse_damaged(size_t length)
{
    every_flipped_bit(length);
    every_truncation(length);
    noise();
}

#endif
