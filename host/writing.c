/* Jobs written through the library's border, as the rule editor does it: Job A, jobs with words in every place, and the largest job, to
 * spaces of every length, and with every refusal. Prints nothing; every byte lent, and between what is lent, is compared. */

#define CALLER "writing"
#include "../examples/job_a.h"
#include "job_blocks.h"

enum {
    MOST_CODE_WORDS = MIROKEFA_MOST_CODE_WORDS,
    MOST_INPUTS = MIROKEFA_MOST_INPUTS,
    MEMORY_WORDS = MIROKEFA_MEMORY_WORDS,
    PAYLOAD_WORDS = MIROKEFA_BLOCK_CHECK,
    MARGIN = 8,
    FILL = 0xA5
};

/* All that calls lend, each part behind a margin; there is room for lists that are too long. */
struct room {
    uint32_t code[MARGIN + MOST_CODE_WORDS + 1 + MARGIN];
    uint64_t memory[MARGIN + MEMORY_WORDS + 1 + MARGIN];
    uint64_t intervals[MARGIN + 2 * MOST_INPUTS + 2 + MARGIN];
    uint8_t job[MARGIN + MOST_BYTES + BLOCK_BYTES + MARGIN];
};

/* What a call lends; a field is changed to lend it wrongly. */
struct call {
    const uint32_t *code;
    size_t code_words;
    const uint64_t *memory;
    size_t memory_words;
    const uint64_t *intervals;
    size_t interval_words;
    uint64_t limit;
    uint64_t first;
    uint8_t *job;
    size_t job_bytes;
};

static struct room lent;
static struct room expected;

/* The job that is expected, with every word put in its place by hand. */
static uint8_t built[MOST_BYTES];

/* A call with these values and a memory of zeros; the space has room for a block more than the largest job. */
static struct call call_of(const uint32_t *code, size_t words, const uint64_t *box, size_t inputs, uint64_t limit, uint64_t first)
{
    struct call call = {
        .code = lent.code + MARGIN, .code_words = words,
        .memory = lent.memory + MARGIN, .memory_words = MEMORY_WORDS,
        .intervals = lent.intervals + MARGIN, .interval_words = 2 * inputs,
        .limit = limit, .first = first,
        .job = lent.job + MARGIN, .job_bytes = MOST_BYTES + BLOCK_BYTES,
    };
    memset(&lent, FILL, sizeof lent);
    memcpy(lent.code + MARGIN, code, words * sizeof *code);
    memset(lent.memory + MARGIN, 0, MEMORY_WORDS * sizeof *lent.memory);
    memcpy(lent.intervals + MARGIN, box, 2 * inputs * sizeof *box);
    return call;
}

/* Begins the job that is expected: a header of these counts, without intervals. */
static void build(uint64_t words, uint64_t inputs, uint64_t limit, uint64_t first, uint64_t given)
{
    memset(built, 0, sizeof built);
    put_word(built, MARK, 1);
    put_word(built, CODE_COUNT, words);
    put_word(built, INPUT_COUNT, inputs);
    put_word(built, STEP_LIMIT, limit);
    put_word(built, FIRST_PATH, first);
    put_word(built, MEMORY_GIVEN, given);
}

static void put_checks(size_t blocks)
{
    for (size_t block = 0; block < blocks; block++)
        put_check(built + block * BLOCK_BYTES);
}

/* Makes the call; beside the first bytes of the job that is expected, nothing is changed. */
static void makes(const struct call *c, uint64_t number, size_t bytes, const char *what, size_t at)
{
    memset(lent.job, FILL, sizeof lent.job);
    memcpy(&expected, &lent, sizeof lent);
    if (bytes > 0)
        memcpy(expected.job + (c->job - lent.job), built, bytes);
    struct mirokefa_written found = mirokefa_write(
        c->code, c->code_words, c->memory, c->memory_words, c->intervals, c->interval_words, c->limit, c->first, c->job, c->job_bytes);
    require(found.refused == number, what, at);
    require(found.bytes == bytes, "the answer has another length", at);
    for (size_t k = 0; k < sizeof lent.job; k++)
        require(lent.job[k] == expected.job[k], what, k);
    require(memcmp(&lent, &expected, sizeof lent) == 0, "code, memory or intervals were changed", at);
}

static void writes(const struct call *call, size_t blocks, const char *what, size_t at)
{
    makes(call, MIROKEFA_ACCEPTED, blocks * BLOCK_BYTES, what, at);
}

static void refuses(const struct call *call, uint64_t number, const char *what, size_t at)
{
    makes(call, number, 0, what, at);
}

/* Job A, and its two blocks. */
static struct call job_a(void)
{
    uint8_t *code = built + BLOCK_BYTES;
    build(8, 1, 100, 0, 0);
    put_word(built, FIRST_HIGH, 255);
    put_word(code, 0, 0x0080061303F00893);
    put_word(code, 1, 0x0000328300000073);
    put_word(code, 2, 0x0062B53300A00313);
    put_word(code, 3, 0x0000007305D00893);
    put_checks(2);
    require(word(built, MIROKEFA_BLOCK_CHECK) == 0xF1FE000000000004 && word(code, MIROKEFA_BLOCK_CHECK) == 0x6826332BE93482A9,
            "Job A has other checks", 0);
    return call_of(JOB_A, JOB_A_WORDS, JOB_A_BOX, JOB_A_INPUTS, JOB_A_LIMIT, 0);
}

/* A shorter space is refused, and a longer one keeps its rest. */
static void every_space_length(void)
{
    struct call call = job_a();
    for (size_t length = 0; length <= 3 * BLOCK_BYTES; length++) {
        call.job_bytes = length;
        if (length < 2 * BLOCK_BYTES)
            refuses(&call, MIROKEFA_REFUSED_SPACE, "a space that is too short is not refused with 14", length);
        else
            writes(&call, 2, "a longer space is not accepted, or has another job", length);
    }
}

/* The space may begin at any address. */
static void every_alignment(void)
{
    struct call call = job_a();
    for (size_t shift = 0; shift < 8; shift++, call.job++) {
        call.job_bytes = 2 * BLOCK_BYTES;
        writes(&call, 2, "a space at another address has another job", shift);
    }
}

/* An odd number of code words, eight inputs, and zeros between the memory words. */
static void words_in_every_part(void)
{
    static const uint32_t code[3] = {0x11111111, 0x22222222, 0xFFFFFFFF};
    uint64_t box[2 * MOST_INPUTS];
    uint8_t *blocks = built + BLOCK_BYTES;
    build(3, MOST_INPUTS, MIROKEFA_MOST_STEPS, MIROKEFA_PATH_NUMBERS - 1, 65);
    for (size_t k = 0; k < MOST_INPUTS; k++) {
        box[2 * k] = UINT64_MAX / 2 - k, box[2 * k + 1] = UINT64_MAX - k;
        put_word(built, FIRST_LOW + k, UINT64_MAX / 2 - k);
        put_word(built, FIRST_HIGH + k, UINT64_MAX - k);
    }
    put_word(blocks, 0, 0x2222222211111111);
    put_word(blocks, 1, 0x00000000FFFFFFFF);
    put_word(blocks + BLOCK_BYTES, 1, UINT64_MAX);
    put_word(blocks + BLOCK_BYTES, 62, 7);
    put_word(blocks + 2 * BLOCK_BYTES, 1, UINT64_C(1) << 63);
    put_checks(4);
    struct call call = call_of(code, 3, box, MOST_INPUTS, MIROKEFA_MOST_STEPS, MIROKEFA_PATH_NUMBERS - 1);
    lent.memory[MARGIN + 1] = UINT64_MAX, lent.memory[MARGIN + 62] = 7, lent.memory[MARGIN + 64] = UINT64_C(1) << 63;
    writes(&call, 4, "words in every part are written otherwise", 0);
    call.job_bytes = 4 * BLOCK_BYTES;
    writes(&call, 4, "an exact space is not accepted", 0);
    call.job_bytes--;
    refuses(&call, MIROKEFA_REFUSED_SPACE, "a space one byte too short is not refused with 14", 0);
}

/* Memory words from the first to one that is not 0 are given, whether its low or its high half is. */
static void one_memory_word_at_each_place(void)
{
    for (size_t k = 0; k < 2 * MEMORY_WORDS; k++) {
        size_t place = k / 2, blocks = 2 + place / PAYLOAD_WORDS + 1;
        uint64_t value = k % 2 == 0 ? 1 : UINT64_C(1) << 32;
        struct call call = job_a();
        lent.memory[MARGIN + place] = value;
        put_word(built, MEMORY_GIVEN, place + 1);
        put_word(built + (blocks - 1) * BLOCK_BYTES, place % PAYLOAD_WORDS, value);
        put_checks(blocks);
        writes(&call, blocks, "one memory word is written otherwise", place);
    }
}

/* 126 code words, the last of them 0, and 63 memory words take a block each. */
static void full_blocks(void)
{
    static const uint32_t code[2 * PAYLOAD_WORDS] = {115};
    static const uint64_t box[2] = {5, 5};
    build(2 * PAYLOAD_WORDS, 1, 65535, 1, PAYLOAD_WORDS);
    put_word(built, FIRST_LOW, 5);
    put_word(built, FIRST_HIGH, 5);
    put_word(built + BLOCK_BYTES, 0, 115);
    put_word(built + 2 * BLOCK_BYTES, PAYLOAD_WORDS - 1, 9);
    put_checks(3);
    struct call call = call_of(code, 2 * PAYLOAD_WORDS, box, 1, 65535, 1);
    lent.memory[MARGIN + PAYLOAD_WORDS - 1] = 9;
    writes(&call, 3, "full blocks are written otherwise", 0);
}

/* 1,024 code words in nine blocks and 512 memory words in nine. */
static void the_largest_job(void)
{
    static uint32_t code[MOST_CODE_WORDS];
    static const uint64_t box[2 * MOST_INPUTS];
    uint8_t *blocks = built + BLOCK_BYTES;
    build(MOST_CODE_WORDS, MOST_INPUTS, 1, 0, MEMORY_WORDS);
    for (uint32_t k = 0; k < MOST_CODE_WORDS; k++) {
        code[k] = 0x80000000 + k;
        if (k % 2 == 1)
            put_word(blocks + k / (2 * PAYLOAD_WORDS) * BLOCK_BYTES, k / 2 % PAYLOAD_WORDS, (uint64_t)code[k] << 32 | code[k - 1]);
    }
    struct call call = call_of(code, MOST_CODE_WORDS, box, MOST_INPUTS, 1, 0);
    blocks += 9 * BLOCK_BYTES;
    for (size_t k = 0; k < MEMORY_WORDS; k++) {
        lent.memory[MARGIN + k] = UINT64_MAX - k;
        put_word(blocks + k / PAYLOAD_WORDS * BLOCK_BYTES, k % PAYLOAD_WORDS, UINT64_MAX - k);
    }
    put_checks(MIROKEFA_MOST_BLOCKS);
    writes(&call, MIROKEFA_MOST_BLOCKS, "the largest job is written otherwise", 0);
    call.job_bytes = MOST_BYTES - 1;
    refuses(&call, MIROKEFA_REFUSED_SPACE, "a space too short for the largest job is not refused with 14", 0);
}

/* The questions in their order, with their numbers. */
enum { CODE, INPUTS, ORDER, LIMIT, MEMORY, FIRST, SPACE, QUESTIONS };

static const uint64_t numbers[QUESTIONS] = {
    MIROKEFA_REFUSED_CODE, MIROKEFA_REFUSED_INPUTS, MIROKEFA_REFUSED_ORDER, MIROKEFA_REFUSED_LIMIT,
    MIROKEFA_REFUSED_MEMORY, MIROKEFA_REFUSED_FIRST, MIROKEFA_REFUSED_SPACE,
};

/* Job A with a set of noes; bit k is the no of question k, which has two causes. */
static struct call call_with(unsigned noes, unsigned causes)
{
    struct call call = job_a();
    if (noes >> CODE & 1)
        call.code_words = causes >> CODE & 1 ? 0 : MOST_CODE_WORDS + 1;
    if (noes >> INPUTS & 1)
        call.interval_words = causes >> INPUTS & 1 ? 3 : 2 * MOST_INPUTS + 2;
    if (noes >> ORDER & 1)
        lent.intervals[MARGIN] = causes >> ORDER & 1 ? 256 : UINT64_MAX;
    if (noes >> LIMIT & 1)
        call.limit = causes >> LIMIT & 1 ? 0 : MIROKEFA_MOST_STEPS + 1;
    if (noes >> MEMORY & 1)
        call.memory_words = causes >> MEMORY & 1 ? MEMORY_WORDS - 1 : MEMORY_WORDS + 1;
    if (noes >> FIRST & 1)
        call.first = causes >> FIRST & 1 ? MIROKEFA_PATH_NUMBERS : UINT64_MAX;
    if (noes >> SPACE & 1)
        call.job_bytes = causes >> SPACE & 1 ? 2 * BLOCK_BYTES - 1 : 0;
    return call;
}

/* The first no decides. */
static void every_set_of_noes(void)
{
    for (unsigned noes = 1; noes < 1u << QUESTIONS; noes++)
        for (unsigned causes = 0; causes < 1u << QUESTIONS; causes++) {
            size_t first = 0;
            while (!(noes >> first & 1))
                first++;
            struct call call = call_with(noes, causes);
            refuses(&call, numbers[first], "the first no does not decide", noes);
        }
}

/* A low above its high in each interval, also where the low 32 bits of both would be in order. */
static void every_falling_interval(void)
{
    static const uint64_t box[2 * MOST_INPUTS];
    for (size_t k = 0; k < MOST_INPUTS; k++) {
        struct call call = call_of(JOB_A, JOB_A_WORDS, box, MOST_INPUTS, JOB_A_LIMIT, 0);
        lent.intervals[MARGIN + 2 * k] = UINT64_C(1) << 32, lent.intervals[MARGIN + 2 * k + 1] = 1;
        refuses(&call, MIROKEFA_REFUSED_ORDER, "a low above its high is not refused with 3", k);
    }
}

static void numbers_too_large(void)
{
    static const uint64_t too_large[4] = {(UINT64_C(1) << 32) + 1, UINT64_C(1) << 63, UINT64_MAX - 1, UINT64_MAX};
    for (size_t k = 0; k < 4; k++) {
        struct call call = job_a();
        call.first = too_large[k];
        refuses(&call, MIROKEFA_REFUSED_FIRST, "a first path of 2^32 or more is not refused with 8", k);
        call.limit = too_large[k];
        refuses(&call, MIROKEFA_REFUSED_LIMIT, "a limit above 65,536 is not refused with 4", k);
    }
}

/* With 0 elements a pointer may be null. */
static void nothing_lent(void)
{
    struct call call = {0};
    refuses(&call, MIROKEFA_REFUSED_CODE, "nothing at all is not refused with 1", 0);
    call = job_a();
    call.job = NULL, call.job_bytes = 0;
    refuses(&call, MIROKEFA_REFUSED_SPACE, "no space is not refused with 14", 0);
    call.memory = NULL, call.memory_words = 0;
    refuses(&call, MIROKEFA_REFUSED_MEMORY, "no memory is not refused with 6", 0);
    call.code = NULL, call.code_words = 0;
    refuses(&call, MIROKEFA_REFUSED_CODE, "no code is not refused with 1", 0);
    call = job_a();
    call.intervals = NULL, call.interval_words = 0;
    put_word(built, INPUT_COUNT, 0);
    put_word(built, FIRST_HIGH, 0);
    put_checks(1);
    writes(&call, 2, "a job without inputs is written otherwise", 0);
}

int main(void)
{
    every_space_length();
    every_alignment();
    words_in_every_part();
    one_memory_word_at_each_place();
    full_blocks();
    the_largest_job();
    every_set_of_noes();
    every_falling_interval();
    numbers_too_large();
    nothing_lent();
    return 0;
}
