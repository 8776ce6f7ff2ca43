/* Choices counted through the library's border, as the course server does it: of Job A and of codes like it with every other end, on boxes
 * around 2^64 choices, of 64 and of 65 paths, and with every refusal. Prints nothing; every word of an answer and every byte of a job is
 * compared. */

#define CALLER "counting"
#include "../examples/job_a.h"
#include "job_lending.h"

enum { MOST_PATHS = MIROKEFA_MOST_COUNTED_PATHS, STEPPED_WORDS = 10 };

/* Counts from 0 up to its input and exits with it: a path for each value. */
static const uint32_t STEPPED[STEPPED_WORDS] = {
    0x03F00893, 0x00800613, 0x00000073, 0x00003283, 0x00000513, 0x00A28663, 0x00150513, 0xFF9FF06F, 0x05D00893, 0x00000073,
};

/* The code has 64 paths on this box, each with five choices: it does not read the second input. */
static const uint64_t STEPPED_BOX[4] = {0, MOST_PATHS - 1, 3, 7};

static void put_code(uint8_t *block, const uint32_t *code, size_t words)
{
    for (size_t k = 0; k < words; k++)
        put_word(block, k / 2, word(block, k / 2) | (uint64_t)code[k] << 32 * (k % 2));
}

/* Writes a job of two blocks, with the first path 0. */
static size_t put_job(const uint32_t *code, size_t words, const uint64_t *box, size_t inputs, uint64_t limit)
{
    memset(job, 0, ROOM);
    put_word(job, MARK, 1);
    put_word(job, CODE_COUNT, words);
    put_word(job, INPUT_COUNT, inputs);
    put_word(job, STEP_LIMIT, limit);
    for (size_t k = 0; k < inputs; k++) {
        put_word(job, FIRST_LOW + k, box[2 * k]);
        put_word(job, FIRST_HIGH + k, box[2 * k + 1]);
    }
    put_code(job + BLOCK_BYTES, code, words);
    put_check(job);
    put_check(job + BLOCK_BYTES);
    return 2 * BLOCK_BYTES;
}

static void compare(const char *part, const uint64_t *found, const uint64_t *expected, size_t words, const char *what, size_t at)
{
    for (size_t k = 0; k < words; k++)
        if (found[k] != expected[k]) {
            fprintf(stderr, CALLER ": %s[%zu] is %" PRIu64 ", expected %" PRIu64 "\n", part, k, found[k], expected[k]);
            require(false, what, at);
        }
}

/* Makes the call; nothing lent is changed. */
static void counts(const uint8_t *bytes, size_t length, const struct mirokefa_counts *expected, const char *what, size_t at)
{
    static uint8_t came[ROOM];
    if (length > 0)
        memcpy(came, bytes, length);
    struct mirokefa_counts found = mirokefa_count(bytes, length);
    compare("refused", &found.refused, &expected->refused, 1, what, at);
    compare("used", &found.used, &expected->used, 1, what, at);
    compare("values", found.values, expected->values, MOST_PATHS, what, at);
    compare("choices", found.choices, expected->choices, MOST_PATHS, what, at);
    compare("varying", &found.varying, &expected->varying, 1, what, at);
    compare("kinds", found.kinds, expected->kinds, MIROKEFA_KIND_PLACES, what, at);
    compare("total", &found.total, &expected->total, 1, what, at);
    require(length == 0 || memcmp(came, bytes, length) == 0, "the job was changed", at);
}

static void refuses_job(const uint8_t *bytes, size_t length, uint64_t number, const char *what, size_t at)
{
    struct mirokefa_counts nothing = {.refused = number};
    counts(bytes, length, &nothing, what, at);
}

/* Whatever first path the job names. */
static void job_a(void)
{
    static const uint64_t firsts[4] = {0, 1, 2, MIROKEFA_PATH_NUMBERS - 1};
    static const struct mirokefa_counts expected = {.used = 2, .values = {0, 1}, .choices = {246, 10}, .total = 256};
    size_t length = put_job(JOB_A, JOB_A_WORDS, JOB_A_BOX, JOB_A_INPUTS, JOB_A_LIMIT);
    for (size_t k = 0; k < 4; k++) {
        put_word(job, FIRST_PATH, firsts[k]);
        put_check(job);
        counts(job, length, &expected, "Job A has other counts", k);
    }
}

/* Job A's code with BEQ of the input and 10 in place of SLTU, to the next word: values below 10, 10 and those above exit with the read's 8. */
static void one_value_on_three_paths(void)
{
    static const struct mirokefa_counts expected = {.used = 1, .values = {8}, .choices = {256}, .total = 256};
    uint32_t code[JOB_A_WORDS];
    memcpy(code, JOB_A, sizeof code);
    code[5] = 0x00628263;
    counts(job, put_job(code, JOB_A_WORDS, JOB_A_BOX, JOB_A_INPUTS, JOB_A_LIMIT), &expected, "three paths have other counts", 0);
}

/* Job A's code with other words at addresses 20 and 24; an exit is then with the input. */
static void every_other_end(void)
{
    static const struct { uint32_t words[2]; uint64_t kind; } ends[] = {
        {{0x00028513, 0x05D00893}, MIROKEFA_EXIT}, {{0x0060006F, 0}, MIROKEFA_BAD_PC}, {{0, 0}, MIROKEFA_BAD_WORD},
        {{0x00403503, 0}, MIROKEFA_BAD_ADDRESS}, {{0x0062B533, 0x04000893}, MIROKEFA_BAD_CALL}, {{0x0000006F, 0}, MIROKEFA_STEP_LIMIT},
        {{0x00528533, 0}, MIROKEFA_NOT_FOLLOWED}, {{0x00150513, 0xFFDFF06F}, MIROKEFA_TABLE_FULL},
    };
    for (size_t k = 0; k < sizeof ends / sizeof *ends; k++) {
        struct mirokefa_counts expected = {.total = 256};
        uint32_t code[JOB_A_WORDS];
        memcpy(code, JOB_A, sizeof code);
        memcpy(code + 5, ends[k].words, sizeof ends[k].words);
        *(ends[k].kind == MIROKEFA_EXIT ? &expected.varying : &expected.kinds[ends[k].kind]) = 256;
        counts(job, put_job(code, JOB_A_WORDS, JOB_A_BOX, JOB_A_INPUTS, MIROKEFA_MOST_STEPS), &expected, "another end has other counts", k);
    }
}

/* Job A's code on other boxes: so many choices exit with 1. */
static void job_a_on(const uint64_t *box, size_t inputs, uint64_t with_1, uint64_t total)
{
    struct mirokefa_counts expected = {.used = 2, .values = {0, 1}, .choices = {total - with_1, with_1}, .total = total};
    counts(job, put_job(JOB_A, JOB_A_WORDS, box, inputs, JOB_A_LIMIT), &expected, "a large box has other counts", inputs);
}

static void refuses_box(const uint64_t *box, size_t inputs)
{
    size_t length = put_job(JOB_A, JOB_A_WORDS, box, inputs, JOB_A_LIMIT);
    refuses_job(job, length, MIROKEFA_REFUSED_SIZE, "a box of 2^64 choices or more is not refused with 15", inputs);
}

static void boxes_around_2_64(void)
{
    uint64_t box[2 * MIROKEFA_MOST_INPUTS] = {0, UINT64_MAX};
    refuses_box(box, 1);
    refuses_box(box, 2);
    box[0] = 1;
    job_a_on(box, 1, 9, UINT64_MAX);
    box[1] = UINT32_MAX, box[0] = 0, box[3] = UINT32_MAX;
    refuses_box(box, 2);
    box[3]--;
    job_a_on(box, 2, 10 * (uint64_t)UINT32_MAX, (uint64_t)UINT32_MAX << 32);
    for (size_t k = 0; k < MIROKEFA_MOST_INPUTS; k++)
        box[2 * k + 1] = 255;
    refuses_box(box, MIROKEFA_MOST_INPUTS);
    box[15]--;
    job_a_on(box, MIROKEFA_MOST_INPUTS, UINT64_C(2550) << 48, UINT64_C(255) << 56);
}

/* As many paths and values as there can be. */
static void sixty_four_paths(void)
{
    struct mirokefa_counts expected = {.used = MOST_PATHS, .total = 5 * MOST_PATHS};
    for (size_t k = 0; k < MOST_PATHS; k++)
        expected.values[k] = k, expected.choices[k] = 5;
    counts(job, put_job(STEPPED, STEPPED_WORDS, STEPPED_BOX, 2, 300), &expected, "64 paths have other counts", 0);
}

/* A job without inputs has one choice; with 0 bytes a pointer may be null. */
static void nothing_read_and_nothing_lent(void)
{
    static const struct mirokefa_counts expected = {.used = 1, .choices = {1}, .total = 1};
    counts(job, put_job(JOB_A + 6, 2, NULL, 0, JOB_A_LIMIT), &expected, "no inputs have other counts", 0);
    refuses_job(NULL, 0, MIROKEFA_REFUSED_BLOCKS, "no job is not refused with 9", 0);
}

/* The questions of a count come behind those on the job. */
enum { SIZE = JOB_QUESTIONS, PATHS, QUESTIONS };

static const uint64_t count_numbers[2] = {MIROKEFA_REFUSED_SIZE, MIROKEFA_REFUSED_PATHS};

/* The first of a set of noes decides. */
static void refuse_noes(unsigned noes, unsigned cause, size_t length)
{
    put_word(job, FIRST_HIGH, STEPPED_BOX[1] + (noes >> PATHS & 1));
    put_word(job, FIRST_HIGH + 1, noes >> SIZE & 1 ? UINT64_MAX : STEPPED_BOX[3]);
    length = spoil_job(noes, cause, length);
    refuses_job(changed, length, number_of(noes, count_numbers), "the first no does not decide", noes);
}

static void every_set_of_noes(void)
{
    size_t length = put_job(STEPPED, STEPPED_WORDS, STEPPED_BOX, 2, 300);
    for (unsigned noes = 1; noes < 1u << QUESTIONS; noes++) {
        refuse_noes(noes, 0, length);
        refuse_noes(noes, 1, length);
    }
}

int main(void)
{
    job_a();
    one_value_on_three_paths();
    every_other_end();
    boxes_around_2_64();
    sixty_four_paths();
    nothing_read_and_nothing_lent();
    every_set_of_noes();
    refuse_damaged(put_job(JOB_A, JOB_A_WORDS, JOB_A_BOX, JOB_A_INPUTS, JOB_A_LIMIT));
    return 0;
}
