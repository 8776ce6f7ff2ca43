/* Rows placed through the library's border, as the course server does it: in Job A's report, in reports put together from its paths, and
 * with every refusal. Prints nothing; every byte lent, and between what is lent, is compared. */

#define CALLER "placing"
#include "lending.h"

enum { MOST_ROWS = MIROKEFA_MOST_ROWS, MOST_PATHS = 4 };

/* All that calls lend, each part behind a margin; there is room for lists that are too long. */
struct room {
    uint8_t report[MARGIN + MOST_PATHS * PATH_BYTES + MARGIN];
    uint64_t rows[MARGIN + 2 * MOST_ROWS + MARGIN];
    uint64_t answers[MARGIN + MOST_ROWS + MARGIN];
};

/* What a call lends; a field is changed to lend it wrongly. */
struct call {
    uint64_t inputs;
    const uint8_t *report;
    size_t report_bytes;
    const uint64_t *rows;
    size_t row_words;
    uint64_t *answers;
    size_t answer_words;
};

static struct room lent;
static struct room expected;

static const uint64_t NO_PATH = MIROKEFA_NO_PATH;

/* Writes the paths of Job A's code on a box to a place of the report. */
static void explore(const uint64_t *box, size_t inputs, uint64_t limit, size_t place, uint64_t paths)
{
    explore_code(JOB_A, box, inputs, limit, lent.report + MARGIN + place * PATH_BYTES, paths);
}

static void move_path(size_t to, size_t from)
{
    memcpy(lent.report + MARGIN + to * PATH_BYTES, lent.report + MARGIN + from * PATH_BYTES, PATH_BYTES);
}

/* A call on the first paths of the report, with rows and an answer for each. */
static struct call call_of(uint64_t inputs, size_t paths, const uint64_t *values, size_t rows)
{
    struct call call = {
        .inputs = inputs,
        .report = lent.report + MARGIN, .report_bytes = paths * PATH_BYTES,
        .rows = lent.rows + MARGIN, .row_words = rows * inputs,
        .answers = lent.answers + MARGIN, .answer_words = rows,
    };
    memcpy(lent.rows + MARGIN, values, rows * inputs * sizeof *values);
    return call;
}

/* Makes the call; beside the answers expected, nothing is changed. */
static void makes(const struct call *c, uint64_t number, const uint64_t *answers, const char *what)
{
    memset(lent.answers, FILL, sizeof lent.answers);
    memcpy(&expected, &lent, sizeof lent);
    if (answers)
        memcpy(expected.answers + MARGIN, answers, c->answer_words * sizeof *answers);
    uint64_t found = mirokefa_place(c->inputs, c->report, c->report_bytes, c->rows, c->row_words, c->answers, c->answer_words);
    require(found == number, what);
    require(memcmp(&lent, &expected, sizeof lent) == 0, what);
}

static void places(const struct call *call, const uint64_t *answers, const char *what)
{
    makes(call, MIROKEFA_ACCEPTED, answers, what);
}

static void refuses(const struct call *call, uint64_t number, const char *what)
{
    makes(call, number, NULL, what);
}

/* Job A's paths are 0..9 and 10..255. */
static void rows_of_job_a(void)
{
    static const uint64_t rows[6] = {0, 9, 10, 255, 256, UINT64_MAX};
    const uint64_t answers[6] = {0, 0, 1, 1, NO_PATH, NO_PATH};
    const uint64_t on_last_path[6] = {NO_PATH, NO_PATH, 1, 1, NO_PATH, NO_PATH};
    explore(JOB_A_BOX, JOB_A_INPUTS, JOB_A_LIMIT, 0, 2);
    struct call call = call_of(1, 2, rows, 6);
    places(&call, answers, "Job A's rows have other paths");
    call.report += PATH_BYTES, call.report_bytes = PATH_BYTES;
    places(&call, on_last_path, "the rows have other paths on the last path alone");
    for (size_t k = 0; k < 6; k++) {
        call = call_of(1, 2, rows + k, 1);
        places(&call, answers + k, "a row alone has another path");
    }
}

static void rows_of_two_inputs(void)
{
    static const uint64_t rows[14] = {0, 3, 9, 7, 10, 3, 255, 7, 9, 2, 10, 8, 256, 5};
    const uint64_t answers[7] = {0, 0, 1, 1, NO_PATH, NO_PATH, NO_PATH};
    explore(TWO_INPUTS, 2, JOB_A_LIMIT, 0, 2);
    struct call call = call_of(2, 2, rows, 7);
    places(&call, answers, "rows of two inputs have other paths");
}

/* With limit 5 the code has one path, numbered 0, on the whole box. */
static void first_listed_wins(void)
{
    static const uint64_t rows[3] = {3, 20, 256};
    const uint64_t narrow_first[3] = {0, 1, NO_PATH};
    const uint64_t wide_first[3] = {0, 0, NO_PATH};
    explore(JOB_A_BOX, JOB_A_INPUTS, JOB_A_LIMIT, 1, 2);
    explore(JOB_A_BOX, JOB_A_INPUTS, 5, 3, 1);
    move_path(0, 2);
    move_path(1, 3);
    struct call call = call_of(1, 2, rows, 3);
    places(&call, narrow_first, "the first listed path does not win");
    move_path(0, 3);
    move_path(1, 2);
    places(&call, wide_first, "the first listed path does not win over a higher number");
}

/* Beside Job A's report there are two rows, and an answer for each. */
static void refuses_report(uint64_t inputs, size_t report_bytes, const char *what)
{
    static const uint64_t rows[2] = {3, 20};
    struct call call = call_of(1, 2, rows, 2);
    call.inputs = inputs, call.report_bytes = report_bytes;
    refuses(&call, MIROKEFA_REFUSED_RECORDS, what);
}

/* The noes of two rows come behind those of the report. */
enum { PART_OF_ROW = REPORT_NOES, MANY_ROWS, ANSWERS, NOES };

static struct call call_with(unsigned noes)
{
    static const uint64_t rows[4] = {3, 5, 20, 5};
    explore(TWO_INPUTS, 2, JOB_A_LIMIT, 0, 2);
    struct call call = call_of(2, 2, rows, 2);
    spoil_report(noes, lent.report + MARGIN, &call.inputs, &call.report_bytes);
    if (noes >> MANY_ROWS & 1)
        call.answer_words = MOST_ROWS + 1, call.row_words = 2 * (MOST_ROWS + 1);
    if (noes >> PART_OF_ROW & 1)
        call.row_words--;
    if (noes >> ANSWERS & 1)
        call.answer_words--;
    return call;
}

static void every_set_of_noes(void)
{
    for (unsigned noes = 1; noes < 1u << NOES; noes++) {
        struct call call = call_with(noes);
        refuses(&call, number_of(noes, MIROKEFA_REFUSED_ROWS), "the first no does not decide");
    }
}

static void refuse_answers(void)
{
    static const uint64_t rows[2] = {3, 20};
    explore(JOB_A_BOX, JOB_A_INPUTS, JOB_A_LIMIT, 0, 2);
    struct call call = call_of(1, 2, rows, 2);
    for (size_t words = 0; words < 6; words++) {
        call.answer_words = words;
        if (words != 2)
            refuses(&call, MIROKEFA_REFUSED_ROWS, "too few or too many answers are not refused with 13");
    }
}

/* The header's bounds are allowed themselves. */
static void bounds_are_accepted(void)
{
    static uint64_t rows[MOST_ROWS + 1];
    static uint64_t answers[MOST_ROWS];
    static const uint64_t eight[2 * MIROKEFA_MOST_INPUTS] = {0, 9};
    explore(JOB_A_BOX, JOB_A_INPUTS, JOB_A_LIMIT, 0, 2);
    struct call call = call_of(1, 2, rows, MOST_ROWS + 1);
    refuses(&call, MIROKEFA_REFUSED_ROWS, "1,025 rows are not refused with 13");
    call = call_of(1, 2, rows, MOST_ROWS);
    places(&call, answers, "1,024 rows are not accepted");
    explore(eight, MIROKEFA_MOST_INPUTS, JOB_A_LIMIT, 0, 1);
    call = call_of(MIROKEFA_MOST_INPUTS, 1, rows, 2);
    places(&call, answers, "eight inputs are not accepted");
}

/* With 0 elements a pointer may be null. */
static void nothing_lent(void)
{
    static const uint64_t rows[2] = {3, 20};
    const uint64_t answers[2] = {NO_PATH, NO_PATH};
    explore(JOB_A_BOX, JOB_A_INPUTS, JOB_A_LIMIT, 0, 2);
    struct call call = {.inputs = 1};
    places(&call, NULL, "no path, no row and no answer are not accepted");
    call.inputs = 0;
    refuses(&call, MIROKEFA_REFUSED_RECORDS, "nothing at all is not refused with 12");
    call = call_of(1, 2, rows, 2);
    call.report = NULL, call.report_bytes = 0;
    places(&call, answers, "rows have a path where there is none");
    call.rows = NULL, call.row_words = 0;
    refuses(&call, MIROKEFA_REFUSED_ROWS, "answers without rows are not refused with 13");
    call = call_of(1, 2, rows, 2);
    call.answers = NULL, call.answer_words = 0;
    refuses(&call, MIROKEFA_REFUSED_ROWS, "rows without answers are not refused with 13");
    call.rows = NULL, call.row_words = 0;
    places(&call, NULL, "a report without rows is not accepted");
}

int main(void)
{
    memset(&lent, FILL, sizeof lent);
    rows_of_job_a();
    rows_of_two_inputs();
    first_listed_wins();
    refuse_reports(lent.report + MARGIN);
    every_set_of_noes();
    refuse_answers();
    bounds_are_accepted();
    nothing_lent();
    return 0;
}
