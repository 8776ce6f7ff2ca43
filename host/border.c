/* The library's border as the course server uses it: document 01's Job A, whole and page by page, and every refusal. Prints Job A's listing. */

#include <stdbool.h>
#include <stdlib.h>
#include <string.h>

#include "../examples/job_a.h"
#include "../examples/report.h"
#include "mirokefa.h"

enum {
    MEMORY_WORDS = MIROKEFA_MEMORY_WORDS,
    TABLE_WORDS = MIROKEFA_USUAL_TABLE_WORDS,
    PATH_BYTES = MIROKEFA_PATH_BYTES(JOB_A_INPUTS),
    BLOCK_BYTES = MIROKEFA_BLOCK_BYTES,
    PAGE_PATHS = MIROKEFA_USUAL_PAGE_PATHS,
    FILL = 0xA5
};

/* What a call lends; a field is changed to lend it wrongly. */
struct call {
    const uint32_t *code;
    size_t code_words;
    const uint64_t *memory;
    size_t memory_words;
    const uint64_t *intervals;
    size_t interval_words;
    uint64_t limit;
    uint64_t *table;
    size_t table_words;
    uint8_t *report;
    size_t report_bytes;
    uint64_t first;
};

static uint64_t memory[MEMORY_WORDS + 1];
static uint64_t table[TABLE_WORDS];
static uint8_t report[PAGE_PATHS * PATH_BYTES];
static uint32_t long_code[MIROKEFA_MOST_CODE_WORDS + 1];
static uint64_t many_intervals[2 * MIROKEFA_MOST_INPUTS + 2];

static void require(bool holds, const char *what)
{
    if (!holds) {
        fprintf(stderr, "border: %s\n", what);
        exit(1);
    }
}

static struct call job_a(void)
{
    struct call call = {
        .code = JOB_A, .code_words = JOB_A_WORDS,
        .memory = memory, .memory_words = MEMORY_WORDS,
        .intervals = JOB_A_BOX, .interval_words = 2 * JOB_A_INPUTS,
        .limit = JOB_A_LIMIT,
        .table = table, .table_words = TABLE_WORDS,
        .report = report, .report_bytes = sizeof report,
        .first = 0,
    };
    return call;
}

static struct mirokefa_outcome explore(const struct call *c)
{
    return mirokefa_explore(
        c->code, c->code_words, c->memory, c->memory_words, c->intervals, c->interval_words,
        c->limit, c->table, c->table_words, c->report, c->report_bytes, c->first);
}

/* Every lent byte is set, so that a change shows. */
static void fill(void)
{
    memset(table, FILL, sizeof table);
    memset(report, FILL, sizeof report);
}

static bool all_bytes(const void *from, size_t count, uint8_t value)
{
    const uint8_t *bytes = from;
    for (size_t k = 0; k < count; k++)
        if (bytes[k] != value)
            return false;
    return true;
}

static bool answers(struct mirokefa_outcome reply, uint64_t refused, uint64_t count, uint64_t more)
{
    return reply.refused == refused && reply.count == count && reply.more == more;
}

static bool checks(const uint8_t *block)
{
    return check_of(block) == word(block, MIROKEFA_BLOCK_CHECK);
}

static bool ends(uint64_t kind, uint64_t pc)
{
    return word(report, MIROKEFA_PATH_KIND) == kind && word(report, MIROKEFA_PATH_PC) == pc;
}

static void print_whole_listing(void)
{
    struct call call = job_a();
    fill();
    struct mirokefa_outcome reply = explore(&call);
    require(answers(reply, MIROKEFA_ACCEPTED, 2, 0), "Job A has two paths and no more");
    printf("paths %" PRIu64 " more %" PRIu64 "\n", reply.count, reply.more);
    for (size_t k = 0; k < reply.count; k++) {
        const uint8_t *path = report + k * PATH_BYTES;
        require(checks(path) && checks(path + BLOCK_BYTES), "a block's check is wrong");
        print_path(path);
    }
    require(all_bytes(table, sizeof table, 0), "the table is not zero");
    require(all_bytes(report + 2 * PATH_BYTES, sizeof report - 2 * PATH_BYTES, FILL),
            "unused report bytes were written");
}

static void walk_pages_of_one_path(void)
{
    static uint8_t joined[2 * PATH_BYTES];
    struct call call = job_a();
    require(answers(explore(&call), MIROKEFA_ACCEPTED, 2, 0), "Job A has two paths");
    memcpy(joined, report, sizeof joined);
    call.report_bytes = PATH_BYTES;
    for (call.first = 0; call.first < 2; call.first++) {
        fill();
        require(answers(explore(&call), MIROKEFA_ACCEPTED, 1, 1 - call.first), "a page has one path");
        require(memcmp(report, joined + call.first * PATH_BYTES, PATH_BYTES) == 0,
                "a page is not its part of the listing");
        require(all_bytes(report + PATH_BYTES, PATH_BYTES, FILL), "a page is longer than lent");
    }
    fill();
    require(answers(explore(&call), MIROKEFA_ACCEPTED, 0, 0), "no path is past the last");
    require(all_bytes(report, sizeof report, FILL), "an empty page was written");
}

static void limits_and_entries(void)
{
    struct call call = job_a();
    call.limit = 5;
    require(answers(explore(&call), MIROKEFA_ACCEPTED, 1, 0) && ends(MIROKEFA_STEP_LIMIT, 20),
            "limit 5 ends with kind 7 at 20");
    call = job_a();
    call.table_words = MIROKEFA_ENTRY_WORDS;
    require(answers(explore(&call), MIROKEFA_ACCEPTED, 1, 0) && ends(MIROKEFA_TABLE_FULL, 4),
            "one entry ends with kind 9 at 4");
}

static void refuses(const struct call *call, uint64_t number, const char *what)
{
    fill();
    require(answers(explore(call), number, 0, 0), what);
    require(all_bytes(table, sizeof table, FILL) && all_bytes(report, sizeof report, FILL), what);
    require(all_bytes(memory, sizeof memory, 0), what);
}

static void refuse_code_and_intervals(void)
{
    static const uint64_t falling[4] = {0, 1, 5, 4};
    struct call call = job_a();
    call.code = NULL, call.code_words = 0;
    refuses(&call, MIROKEFA_REFUSED_CODE, "no code is refused with 1");
    call.code = long_code, call.code_words = MIROKEFA_MOST_CODE_WORDS + 1;
    refuses(&call, MIROKEFA_REFUSED_CODE, "1,025 code words are refused with 1");
    call = job_a();
    call.interval_words = 1;
    refuses(&call, MIROKEFA_REFUSED_INPUTS, "half a pair is refused with 2");
    call.intervals = many_intervals, call.interval_words = 2 * MIROKEFA_MOST_INPUTS + 2;
    refuses(&call, MIROKEFA_REFUSED_INPUTS, "nine inputs are refused with 2");
    call.intervals = falling, call.interval_words = 4;
    refuses(&call, MIROKEFA_REFUSED_ORDER, "a low above its high is refused with 3");
}

static void refuse_numbers_and_places(void)
{
    struct call call = job_a();
    call.limit = 0;
    refuses(&call, MIROKEFA_REFUSED_LIMIT, "limit 0 is refused with 4");
    call.limit = MIROKEFA_MOST_STEPS + 1;
    refuses(&call, MIROKEFA_REFUSED_LIMIT, "limit 65,537 is refused with 4");
    call = job_a();
    call.table_words = MIROKEFA_ENTRY_WORDS - 1;
    refuses(&call, MIROKEFA_REFUSED_TABLE, "seven table words are refused with 5");
    call.table = NULL, call.table_words = 0;
    refuses(&call, MIROKEFA_REFUSED_TABLE, "no table is refused with 5");
    call = job_a();
    call.memory_words = MEMORY_WORDS + 1;
    refuses(&call, MIROKEFA_REFUSED_MEMORY, "513 memory words are refused with 6");
    call.memory = NULL, call.memory_words = 0;
    refuses(&call, MIROKEFA_REFUSED_MEMORY, "no memory is refused with 6");
    call = job_a();
    call.report_bytes = PATH_BYTES - 1;
    refuses(&call, MIROKEFA_REFUSED_REPORT, "a part of a path's bytes is refused with 7");
    call.report = NULL, call.report_bytes = 0;
    refuses(&call, MIROKEFA_REFUSED_REPORT, "no report is refused with 7");
    call = job_a();
    call.first = MIROKEFA_PATH_NUMBERS;
    refuses(&call, MIROKEFA_REFUSED_FIRST, "first path 2^32 is refused with 8");
}

/* The header's bounds are allowed themselves. */
static void bounds_are_accepted(void)
{
    struct call call = job_a();
    call.code = long_code, call.code_words = MIROKEFA_MOST_CODE_WORDS;
    require(answers(explore(&call), MIROKEFA_ACCEPTED, 1, 0) && ends(MIROKEFA_BAD_WORD, 0),
            "1,024 code words are accepted");
    call = job_a();
    call.intervals = many_intervals, call.interval_words = 2 * MIROKEFA_MOST_INPUTS;
    require(answers(explore(&call), MIROKEFA_ACCEPTED, 1, 0), "eight inputs are accepted");
    call = job_a();
    call.limit = MIROKEFA_MOST_STEPS;
    require(answers(explore(&call), MIROKEFA_ACCEPTED, 2, 0), "limit 65,536 is accepted");
    call.first = MIROKEFA_PATH_NUMBERS - 1;
    require(answers(explore(&call), MIROKEFA_ACCEPTED, 0, 0), "first path 2^32 - 1 is accepted");
}

static void nothing_lent(void)
{
    struct call call = {0};
    refuses(&call, MIROKEFA_REFUSED_CODE, "nothing lent is refused with 1");
    call = job_a();
    call.intervals = NULL, call.interval_words = 0;
    require(answers(explore(&call), MIROKEFA_ACCEPTED, 1, 0), "a job needs no inputs");
}

int main(void)
{
    print_whole_listing();
    walk_pages_of_one_path();
    limits_and_entries();
    refuse_code_and_intervals();
    refuse_numbers_and_places();
    bounds_are_accepted();
    nothing_lent();
    return 0;
}
