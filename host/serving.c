/* The server's call on job blocks: prints the listing of the job given by name. With one more argument that job, which is Job A's, is
 * changed too: to each set of noes, in each bit and to each length; and noise is served. */

#define CALLER "serving"
#include "job_lending.h"

enum {
    PATH_BYTES = MIROKEFA_PATH_BYTES(MIROKEFA_MOST_INPUTS),
    REPORT_BYTES = MIROKEFA_USUAL_PAGE_PATHS * PATH_BYTES,
    FILL = 0xAA
};

/* The question on the report comes behind those on the job. */
enum { REPORT = JOB_QUESTIONS, QUESTIONS };

static const uint64_t report_number[1] = {MIROKEFA_REFUSED_REPORT};

static uint8_t report[REPORT_BYTES];
static uint8_t filled[REPORT_BYTES];

/* Serves bytes that are refused with a number; the report stays as it was. */
static void refuse(const uint8_t *bytes, size_t length, size_t report_bytes, uint64_t number, const char *what, size_t at)
{
    struct mirokefa_outcome outcome = mirokefa_serve(bytes, length, report, report_bytes);
    require(outcome.refused == number, what, at);
    require(outcome.count == 0 && outcome.more == 0, "a refusal has paths", at);
    require(memcmp(report, filled, REPORT_BYTES) == 0, "a refusal changed the report", at);
}

static void refuses_job(const uint8_t *bytes, size_t length, uint64_t number, const char *what, size_t at)
{
    refuse(bytes, length, REPORT_BYTES, number, what, at);
}

/* The first of a set of noes decides. */
static void refuse_noes(unsigned noes, unsigned cause, size_t length)
{
    size_t report_bytes = REPORT_BYTES;
    if (noes >> REPORT & 1)
        report_bytes = cause == 0 ? REPORT_BYTES - 1 : 0;
    length = spoil_job(noes, cause, length);
    refuse(changed, length, report_bytes, number_of(noes, report_number), "the first no does not decide", noes);
}

static void every_set_of_noes(size_t length)
{
    for (unsigned noes = 1; noes < 1u << QUESTIONS; noes++) {
        refuse_noes(noes, 0, length);
        refuse_noes(noes, 1, length);
    }
}

static void print_listing(size_t length)
{
    struct mirokefa_outcome outcome = mirokefa_serve(job, length, report, REPORT_BYTES);
    if (outcome.refused != MIROKEFA_ACCEPTED) {
        printf("turned away %" PRIu64 "\n", outcome.refused);
        return;
    }
    printf("paths %" PRIu64 " more %" PRIu64 "\n", outcome.count, outcome.more);
    for (size_t k = 0; k < outcome.count; k++)
        print_path(report + k * PATH_BYTES);
}

int main(int count, char **names)
{
    FILE *file = count == 2 || count == 3 ? fopen(names[1], "rb") : NULL;
    if (!file)
        return 2;
    size_t length = fread(job, 1, ROOM, file);
    fclose(file);
    print_listing(length);
    if (count == 3) {
        require(length == 2 * BLOCK_BYTES, "Job A has two blocks", length);
        memset(filled, FILL, REPORT_BYTES);
        memset(report, FILL, REPORT_BYTES);
        every_set_of_noes(length);
        refuse_damaged(length);
    }
    return 0;
}
