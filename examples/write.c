/* Writes document 01's Job A as blocks, serves them, and prints the paths once an exploration of the same values has given the same report.
 *
 *     gcc -std=c11 -Iinclude -o write examples/write.c target/staticlib/libmirokefa_c.a */

#include <string.h>

#include "job_a.h"
#include "mirokefa.h"
#include "report.h"

enum { FIRST_PATH = 0, PATH_BYTES = MIROKEFA_PATH_BYTES(JOB_A_INPUTS), PAGE_BYTES = MIROKEFA_USUAL_PAGE_PATHS * PATH_BYTES };

static uint64_t memory[MIROKEFA_MEMORY_WORDS];
static uint64_t table[MIROKEFA_USUAL_TABLE_WORDS];
static uint8_t job[MIROKEFA_MOST_JOB_BYTES];
static uint8_t served_page[PAGE_BYTES];
static uint8_t explored_page[PAGE_BYTES];

static struct mirokefa_written write_job(void)
{
    return mirokefa_write(
        JOB_A, JOB_A_WORDS,
        memory, MIROKEFA_MEMORY_WORDS,
        JOB_A_BOX, 2 * JOB_A_INPUTS,
        JOB_A_LIMIT,
        FIRST_PATH,
        job, sizeof job);
}

static struct mirokefa_outcome explore(void)
{
    return mirokefa_explore(
        JOB_A, JOB_A_WORDS,
        memory, MIROKEFA_MEMORY_WORDS,
        JOB_A_BOX, 2 * JOB_A_INPUTS,
        JOB_A_LIMIT,
        table, MIROKEFA_USUAL_TABLE_WORDS,
        explored_page, sizeof explored_page,
        FIRST_PATH);
}

static int turned_away(uint64_t number)
{
    printf("turned away %" PRIu64 "\n", number);
    return 1;
}

int main(void)
{
    struct mirokefa_written written = write_job();
    if (written.refused != MIROKEFA_ACCEPTED)
        return turned_away(written.refused);
    struct mirokefa_outcome served = mirokefa_serve(job, written.bytes, served_page, sizeof served_page);
    if (served.refused != MIROKEFA_ACCEPTED)
        return turned_away(served.refused);
    struct mirokefa_outcome explored = explore();
    if (memcmp(&served, &explored, sizeof served) != 0 || memcmp(served_page, explored_page, PAGE_BYTES) != 0) {
        fprintf(stderr, "the job's paths differ from those explored\n");
        return 1;
    }
    for (size_t path = 0; path < served.count; path++)
        print_path(served_page + path * PATH_BYTES);
    return 0;
}
