/* Reports printed through the library's border, as the course server does it: Job A's report and some like it, on sheets of every length,
 * and with every refusal. Prints nothing; every byte lent, and between what is lent, is compared. */

#define CALLER "sheets"
#include "lending.h"

enum { LINE_BYTES = MIROKEFA_LINE_BYTES, MOST_PATHS = 2, MOST_LINES = 10 };

/* All that calls lend, each part behind a margin; there is room for sheets that are too long. */
struct room {
    uint8_t report[MARGIN + MOST_PATHS * PATH_BYTES + MARGIN];
    uint8_t sheet[MARGIN + MOST_LINES * LINE_BYTES + MARGIN];
};

/* What a call lends; a field is changed to lend it wrongly. */
struct call {
    uint64_t inputs;
    const uint8_t *report;
    size_t report_bytes;
    uint8_t *sheet;
    size_t sheet_bytes;
};

static struct room lent;
static struct room expected;

/* Job A's code with ADD of the input to itself in place of SLTU. */
static const uint32_t ADDED[JOB_A_WORDS] = {
    0x03F00893, 0x00800613, 0x00000073, 0x00003283, 0x00A00313, 0x00528533, 0x05D00893, 0x00000073,
};

static const char JOB_A_SHEET[] =
    "                   0                      1                       0     \n"
    "                   0                      0                       9     \n"
    "                   1                      1                       0     \n"
    "                   0                     10                     255     \n";

static const char TWO_INPUTS_SHEET[] =
    "                   0                      1                       0     \n"
    "                   0                      0                       9     \n"
    "                   1                      3                       7     \n"
    "                   1                      1                       0     \n"
    "                   0                     10                     255     \n"
    "                   1                      3                       7     \n";

static const char ADDED_SHEET[] =
    "                   0                      8                       1     \n"
    "                   0                      0    18446744073709551615     \n";

static const char EIGHT_INPUTS_SHEET[] =
    "                   0                      1                       0     \n"
    "                   0                      0                       9     \n"
    "                   1   18446744073709551615    18446744073709551615     \n"
    "                   2                      0                       0     \n"
    "                   3                      0                       0     \n"
    "                   4                      0                       0     \n"
    "                   5                      0                       0     \n"
    "                   6                      0                       0     \n"
    "                   7                     10              1234567890     \n";

/* Writes paths to the report; the call lends them with a sheet of so many bytes. */
static struct call call_of(const uint32_t *code, const uint64_t *box, uint64_t inputs, uint64_t paths, size_t sheet_bytes)
{
    struct call call = {
        .inputs = inputs,
        .report = lent.report + MARGIN, .report_bytes = paths * PATH_BYTES,
        .sheet = lent.sheet + MARGIN, .sheet_bytes = sheet_bytes,
    };
    explore_code(code, box, inputs, JOB_A_LIMIT, lent.report + MARGIN, paths);
    return call;
}

static struct call job_a(void)
{
    return call_of(JOB_A, JOB_A_BOX, JOB_A_INPUTS, 2, 4 * LINE_BYTES);
}

/* Makes the call; beside the text expected, nothing is changed. */
static void makes(const struct call *c, uint64_t number, const char *text, const char *what)
{
    memset(lent.sheet, FILL, sizeof lent.sheet);
    memcpy(&expected, &lent, sizeof lent);
    memcpy(expected.sheet + MARGIN, text, strlen(text));
    uint64_t found = mirokefa_sheet(c->inputs, c->report, c->report_bytes, c->sheet, c->sheet_bytes);
    require(found == number, what);
    require(memcmp(&lent, &expected, sizeof lent) == 0, what);
}

static void prints(const struct call *call, const char *text, const char *what)
{
    require(mirokefa_sheet_bytes(call->inputs, call->report_bytes) == strlen(text), what);
    makes(call, MIROKEFA_ACCEPTED, text, what);
}

static void refuses(const struct call *call, uint64_t number, const char *what)
{
    makes(call, number, "", what);
}

static void sheets_of_reports(void)
{
    static const uint64_t eight[2 * MIROKEFA_MOST_INPUTS] = {0, 9, UINT64_MAX, UINT64_MAX, [14] = 10, [15] = 1234567890};
    static const uint64_t whole[2] = {0, UINT64_MAX};
    struct call call = job_a();
    prints(&call, JOB_A_SHEET, "Job A has another sheet");
    call.report += PATH_BYTES, call.report_bytes = PATH_BYTES;
    prints(&call, JOB_A_SHEET + 2 * LINE_BYTES, "Job A's last path has another sheet");
    call = call_of(JOB_A, TWO_INPUTS, 2, 2, 6 * LINE_BYTES);
    prints(&call, TWO_INPUTS_SHEET, "paths of two inputs have another sheet");
    call = call_of(ADDED, whole, 1, 1, 2 * LINE_BYTES);
    prints(&call, ADDED_SHEET, "a path with a reason has another sheet");
    call = call_of(JOB_A, eight, MIROKEFA_MOST_INPUTS, 1, 9 * LINE_BYTES);
    prints(&call, EIGHT_INPUTS_SHEET, "a path of eight inputs has another sheet");
}

/* A shorter sheet is refused, and a longer one keeps its rest. */
static void every_sheet_length(void)
{
    struct call call = job_a();
    for (size_t length = 0; length <= MOST_LINES * LINE_BYTES; length++) {
        call.sheet_bytes = length;
        if (length < 4 * LINE_BYTES)
            refuses(&call, MIROKEFA_REFUSED_SHEET, "a sheet that is too short is not refused with 14");
        else
            prints(&call, JOB_A_SHEET, "a longer sheet is not accepted, or has another text");
    }
}

/* Beside Job A's report there is a sheet of its length. */
static void refuses_report(uint64_t inputs, size_t report_bytes, const char *what)
{
    struct call call = {inputs, lent.report + MARGIN, report_bytes, lent.sheet + MARGIN, 4 * LINE_BYTES};
    refuses(&call, MIROKEFA_REFUSED_RECORDS, what);
}

/* The no of a sheet comes behind those of the report. */
enum { SHORT = REPORT_NOES, NOES };

static struct call call_with(unsigned noes)
{
    struct call call = call_of(JOB_A, TWO_INPUTS, 2, 2, 6 * LINE_BYTES);
    spoil_report(noes, lent.report + MARGIN, &call.inputs, &call.report_bytes);
    if (noes >> SHORT & 1)
        call.sheet_bytes--;
    return call;
}

static void every_set_of_noes(void)
{
    for (unsigned noes = 1; noes < 1u << NOES; noes++) {
        struct call call = call_with(noes);
        refuses(&call, number_of(noes, MIROKEFA_REFUSED_SHEET), "the first no does not decide");
    }
}

/* With 0 elements a pointer may be null. */
static void nothing_lent(void)
{
    struct call call = {.inputs = 1};
    prints(&call, "", "no path and no sheet are not accepted");
    call.inputs = 0;
    refuses(&call, MIROKEFA_REFUSED_RECORDS, "nothing at all is not refused with 12");
    call = job_a();
    call.report = NULL, call.report_bytes = 0;
    prints(&call, "", "a sheet is written where there is no path");
    call = job_a();
    call.sheet = NULL, call.sheet_bytes = 0;
    refuses(&call, MIROKEFA_REFUSED_SHEET, "a report without a sheet is not refused with 14");
    lent.report[MARGIN] ^= 1;
    refuses(&call, MIROKEFA_REFUSED_RECORDS, "a wrong report without a sheet is not refused with 12");
}

/* 15 lines of 73 bytes for a path of 1,024 do not fit for the longest reports. */
static void lengths(void)
{
    static const struct { uint64_t inputs; size_t report_bytes, length; } known[] = {
        {0, 0, 0}, {1, PATH_BYTES - 1, 0}, {0, PATH_BYTES, LINE_BYTES}, {8, 3 * PATH_BYTES + 1, 27 * LINE_BYTES},
        {9, PATH_BYTES, 10 * LINE_BYTES}, {8, SIZE_MAX, SIZE_MAX / PATH_BYTES * 9 * LINE_BYTES},
        {13, SIZE_MAX, SIZE_MAX / PATH_BYTES * 14 * LINE_BYTES}, {14, SIZE_MAX, SIZE_MAX},
        {UINT64_MAX, PATH_BYTES - 1, 0}, {UINT64_MAX, PATH_BYTES, SIZE_MAX}, {UINT64_MAX, SIZE_MAX, SIZE_MAX},
    };
    for (size_t k = 0; k < sizeof known / sizeof *known; k++)
        require(mirokefa_sheet_bytes(known[k].inputs, known[k].report_bytes) == known[k].length, "a sheet has another length");
}

int main(void)
{
    memset(&lent, FILL, sizeof lent);
    sheets_of_reports();
    every_sheet_length();
    refuse_reports(lent.report + MARGIN);
    every_set_of_noes();
    nothing_lent();
    lengths();
    return 0;
}
