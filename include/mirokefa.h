/* The interval path explorer for RISC-U: the functions of libmirokefa_c.a for C and C++.
 *
 * A program is explored over a box of inputs, one interval for each. The paths of the listing are
 * written to a report, a page at a time. docs/NUMBERS.md explains every number in words. */

#ifndef MIROKEFA_H
#define MIROKEFA_H

#include <stddef.h>
#include <stdint.h>

#ifdef __cplusplus
extern "C" {
#endif

/* ---- Sizes ---- */

#define MIROKEFA_MOST_CODE_WORDS 1024   /* the code has 1 to so many words of 32 bits */
#define MIROKEFA_MOST_INPUTS 8          /* a box has 0 to so many inputs, two interval words each */
#define MIROKEFA_MOST_STEPS 65536       /* the step limit is 1 to so many */
#define MIROKEFA_MEMORY_WORDS 512       /* memory has exactly so many words of 64 bits */
#define MIROKEFA_ENTRY_WORDS 8          /* table words that make one trace entry */
#define MIROKEFA_BLOCK_WORDS 64         /* words of 64 bits in a block, the last one its check */
#define MIROKEFA_BLOCK_BYTES 512        /* bytes of a block */
#define MIROKEFA_MOST_BLOCKS 19         /* a job has 1 to so many blocks */
#define MIROKEFA_MOST_JOB_BYTES 9728    /* bytes of the longest job */
#define MIROKEFA_PATH_BYTES(inputs) 1024 /* bytes of a path in the report, by the input count: two blocks for up to 8 */
#define MIROKEFA_PATH_NUMBERS (UINT64_C(1) << 32) /* the first path wanted is below this */
#define MIROKEFA_MOST_ROWS 1024         /* a call places 0 to so many rows */
#define MIROKEFA_LINE_BYTES 73          /* bytes of a line on a sheet: 72 columns and a line feed */
#define MIROKEFA_MOST_COUNTED_PATHS 64  /* a job whose choices are counted has at most so many paths */
#define MIROKEFA_KIND_PLACES 10         /* a place for each number of a kind, and 0 */

/* The table and the page of the course's program; a larger table follows longer paths. */
#define MIROKEFA_USUAL_TABLE_WORDS 8192
#define MIROKEFA_USUAL_PAGE_PATHS 64

/* ---- Refusals ---- */

/* The first question with the answer no decides. mirokefa_explore asks 1 to 8 in this order;
 * mirokefa_serve asks 9, 10, 1, 2, 3, 4, 6, 8 and 11 of the job, and then 7; mirokefa_place asks 12
 * and then 13, mirokefa_sheet 12 and then 14; mirokefa_count asks what mirokefa_serve asks of the
 * job, and then 15 and 16; mirokefa_write asks 1, 2, 3, 4, 6 and 8, and then 14. A refused call
 * reports no path and changes nothing lent. */
enum mirokefa_refusal {
    MIROKEFA_ACCEPTED = 0,
    MIROKEFA_REFUSED_CODE = 1,      /* the code is not 1 to 1,024 words */
    MIROKEFA_REFUSED_INPUTS = 2,    /* the intervals are not whole pairs, or of more than 8 inputs */
    MIROKEFA_REFUSED_ORDER = 3,     /* an interval's low is above its high */
    MIROKEFA_REFUSED_LIMIT = 4,     /* the step limit is not 1 to 65,536 */
    MIROKEFA_REFUSED_TABLE = 5,     /* the table has fewer than 8 words */
    MIROKEFA_REFUSED_MEMORY = 6,    /* memory is not exactly 512 words */
    MIROKEFA_REFUSED_REPORT = 7,    /* the report is empty or not a multiple of 1,024 bytes */
    MIROKEFA_REFUSED_FIRST = 8,     /* the first path wanted is not below 2^32 */
    MIROKEFA_REFUSED_BLOCKS = 9,    /* the job is not 1 to 19 whole blocks */
    MIROKEFA_REFUSED_CHECK = 10,    /* the check of a block of the job does not agree */
    MIROKEFA_REFUSED_FORM = 11,     /* word 0 of the job is not 1, its blocks are too few or too many, or an unused word is not 0 */
    MIROKEFA_REFUSED_RECORDS = 12,  /* the input count is not 1 to 8, the report is not whole records of that count, a record has another
                                       count, or the check of a block does not agree */
    MIROKEFA_REFUSED_ROWS = 13,     /* the rows are not whole or more than 1,024, or there is not one answer for each */
    MIROKEFA_REFUSED_SPACE = 14,    /* the lent space is shorter than what is to be written: a sheet's text, a job */
    MIROKEFA_REFUSED_SHEET = 14,    /* the same number by its first name */
    MIROKEFA_REFUSED_SIZE = 15,     /* the starting box has 2^64 choices or more */
    MIROKEFA_REFUSED_PATHS = 16     /* the job has more than 64 paths */
};

/* ---- How a path ends ---- */

enum mirokefa_kind {
    MIROKEFA_EXIT = 1,              /* exit, with the value in register 10 */
    MIROKEFA_DIVISION_BY_ZERO = 2,  /* no longer given: DIVU by 0 gives 2^64 - 1, REMU by 0 the dividend */
    MIROKEFA_BAD_PC = 3,            /* pc not a multiple of 4 or beyond the code */
    MIROKEFA_BAD_WORD = 4,          /* the word is none of the fourteen instructions */
    MIROKEFA_BAD_ADDRESS = 5,       /* data address not a multiple of 8 or above 4,088 */
    MIROKEFA_BAD_CALL = 6,          /* no such call, or a read with wrong registers */
    MIROKEFA_STEP_LIMIT = 7,        /* the steps equal the limit */
    MIROKEFA_NOT_FOLLOWED = 8,      /* the engine does not follow it; the reason says why */
    MIROKEFA_TABLE_FULL = 9         /* the trace needs more entries than are left */
};

enum mirokefa_reason {
    MIROKEFA_BOTH_OPEN = 1,         /* both operands of ADD, SUB, MUL, SLTU or BEQ not fixed; SUB, SLTU and BEQ of one register
                                       twice are followed */
    MIROKEFA_MULTIPLIER = 2,        /* no longer given: MUL by any fixed number is followed */
    MIROKEFA_DIVISOR = 3,           /* no longer given: DIVU by any fixed number is followed */
    MIROKEFA_DIVISOR_OPEN = 4,      /* DIVU or REMU by a number that is not fixed */
    MIROKEFA_QUOTIENTS = 5,         /* MUL or REMU with quotients more than 1 apart */
    MIROKEFA_BASE_OPEN = 6,         /* base of LD, SD or JALR not fixed */
    MIROKEFA_CALL_OPEN = 7          /* register 17, or for a read 10, 11 or 12, not fixed */
};

/* ---- The report ---- */

/* A path is two blocks of little-endian words. These are places in the first block; further words
 * are 0, and so are the places of unused inputs. */
enum mirokefa_path_word {
    MIROKEFA_PATH_NUMBER = 0,       /* from 0, in the order of the listing */
    MIROKEFA_PATH_KIND = 1,
    MIROKEFA_PATH_PC = 2,
    MIROKEFA_PATH_STEPS = 3,        /* instructions completed */
    MIROKEFA_PATH_INPUT_COUNT = 4,
    MIROKEFA_PATH_LOWS = 5,         /* the lows of up to 8 inputs */
    MIROKEFA_PATH_HIGHS = 13,       /* their highs */
    MIROKEFA_PATH_EXIT_LOW = 21,    /* 0 unless the kind is 1 */
    MIROKEFA_PATH_EXIT_HIGH = 22,
    MIROKEFA_PATH_REASON = 23,      /* 0 unless the kind is 8 */
    MIROKEFA_PATH_INPUTS_READ = 24,
    MIROKEFA_BLOCK_CHECK = 63       /* start with 1; for each word: turn left by one bit, add the word */
};

/* Places in the second block, which begins with the path number too: low and high of register r,
 * 1 to 31. */
#define MIROKEFA_REGISTER_LOW(r) (2 * (r) - 1)
#define MIROKEFA_REGISTER_HIGH(r) (2 * (r))

/* ---- Calls ---- */

/* What a call answers. */
struct mirokefa_outcome {
    uint64_t refused;   /* 0 for an accepted call, otherwise the number of a refusal */
    uint64_t count;     /* the paths written to the report; 0 for a refused call */
    uint64_t more;      /* 1 if there is a path numbered first + count, otherwise 0 */
};

/* Explores a program and writes the paths of its listing from `first` on, as many as exist and fit.
 *
 * Each part is lent for the time of the call as a pointer and a number of elements. The pointer
 * must be good for so many elements and aligned for its type; with 0 elements it may be null.
 * The table and the report are written, and overlap nothing else lent.
 *
 * code       the program: word k has address 4k. Read only.
 * memory     the data words at addresses 0, 8, 16 and so on, as the program finds them. The program's
 *            stores are not seen here: memory stays as lent. Read only.
 * intervals  low, high, low, high: the box, with both ends included, in the order in which the
 *            program reads its inputs. Read only.
 * limit      a path that has completed so many steps ends with kind 7.
 * table      room for the trace, 8 words for an entry; a remainder makes none. May come with any
 *            content; after an accepted call the whole table is 0.
 * report     room for the paths, 1,024 bytes for each. Bytes beyond the paths written stay as lent.
 * first      the number of the first path wanted. Past the last path, the answer is count 0 and
 *            more 0. For the next page, ask for first + count. */
struct mirokefa_outcome mirokefa_explore(
    const uint32_t *code, size_t code_words,
    const uint64_t *memory, size_t memory_words,
    const uint64_t *intervals, size_t interval_words,
    uint64_t limit,
    uint64_t *table, size_t table_words,
    uint8_t *report, size_t report_bytes,
    uint64_t first);

/* The server's call: a job in blocks of 512 bytes in, a page of its paths out. The job's header gives
 * limit and first path; table and memory are the call's own.
 *
 * job        the header block, the code blocks, the memory blocks. Read only.
 * report     as for mirokefa_explore. It is written, and does not overlap the job. */
struct mirokefa_outcome mirokefa_serve(const uint8_t *job, size_t job_bytes, uint8_t *report, size_t report_bytes);

/* What mirokefa_place answers for a row that no path holds. */
#define MIROKEFA_NO_PATH UINT64_MAX

/* Which path does each row of inputs take? Returns 0; or the number of a refusal, and then writes no answer. Parts are lent as for
 * mirokefa_explore.
 *
 * inputs     how many inputs the report's paths have, 1 to 8; a row has a value for each.
 * report     a page without its unused bytes, MIROKEFA_PATH_BYTES(inputs) for each path; it may come from anywhere, and
 *            with 0 bytes it has no path. Read only.
 * rows       the values of the rows, one row behind the other. Read only.
 * answers    a word for each row: the number (word 0) of the first path in the report whose intervals hold the row, or
 *            MIROKEFA_NO_PATH; none of our own paths is numbered so. It overlaps nothing else lent. */
uint64_t mirokefa_place(
    uint64_t inputs,
    const uint8_t *report, size_t report_bytes,
    const uint64_t *rows, size_t row_words,
    uint64_t *answers, size_t answer_words);

/* How many bytes the sheet of a report takes, from the input count of its paths and the report's length alone: a line of
 * MIROKEFA_LINE_BYTES for each path, and one for each of its inputs. SIZE_MAX if that is no size_t; no sheet has that length. */
size_t mirokefa_sheet_bytes(uint64_t inputs, size_t report_bytes);

/* Prints a report. Returns 0; or the number of a refusal, and then writes nothing. Parts are lent as for mirokefa_explore.
 *
 * inputs     how many inputs the report's paths have, 1 to 8.
 * report     a page without its unused bytes, as for mirokefa_place. Read only.
 * sheet      room for the text, mirokefa_sheet_bytes(inputs, report_bytes) or more; bytes behind the text stay as lent. It
 *            overlaps nothing else lent.
 *
 * Each path is a line with its number, kind and reason (words 0, 1 and 23 of its first block), and then for each input, numbered
 * from 0, a line with this number, low and high. Each number is right-aligned in 20 columns, from columns 1, 24 and 48 on, counted
 * from 1; the rest are spaces. A line has 72 columns and a line feed. The text does not end with a zero byte. */
uint64_t mirokefa_sheet(
    uint64_t inputs,
    const uint8_t *report, size_t report_bytes,
    uint8_t *sheet, size_t sheet_bytes);

/* What mirokefa_count answers. Of a refused call every place but the number is 0. */
struct mirokefa_counts {
    uint64_t refused;   /* 0 for an accepted call, otherwise the number of a refusal */
    uint64_t used;      /* how many values there are */
    uint64_t values[MIROKEFA_MOST_COUNTED_PATHS];   /* the fixed exit values, each once, rising; 0 where unused */
    uint64_t choices[MIROKEFA_MOST_COUNTED_PATHS];  /* the choices on paths that exit with values[i]; 0 where unused */
    uint64_t varying;   /* the choices on paths whose exit value is not fixed */
    uint64_t kinds[MIROKEFA_KIND_PLACES];   /* at the number of each other kind, the choices on its paths; 0 at 0, 1 and 2 */
    uint64_t total;     /* the choices of the starting box; all the counts above add up to it */
};

/* How many choices of a job's inputs lead to each exit value, and to each other end? The job is explored as by mirokefa_serve,
 * and counted from path 0 whatever first path it names. A job without inputs has one choice.
 *
 * job        as for mirokefa_serve. Read only. */
struct mirokefa_counts mirokefa_count(const uint8_t *job, size_t job_bytes);

/* What mirokefa_write answers. */
struct mirokefa_written {
    uint64_t refused;   /* 0 for an accepted call, otherwise the number of a refusal */
    uint64_t bytes;     /* the bytes of the job that was written; 0 for a refused call */
};

/* Writes the job blocks of these values, which mirokefa_serve, mirokefa_count and the program read: the header, the code, and memory
 * without the zero words at its end, in as few blocks as hold them; what is unused in a block is 0. Jobs that give the reader the same
 * code, intervals, limit, first path and 512 memory words mean the same, and of all these exactly one is written so. Parts are lent as
 * for mirokefa_explore.
 *
 * code       as for mirokefa_explore. Read only.
 * memory     the 512 data words as the program finds them. Read only.
 * intervals  as for mirokefa_explore. Read only.
 * limit      the step limit.
 * first      the number of the first path wanted.
 * job        room for the job; MIROKEFA_MOST_JOB_BYTES are always enough, and bytes behind the job stay as lent. It overlaps nothing
 *            else lent. */
struct mirokefa_written mirokefa_write(
    const uint32_t *code, size_t code_words,
    const uint64_t *memory, size_t memory_words,
    const uint64_t *intervals, size_t interval_words,
    uint64_t limit,
    uint64_t first,
    uint8_t *job, size_t job_bytes);

#ifdef __cplusplus
}
#endif

#endif
