/* Document 01's Job A, as jobs/job-a.s has it: read an input, and exit with 1 if it is below 10, otherwise with 0. */

#ifndef JOB_A_H
#define JOB_A_H

#include <stdint.h>

enum { JOB_A_WORDS = 8, JOB_A_INPUTS = 1, JOB_A_LIMIT = 100 };

static const uint32_t JOB_A[JOB_A_WORDS] = {
    0x03F00893, 0x00800613, 0x00000073, 0x00003283, 0x00A00313, 0x0062B533, 0x05D00893, 0x00000073,
};
static const uint64_t JOB_A_BOX[2 * JOB_A_INPUTS] = {0, 255};

#endif
