/*
 * The named cases of operation 6, "the larger of" (02, Q-9): read and run in
 * version 1, refused with 18 in version 2 and by the writer.
 */
#ifndef LARGER_CASES_H
#define LARGER_CASES_H

#include "named_cases.h"

extern const struct named_case larger_cases[];
extern const uint32_t larger_case_count;

#endif
