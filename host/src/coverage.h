/* Counts of what the cases of a fuzz run reached, taken by walking them through the model. */
#ifndef COVERAGE_H
#define COVERAGE_H

#include "generate.h"
#include "model.h"

/* What the model answered to the run and to the search, to saves and to loads, and to draw lists. */
struct case_answers {
    uint64_t run, search;
    struct model_answer saves[CASE_SAVED], loads[CASE_SAVED], lists[CASE_LISTS];
};

/* Walks the case's run; its image and memories are changed on the way. */
void coverage_add(struct test_case *c, const struct case_answers *answers);

/* Prints the tables and, last, what was reached of what can be. */
void coverage_print(void);

/* What the cases did not reach of what can be, in one sentence; a null pointer if they reached all. */
const char *coverage_missing(void);

#endif
