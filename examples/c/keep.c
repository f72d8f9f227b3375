/* A sheet that is kept: spans of viewing tried one after another against "not yet settled", each struck again by a step back to the mark. */
#include <inttypes.h>
#include <stdio.h>

#include "branchmetal.h"

/* The power came on at tick 65000 of a counter of 16 bits, and the panel settles in 1000 ticks. */
static const branchmetal_rule unsettled = {8, 1, 65000, 1000};

/* From one tick through another, past the wrap or not: x - from <= to - from, a difference that wraps. */
static branchmetal_rule viewing(uint16_t from, uint16_t to)
{
    branchmetal_rule rule = {3, 0, (uint16_t)-from, (uint16_t)(to - from)};
    return rule;
}

int main(void)
{
    static const uint16_t spans[][2] = {{65200, 200}, {500, 800}};
    branchmetal_sheet sheet;
    branchmetal_shared both; /* two numbers, since a free word of 64 bits has 2^64 fits; at 16 bits they make one */
    uint64_t refused = branchmetal_sheet_open(&sheet, 16, BRANCHMETAL_OLD);

    refused = refused ? refused : branchmetal_sheet_add(&sheet, BRANCHMETAL_OLD, &unsettled);
    for (size_t i = 0; !refused && i < sizeof spans / sizeof spans[0]; i++) {
        branchmetal_rule span = viewing(spans[i][0], spans[i][1]);
        refused = branchmetal_sheet_mark(&sheet);
        refused = refused ? refused : branchmetal_sheet_add(&sheet, BRANCHMETAL_OLD, &span);
        refused = refused ? refused : branchmetal_sheet_count(&sheet, &both);
        refused = refused ? refused : branchmetal_sheet_back(&sheet);
        if (!refused)
            printf("%u to %u: %" PRIu64 " ticks are both\n", spans[i][0], spans[i][1], (both.quotient << 32) + both.remainder);
    }
    if (refused)
        fprintf(stderr, "refused with %" PRIu64 "\n", refused);
    return refused != 0;
}
