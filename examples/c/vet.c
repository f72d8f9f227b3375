/* Can "viewing" and "not yet settled" hold together? The question that the desk was built for, on a counter of 16 bits. */
#include <inttypes.h>
#include <stdio.h>

#include "branchmetal.h"

/* Below 64 bits how many words fit is one number; a free word of 64 bits has 2^64 of them, which two numbers say. */
static uint64_t below_64_bits(const branchmetal_counted *words)
{
    return (words->quotient << 32) + words->remainder;
}

/* The power came on at tick 65000, and the panel settles in 1000 ticks. It has been viewing from tick 65200 to tick 200 after the wrap. */
static const branchmetal_rule rules[] = {
    {8, 1, 65000, 1000}, /* not yet settled: negated form 8 */
    {3, 0, 336, 536},    /* viewing: x + 336 <= 536, a sum that wraps, so x is from 65200 through 65535 and 0 to 200 */
};

enum { COUNT = sizeof rules / sizeof rules[0] };

int main(void)
{
    uint64_t links[BRANCHMETAL_ROOM(COUNT)];
    branchmetal_vetted answer;
    branchmetal_counted words;
    uint64_t refused = branchmetal_vet(16, BRANCHMETAL_OLD, rules, COUNT, links, BRANCHMETAL_ROOM(COUNT), &answer);

    if (refused) {
        fprintf(stderr, "refused with %" PRIu64, refused);
        if (answer.place < COUNT)
            fprintf(stderr, ", at rule %" PRIu64, answer.place);
        fputc('\n', stderr);
        return 1;
    }
    if (answer.verdict == BRANCHMETAL_NONE) {
        puts("no tick is both");
        for (uint64_t i = 0; i < answer.links; i++)
            printf("%" PRIu64 " to %" PRIu64 " fail %" PRIu64 "\n", links[3 * i], links[3 * i + 1], links[3 * i + 2]);
        return 0;
    }
    refused = branchmetal_count(16, BRANCHMETAL_OLD, rules, COUNT, &words);
    if (refused) {
        fprintf(stderr, "the count is refused with %" PRIu64 "\n", refused);
        return 1;
    }
    printf("%" PRIu64 " ticks are both: the smallest is %" PRIu64 ", the largest %" PRIu64 "\n",
           below_64_bits(&words), answer.smallest, answer.largest);
    return 0;
}
