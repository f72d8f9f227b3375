/* Work for the library, to take the time of, at 64 bits: `library meets N` holds N words to rules of the eight forms in turn; `library vet N` vets
 * N times a list of as many rules as a sheet takes, which tile the wheel, so that each answer is none with a chain; `library keep N` marks,
 * adds a rule and goes back N times on a kept sheet with one place free. `library vet-lines N` and `library keep-lines N` print the desk's
 * lines for the last two. Each prints how many words met their rule, or how many links or acceptances there were, as the desk's answers have them. */
#include <inttypes.h>
#include <stdio.h>
#include <stdlib.h>
#include <string.h>

#include "branchmetal.h"

enum { WIDTH = 64 };

static branchmetal_rule rules[BRANCHMETAL_RULES];

static const branchmetal_rule last = {6, 1, 12345, 0};

static void lay(void) {
    const uint64_t part = UINT64_MAX / BRANCHMETAL_RULES + 1;
    for (uint64_t i = 0; i < BRANCHMETAL_RULES; i++)
        rules[i] = (branchmetal_rule){3, 1, 0 - i * part, part - 1};
}

static uint64_t meets(uint64_t times) {
    uint64_t met = 0;
    for (uint64_t i = 0; i < times; i++) {
        uint64_t form = i % 8 + 1, yes;
        /* Forms 4 to 6 use one constant, and the value of form 7 lies in its mask. */
        branchmetal_rule rule = {form, 0, 5, form == 7 ? 1 : form >= 4 && form <= 6 ? 0 : 1000};
        if (branchmetal_meets(WIDTH, &rule, i * 0x9e3779b97f4a7c15u, &yes) != 0) abort();
        met += yes;
    }
    return met;
}

static uint64_t vet(uint64_t times) {
    static uint64_t chain[BRANCHMETAL_ROOM(BRANCHMETAL_RULES)];
    uint64_t links = 0;
    for (uint64_t i = 0; i < times; i++) {
        branchmetal_vetted answer;
        branchmetal_vet(WIDTH, BRANCHMETAL_NEW, rules, BRANCHMETAL_RULES, chain, sizeof chain / sizeof *chain, &answer);
        links += answer.links;
    }
    return links;
}

static uint64_t keep(uint64_t times) {
    static branchmetal_sheet sheet;
    uint64_t accepted = branchmetal_sheet_open(&sheet, WIDTH, BRANCHMETAL_NEW) == 0;
    for (int i = 0; i < BRANCHMETAL_RULES - 1; i++)
        accepted += branchmetal_sheet_add(&sheet, BRANCHMETAL_NEW, &rules[i]) == 0;
    for (uint64_t i = 0; i < times; i++) {
        accepted += branchmetal_sheet_mark(&sheet) == 0;
        accepted += branchmetal_sheet_add(&sheet, BRANCHMETAL_NEW, &last) == 0;
        accepted += branchmetal_sheet_back(&sheet) == 0;
    }
    return accepted;
}

static void add_lines(const branchmetal_rule *from, int count) {
    for (int i = 0; i < count; i++)
        printf("12%02" PRIx64 "%02" PRIx64 "%016" PRIx64 "%016" PRIx64 "\n", from[i].form, from[i].sense, from[i].c1, from[i].c2);
}

static void vet_lines(uint64_t times) {
    for (uint64_t i = 0; i < times; i++) {
        printf("11%02x\n", WIDTH);
        add_lines(rules, BRANCHMETAL_RULES);
        puts("05");
    }
}

static void keep_lines(uint64_t times) {
    printf("11%02x\n", WIDTH);
    add_lines(rules, BRANCHMETAL_RULES - 1);
    for (uint64_t i = 0; i < times; i++) {
        puts("03");
        add_lines(&last, 1);
        puts("04");
    }
}

int main(int count, char **words) {
    if (count != 3) return 2;
    uint64_t times = strtoull(words[2], NULL, 10);
    lay();
    if (!strcmp(words[1], "vet-lines"))
        vet_lines(times);
    else if (!strcmp(words[1], "keep-lines"))
        keep_lines(times);
    else if (!strcmp(words[1], "meets"))
        printf("%" PRIu64 "\n", meets(times));
    else if (!strcmp(words[1], "vet"))
        printf("%" PRIu64 "\n", vet(times));
    else if (!strcmp(words[1], "keep"))
        printf("%" PRIu64 "\n", keep(times));
    else
        return 2;
    return 0;
}
