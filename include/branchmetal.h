/* Branchmetal for C: which words meet a list of rules, and why none does.
 *
 * Link target/staticlib/libbranchmetal.a, which `./library` makes, for Linux on x86-64. It needs nothing but memcpy and
 * memset, keeps nothing between calls and allocates nothing. In the tree docs/LIBRARY.md has more.
 *
 * Every function takes any numbers, always returns and, but for blanking, answers 0 or the number of a refusal. Each names its refusals in
 * the order in which they are looked at: where several apply, the first is given. In the tree docs/FRAMES.md says what each number
 * means. What each function promises is proved, of the numbers. What nobody proves is owed by the caller:
 *   - a pointer points to as many numbers as its type or the length beside it says, and is aligned to 8 bytes. Where the length is 0 the
 *     pointer may be null; no other may;
 *   - what is written (each pointer that is not const) overlaps nothing else that is handed to the same call;
 *   - while a call runs, no other thread writes what it reads, or reads or writes what it writes. Calls on memory of their own may run in
 *     any number of threads at once;
 *   - a call has some tens of kilobytes of stack.
 */
#ifndef BRANCHMETAL_H
#define BRANCHMETAL_H

#include <stddef.h>
#include <stdint.h>

#ifdef __cplusplus
extern "C" {
#endif

/* The editions: words of 1 to 32 bits, or of 1 to 64. Any number but 0 is the new one. */
#define BRANCHMETAL_OLD 0
#define BRANCHMETAL_NEW 1

/* The verdicts. */
#define BRANCHMETAL_NONE 0
#define BRANCHMETAL_ONE 1
#define BRANCHMETAL_MANY 2

/* The most rules that a sheet takes. Of a longer list one rule more is looked at, and it is refused: with 3, 4 or 5 where no sheet takes it,
 * else with 6. */
#define BRANCHMETAL_RULES 200

/* A chain has three numbers a link: from, to, and why the words between fail, the number of a rule or BRANCHMETAL_BITS. This many
 * numbers are room for the chain of n rules; with fewer, vetting is refused with 9. */
#define BRANCHMETAL_ROOM(n) (3 * (4 * (size_t)(n) + 1))
#define BRANCHMETAL_BITS 255

/* A rule: a form from 1 to 8, a sense (0 as written, 1 negated) and two constants. Sums are modulo 2^width, and s() reads a word as a signed
 * number: 1, c1 + x <= c2 + x; 2, c1 <= c2 + x; 3, c1 + x <= c2; 4, s(x) <= s(c1); 5, s(c1) <= s(x); 6, x = c1; 7, x AND c1 = c2, sense 0
 * alone; 8, settled: c2 <= x - c1 and x - c1 < 2^(width - 1). Forms 4, 5 and 6 have c2 0. */
typedef struct {
    uint64_t form, sense, c1, c2;
} branchmetal_rule;

/* Whether a word meets a rule: *meets becomes 1 or 0. Refused, with *meets 0: 2, a width outside 1 to 64; 3, 4 and 5, a rule that no
 * sheet takes; 5, a word above the top word. */
uint64_t branchmetal_meets(uint64_t width, const branchmetal_rule *rule, uint64_t word, uint64_t *meets);

/* In the answers below `place` is the place of the rule that was refused, from 0 on. Where no rule was, it is `count`, the length of the
 * list: so a 5 for a start that is too large is told from one for a rule. A refusal leaves zeros in the other places. */
typedef struct {
    uint64_t verdict, smallest, largest, links, place;
} branchmetal_vetted;

/* Which words meet all rules: none, one or many, with the smallest and the largest of them; for none, the chain that shows it is written
 * to `links`, three numbers a link, and the numbers after it stay as they were. Refused, with `links` as it was: 2, a width that
 * the edition has not; 3, 4, 5 and 6, a rule; 9, room for fewer than BRANCHMETAL_ROOM(count) numbers. */
uint64_t branchmetal_vet(uint64_t width, uint64_t edition, const branchmetal_rule *rules, size_t count, uint64_t *links, size_t room,
                         branchmetal_vetted *answer);

typedef struct {
    uint64_t accepted, place;
} branchmetal_checked;

/* Whether a chain, whoever made it, shows that no word meets all rules: `accepted` becomes 1 or 0. `numbers` counts numbers, three a link;
 * none at all, or a number that is no multiple of three, is not accepted. Refused: 2; 3 to 6, a rule. */
uint64_t branchmetal_check(uint64_t width, uint64_t edition, const branchmetal_rule *rules, size_t count, const uint64_t *links,
                           size_t numbers, branchmetal_checked *answer);

typedef struct {
    uint64_t quotient, remainder, place;
} branchmetal_counted;

/* How many words meet all rules: quotient * 2^32 + remainder, for a free word of 64 bits has 2^64. Refused: 2; 3 to 6, a rule. */
uint64_t branchmetal_count(uint64_t width, uint64_t edition, const branchmetal_rule *rules, size_t count, branchmetal_counted *answer);

typedef struct {
    uint64_t written, place;
} branchmetal_listed;

/* The words from `start` upward that meet all rules, in rising order and with none left out, as many as `words` has room for; the numbers
 * after them stay as they were. Refused, with `words` as it was: 2; 3 to 6, a rule; 5, a start above the top word. */
uint64_t branchmetal_list(uint64_t width, uint64_t edition, const branchmetal_rule *rules, size_t count, uint64_t start, uint64_t *words,
                          size_t room, branchmetal_listed *answer);

/* The kinds of a gate on a reading of watts: at least the low limit, at most the high one, or from the one to the other, ends included.
 * Any number but 0 and 1 is the last. */
#define BRANCHMETAL_AT_LEAST 0
#define BRANCHMETAL_AT_MOST 1
#define BRANCHMETAL_WITHIN 2

/* The four rules of a gate, over the 32 bits of a single-precision reading: a word meets them all exactly when its value meets the gate.
 * `low` and `high` are the bits of the limits; the one that the kind does not name is not read. Refused, with `rules` as it was: 14, a
 * limit that is not a number. */
uint64_t branchmetal_gate_rules(uint64_t kind, uint32_t low, uint32_t high, branchmetal_rule rules[4]);

/* What joins words: h is NOT x, or x AND y, x OR y, x XOR y. Any number but 0, 1 and 2 is the last. */
#define BRANCHMETAL_NOT 0
#define BRANCHMETAL_AND 1
#define BRANCHMETAL_OR 2
#define BRANCHMETAL_XOR 3

typedef struct {
    uint64_t low, high;
} branchmetal_interval;

/* The intervals of h, x and y, in this order. That of h is cut to the span from the smallest to the largest result that x and y give. For NOT
 * and XOR those of x and y are cut in the same way by the inverse operation; for AND and OR they stay. Every cut reads the intervals as
 * given; a NOT's y is not read. *empty becomes 1 where a cut is empty, and the intervals then stay as they came, else 0. Refused, with
 * *empty 0 and the intervals as they came: 2, a width outside 1 to 64; 5, a bound above the top word; 15, a low end above the high one. */
uint64_t branchmetal_join(uint64_t width, uint64_t op, branchmetal_interval words[3], uint64_t *empty);

/* A join of a net: what joins, and the places of h, x and y among its words. */
typedef struct {
    uint64_t op, h, x, y;
} branchmetal_joined;

/* How a run of a net ends: with an empty cut; with as many steps in a row as there are joins that changed nothing; or with the steps spent.
 * Where a step meets two of these the earlier is answered. A net without joins is steady at 0 steps. */
#define BRANCHMETAL_EMPTY 0
#define BRANCHMETAL_STEADY 1
#define BRANCHMETAL_SPENT 2

typedef struct {
    uint64_t ended, steps;
} branchmetal_ran;

/* Cuts the intervals of up to 16 words by up to 32 joins, one join a step, in order, round and round, for at most `pay` steps. No assignment
 * inside the given intervals that satisfies all joins is lost. `steps` says how many were used; one that ends with an empty cut is counted, and
 * leaves the intervals from before it. Refused, with zeros and the intervals as they came: 16, too many words or joins, or a join that names
 * a word that is not there (a NOT's y is not read); then 2, 5 and 15, as a join is. */
uint64_t branchmetal_net(uint64_t width, branchmetal_interval *words, size_t count, const branchmetal_joined *joins, size_t many, uint64_t pay,
                         branchmetal_ran *answer);

/* A sheet that the caller keeps between calls: nothing of it is for the caller to read or write but through the calls below. It is plain
 * memory: it may be copied, stored and moved. A sheet that is all zeros is the blank one. Memory that was spoiled gets 17 from every call
 * that reads it, and stays as it was; opening and blanking do not read it. */
typedef struct {
    uint64_t numbers[841];
} branchmetal_sheet;

/* The blank sheet, on which nothing is open. */
void branchmetal_sheet_blank(branchmetal_sheet *sheet);

/* Opens a sheet for a word of this width, without rules or marks; what was on it is discarded. Refused, with the sheet as it was: 2, a width
 * that the edition has not. */
uint64_t branchmetal_sheet_open(branchmetal_sheet *sheet, uint64_t width, uint64_t edition);

/* Adds a rule, numbered from 0 in the order added; what waits is discarded. Refused, with the sheet as it was: 17; 1, the blank sheet; 11, a
 * sheet of the other edition; 3, 4 and 5, the rule; 6, 200 rules in force. */
uint64_t branchmetal_sheet_add(branchmetal_sheet *sheet, uint64_t edition, const branchmetal_rule *rule);

/* Sets a mark; what waits is discarded. Refused, with the sheet as it was: 17; 1; 7, 32 marks in force. */
uint64_t branchmetal_sheet_mark(branchmetal_sheet *sheet);

/* Goes back to the newest mark: the mark and the rules added after it are struck, and wait to come back. Refused, with the sheet as it was:
 * 17; 1; 8, no mark in force. */
uint64_t branchmetal_sheet_back(branchmetal_sheet *sheet);

/* Brings back what was most recently struck and waits. Refused, with the sheet as it was: 17; 1; 12, nothing waits. */
uint64_t branchmetal_sheet_forward(branchmetal_sheet *sheet);

/* Adds the four rules of a gate to a sheet of width 32, or none of them; what waits is discarded. Refused, with the sheet as it was: 17; 1;
 * 13, another width; 14, a limit that is not a number; 6, fewer than four places free. */
uint64_t branchmetal_sheet_gate(branchmetal_sheet *sheet, uint64_t kind, uint32_t low, uint32_t high);

typedef struct {
    uint64_t verdict, smallest, largest, links;
} branchmetal_asked;

/* Which words meet all rules in force, as branchmetal_vet says it of a list. Refused, with zeros and `links` as it was: 17; 1; 9, too little
 * room. */
uint64_t branchmetal_sheet_ask(const branchmetal_sheet *sheet, uint64_t *links, size_t room, branchmetal_asked *answer);

typedef struct {
    uint64_t quotient, remainder;
} branchmetal_shared;

/* How many words meet them, as branchmetal_count. Refused, with zeros: 17; 1. */
uint64_t branchmetal_sheet_count(const branchmetal_sheet *sheet, branchmetal_shared *answer);

/* Which words meet them from `start` upward, as branchmetal_list; *written says how many were written. Refused, with 0 and `words` as it was:
 * 17; 1; 5, a start above the top word. */
uint64_t branchmetal_sheet_list(const branchmetal_sheet *sheet, uint64_t start, uint64_t *words, size_t room, uint64_t *written);

#ifdef __cplusplus
}
#endif

#endif
