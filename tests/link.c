/* Compares the library with the desk. `draw SHEETS` writes frames that open and ask so many sheets of both editions; `answer` reads frames
 * and writes what the library says of lists of rules in the desk's own lines, so that the two can be compared byte for byte. For each sheet
 * that is asked the other calls are held to that answer and to each other. `calls LINES` writes so many drawn frames of every kind, and `keep`
 * reads them as `answer` does, with one sheet that is kept from the first to the last; that sheet is spoiled again and again, and what the
 * calls then do is held to 17. tests/link runs all four. */
#include <inttypes.h>
#include <stdio.h>
#include <stdlib.h>
#include <string.h>

#include "branchmetal.h"

static uint64_t state = 88172645463325252u;

/* A number below n, by a shift register of Marsaglia's: the same on every machine. */
static uint64_t below(uint64_t n)
{
    state ^= state << 13;
    state ^= state >> 7;
    state ^= state << 17;
    return state % n;
}

static uint64_t top_of(uint64_t width)
{
    return UINT64_MAX >> (64 - width);
}

/* A constant that is a word but for one in 64; half of them are small or close to the top, where words wrap. */
static uint64_t constant(uint64_t width)
{
    uint64_t top = top_of(width), word = state & top;
    below(2);
    if (below(2))
        word = below(2) ? top - below(4) % (top + (top != UINT64_MAX)) : below(4) & top;
    return below(64) || width == 64 ? word : word + top;
}

static void draw_opening(int new, uint64_t width)
{
    printf("%s%02" PRIx64 "\n", new ? "11" : "01", width);
}

static void draw_rule(int new, uint64_t width)
{
    int digits = new ? 16 : 8;
    uint64_t form = below(32) ? 1 + below(8) : below(16), sense = below(32) ? form != 7 && below(2) : below(4);
    uint64_t c1 = constant(width), c2 = form >= 4 && form <= 6 ? 0 : constant(width);
    uint64_t cut = new ? UINT64_MAX : UINT32_MAX;
    if (form == 7 && below(16))
        c2 &= c1;
    printf("%s%02" PRIx64 "%02" PRIx64 "%0*" PRIx64 "%0*" PRIx64 "\n", new ? "12" : "02", form, sense, digits, c1 & cut, digits, c2 & cut);
}

static uint64_t draw_width(int new)
{
    return below(16) ? 1 + below(new ? 64 : 32) : below(80);
}

/* The width that rules are drawn for: the sheet's, or where it has none some other. */
static uint64_t of_words(int new, uint64_t width)
{
    return width < 1 || width > (new ? 64 : 32) ? 8 : width;
}

static void draw(uint64_t sheets)
{
    for (uint64_t sheet = 0; sheet < sheets; sheet++) {
        int new = below(2);
        uint64_t width = draw_width(new), rules = below(12);
        draw_opening(new, width);
        for (uint64_t i = 0; i < rules; i++)
            draw_rule(new, of_words(new, width));
        puts("05");
    }
}

/* Calls one after another on one sheet: many adds, some of the other edition, marks and steps, and now and then an opening. Every so often
 * a full sheet, or as many marks as there are. */
static void calls(uint64_t lines)
{
    int new = 0;
    uint64_t width = 8, fill = 0;
    for (uint64_t line = 0; line < lines; line++) {
        uint64_t kind = fill ? fill-- % 8 ? 20 : 41 : below(64);
        if (kind < 2) {
            new = below(2);
            width = draw_width(new);
            draw_opening(new, width);
            fill = below(24) ? 0 : 260;
        } else if (kind < 30)
            draw_rule(below(24) ? new : !new, of_words(new, width));
        else
            puts(kind < 42 ? "03" : kind < 50 ? "04" : kind < 56 ? "06" : "05");
    }
}

static void wrong(const char *what, uint64_t line)
{
    printf("line %" PRIu64 ": %s\n", line, what);
    exit(1);
}

/* The sheet that the frames have made so far. */
static branchmetal_rule rules[BRANCHMETAL_RULES + 1];
static size_t count;
static uint64_t width, edition;
static uint64_t links[BRANCHMETAL_ROOM(BRANCHMETAL_RULES)];
static const size_t room = sizeof links / sizeof links[0];

static uint64_t field(const char **digits, int n)
{
    char part[17] = {0};
    memcpy(part, *digits, n);
    *digits += n;
    return strtoull(part, NULL, 16);
}

/* Holds the words of a narrow sheet to the answer, one by one, and to the listing. */
static void walk(const branchmetal_vetted *vetted, uint64_t counted, uint64_t line)
{
    static uint64_t listed[256];
    branchmetal_listed answer;
    uint64_t fitting = 0;
    if (branchmetal_list(width, edition, rules, count, 0, listed, 256, &answer) || answer.written != counted || answer.place != count)
        wrong("the listing has not as many words as the count", line);
    for (uint64_t x = 0; x <= top_of(width); x++) {
        uint64_t all = 1;
        for (size_t i = 0; i < count; i++) {
            uint64_t meets;
            if (branchmetal_meets(width, &rules[i], x, &meets))
                wrong("a word of the width is refused", line);
            all &= meets;
        }
        if (all && (fitting >= counted || listed[fitting] != x || x < vetted->smallest || x > vetted->largest))
            wrong("a word that meets all rules is not listed, or lies outside the answer", line);
        fitting += all;
    }
    if (fitting != counted)
        wrong("the count is not the number of words that meet all rules", line);
}

/* Whether the library takes the chain of the sheet, and says so of the whole list. */
static int taken(size_t numbers, uint64_t line)
{
    branchmetal_checked checked = {2, 2};
    if (branchmetal_check(width, edition, rules, count, links, numbers, &checked) || checked.accepted > 1 || checked.place != count)
        wrong("the check of a chain is refused, or has another place than the list's length", line);
    return checked.accepted != 0;
}

/* A chain is taken, and not one that misses the top word, has a reason that is no rule, or lacks a number. */
static void check(const branchmetal_vetted *vetted, uint64_t line)
{
    size_t numbers = 3 * vetted->links;
    if (taken(numbers, line) != (vetted->verdict == 0))
        wrong("the chain is not accepted, or an empty one is", line);
    if (!numbers)
        return;
    links[numbers - 2] -= 1;
    if (taken(numbers, line))
        wrong("a chain that misses the top word is accepted", line);
    links[numbers - 2] += 1;
    links[2] ^= 128;
    if (taken(numbers, line))
        wrong("a chain with a reason that no rule has is accepted", line);
    links[2] ^= 128;
    if (taken(numbers - 1, line))
        wrong("a chain that lacks a number is accepted", line);
}

/* At any width: what meets the last rule and what fails it are together what the rules before it leave. */
static void part(const branchmetal_counted *counted, uint64_t line)
{
    branchmetal_counted fails, all;
    uint64_t remainders;
    if (count == 0 || rules[count - 1].form == 7)
        return;
    rules[count - 1].sense ^= 1;
    if (branchmetal_count(width, edition, rules, count, &fails))
        wrong("a list whose last rule is turned about is not counted", line);
    rules[count - 1].sense ^= 1;
    if (branchmetal_count(width, edition, rules, count - 1, &all) || all.place != count - 1)
        wrong("a list without its last rule is not counted", line);
    remainders = counted->remainder + fails.remainder;
    if (all.remainder != remainders % 4294967296u || all.quotient != counted->quotient + fails.quotient + remainders / 4294967296u)
        wrong("the words that meet a rule and those that fail it are not all words", line);
}

/* A width, a rule and a word that are refused: the number, zeros, and the place of the rule, or the list's length. */
static void refused(uint64_t line)
{
    branchmetal_rule none = {9, 0, 0, 0};
    branchmetal_vetted vetted = {1, 1, 1, 1, 1};
    branchmetal_checked checked = {1, 1};
    branchmetal_counted counted = {1, 1, 1};
    branchmetal_listed listed = {1, 1};
    uint64_t word = 7, meets = 1;
    if (branchmetal_vet(0, edition, rules, count, &word, 1, &vetted) != 2 || vetted.place != count || vetted.verdict || word != 7)
        wrong("vetting at width 0 is not refused with 2 at the list's length", line);
    if (branchmetal_check(0, edition, rules, count, &word, 1, &checked) != 2 || checked.place != count || checked.accepted)
        wrong("a check at width 0 is not refused with 2 at the list's length", line);
    if (branchmetal_count(width, edition, &none, 1, &counted) != 3 || counted.place || counted.quotient || counted.remainder)
        wrong("a count with form 9 is not refused with 3 at place 0", line);
    if (branchmetal_list(width, edition, &none, 1, 0, &word, 1, &listed) != 3 || listed.place || listed.written || word != 7)
        wrong("a listing with form 9 is not refused with 3 at place 0", line);
    if (width < 64 && (branchmetal_list(width, edition, rules, count, top_of(width) + 1, &word, 1, &listed) != 5 || listed.place != count ||
                       listed.written || word != 7))
        wrong("a listing above the top word is not refused with 5 at the list's length", line);
    if (branchmetal_meets(width, &none, 0, &meets) != 3 || meets)
        wrong("a word held to form 9 is not refused with 3", line);
}

/* Holds the chain, the count and the words to a vetted list. */
static void hold(const branchmetal_vetted *vetted, uint64_t line)
{
    branchmetal_counted counted;
    uint64_t words;
    if (vetted->place != count)
        wrong("a list that is vetted has another place than its length", line);
    check(vetted, line);
    refused(line);
    if (branchmetal_count(width, edition, rules, count, &counted) || counted.place != count)
        wrong("a list that is vetted is not counted", line);
    part(&counted, line);
    words = counted.quotient > 1 ? 2 : (counted.quotient << 32) + counted.remainder;
    if ((words > 2 ? 2 : words) != vetted->verdict)
        wrong("the count is not the verdict's", line);
    if (width <= 8)
        walk(vetted, words > 2 || counted.quotient ? (counted.quotient << 32) + counted.remainder : words, line);
}

static void say(uint64_t number)
{
    if (number)
        printf("ff%02" PRIx64 "\n", number);
    else
        puts("00");
}

static void opens(const char *digits, uint64_t of)
{
    uint64_t asked = field(&digits, 2);
    branchmetal_vetted vetted;
    uint64_t number = branchmetal_vet(asked, of, NULL, 0, links, room, &vetted);
    if (!number) {
        width = asked;
        edition = of;
        count = 0;
    }
    say(number);
}

static void adds(const char *digits, int wide)
{
    branchmetal_rule *rule = &rules[count];
    branchmetal_vetted vetted;
    uint64_t number;
    rule->form = field(&digits, 2);
    rule->sense = field(&digits, 2);
    rule->c1 = field(&digits, wide);
    rule->c2 = field(&digits, wide);
    number = width == 0 ? 1 : edition != (wide == 16) ? 11 : branchmetal_vet(width, edition, rules, count + 1, links, room, &vetted);
    if (number >= 3 && number <= 6 && vetted.place != count)
        wrong("a list whose last rule is refused has another place", count);
    if (!number)
        count++;
    say(number);
}

/* A list longer than is looked at: refused at its 201st rule, but a width that no sheet has at its length. */
static void long_list(void)
{
    static branchmetal_rule many[BRANCHMETAL_RULES + 100];
    const size_t all = sizeof many / sizeof many[0];
    branchmetal_vetted vetted;
    for (size_t i = 0; i < all; i++)
        many[i].form = 6;
    if (branchmetal_vet(8, BRANCHMETAL_OLD, many, all, links, room, &vetted) != 6 || vetted.place != BRANCHMETAL_RULES)
        wrong("a list that is too long is not refused with 6 at place 200", all);
    if (branchmetal_vet(33, BRANCHMETAL_OLD, many, all, links, room, &vetted) != 2 || vetted.place != all)
        wrong("a list that is too long, at width 33, is not refused with 2 at its length", all);
}

static void asks(uint64_t line)
{
    branchmetal_vetted vetted;
    uint64_t number = width == 0 ? 1 : branchmetal_vet(width, edition, rules, count, links, room, &vetted);
    int digits = edition ? 16 : 8;
    if (number) {
        say(number);
        return;
    }
    printf("a0%02" PRIx64 "%0*" PRIx64 "%0*" PRIx64 "\n", vetted.verdict, digits, vetted.smallest, digits, vetted.largest);
    for (uint64_t i = 0; i < vetted.links; i++)
        printf("c0%0*" PRIx64 "%0*" PRIx64 "%02" PRIx64 "\n", digits, links[3 * i], digits, links[3 * i + 1], links[3 * i + 2]);
    hold(&vetted, line);
}

/* A gate of drawn limits by its rules, against the machine's own comparison of floats. */
static void gate(void)
{
    uint32_t low = below(UINT32_MAX), high = below(UINT32_MAX), reading;
    float l, h, x;
    uint64_t kind = below(3), number;
    branchmetal_rule four[4];
    memcpy(&l, &low, sizeof l);
    memcpy(&h, &high, sizeof h);
    number = branchmetal_gate_rules(kind, low, high, four);
    if (number != ((kind != 1 && l != l) || (kind != 0 && h != h) ? 14 : 0))
        wrong("a gate is refused, or is not", kind);
    for (int i = 0; !number && i < 64; i++) {
        uint64_t all = 1, meets;
        reading = i < 8 ? low + i - 4 : i < 16 ? high + i - 12 : below(UINT32_MAX);
        memcpy(&x, &reading, sizeof x);
        for (int r = 0; r < 4; r++) {
            if (branchmetal_meets(32, &four[r], reading, &meets))
                wrong("a rule of a gate is refused", kind);
            all &= meets;
        }
        if (all != (uint64_t)((kind == 1 || l <= x) && (kind == 0 || x <= h)))
            wrong("a reading meets a gate, or does not", reading);
    }
}

static uint64_t joined(uint64_t op, uint64_t x, uint64_t y)
{
    return op == BRANCHMETAL_NOT ? ~x & 15 : op == BRANCHMETAL_AND ? x & y : op == BRANCHMETAL_OR ? x | y : x ^ y;
}

/* The results that words of two intervals give at width 4: the smallest and the largest. */
static branchmetal_interval results(uint64_t op, branchmetal_interval x, branchmetal_interval y)
{
    branchmetal_interval span = {15, 0};
    for (uint64_t a = x.low; a <= x.high; a++)
        for (uint64_t b = y.low; b <= y.high; b++) {
            uint64_t h = joined(op, a, b);
            span.low = h < span.low ? h : span.low;
            span.high = h > span.high ? h : span.high;
        }
    return span;
}

static void cut(branchmetal_interval *word, branchmetal_interval by)
{
    word->low = by.low > word->low ? by.low : word->low;
    word->high = by.high < word->high ? by.high : word->high;
}

/* One step of a net by the plain rule, over all words: all cuts read the intervals as given. Whether a cut is empty. */
static int plain_step(branchmetal_interval *words, const branchmetal_joined *join)
{
    branchmetal_interval h = words[join->h], x = words[join->x], y = words[join->op == BRANCHMETAL_NOT ? join->x : join->y];
    cut(&words[join->h], results(join->op, x, y));
    if (join->op == BRANCHMETAL_NOT)
        cut(&words[join->x], results(BRANCHMETAL_NOT, h, h));
    if (join->op == BRANCHMETAL_XOR) {
        cut(&words[join->x], results(BRANCHMETAL_XOR, h, y));
        cut(&words[join->y], results(BRANCHMETAL_XOR, h, x));
    }
    return words[join->h].low > words[join->h].high || words[join->x].low > words[join->x].high ||
           (join->op != BRANCHMETAL_NOT && words[join->y].low > words[join->y].high);
}

/* A join of drawn intervals at width 4, against all pairs of words: all three intervals, and whether a cut is empty. */
static void join(void)
{
    branchmetal_interval words[3], plain[3], given[3];
    branchmetal_joined as = {below(4), 0, 1, 2};
    uint64_t empty = 2, nothing;
    for (int i = 0; i < 3; i++) {
        words[i].low = below(16);
        words[i].high = words[i].low + below(16 - words[i].low);
    }
    memcpy(plain, words, sizeof plain);
    memcpy(given, words, sizeof given);
    nothing = plain_step(plain, &as);
    if (branchmetal_join(4, as.op, words, &empty) || empty != nothing)
        wrong("a join is refused, or its cuts are empty where the results say otherwise", as.op);
    if (memcmp(words, nothing ? given : plain, sizeof words))
        wrong("the intervals of a join are not cut by the results", as.op);
    memcpy(words, given, sizeof words);
    words[1].low = words[1].high + 1;
    if (branchmetal_join(4, as.op, words, &empty) != (words[1].low == 16 ? 5 : 15) || empty || words[1].low != given[1].high + 1 ||
        memcmp(words, given, sizeof words[0]) || memcmp(words + 2, given + 2, sizeof words[2]))
        wrong("a join whose low end is too large is not refused, or moves", as.op);
}

/* A net of drawn words at width 4, against the plain rule; some name a word that is not there, or have too many words. */
static void net(void)
{
    branchmetal_interval words[18], plain[18], before[18];
    branchmetal_joined joins[34];
    branchmetal_ran ran;
    size_t count = below(40) ? 1 + below(5) : 15 + below(4), many = below(40) ? below(6) : 31 + below(4);
    uint64_t pay = below(30), steps = 0, quiet = 0, ended, number, wanted = count > 16 || many > 32 ? 16 : 0;
    for (size_t i = 0; i < count; i++) {
        words[i].low = below(16);
        words[i].high = below(2) ? words[i].low : words[i].low + below(16 - words[i].low);
        if (!below(3))
            words[i].low = 0, words[i].high = 15;
    }
    for (size_t j = 0; j < many; j++) {
        joins[j].op = below(4);
        joins[j].h = below(count);
        joins[j].x = below(count);
        joins[j].y = joins[j].op == BRANCHMETAL_NOT ? below(99) : below(count);
        if (!below(200)) {
            joins[j].x = count;
            wanted = 16;
        }
    }
    memcpy(plain, words, sizeof plain);
    number = branchmetal_net(4, words, count, joins, many, pay, &ran);
    if (number != wanted)
        wrong("a net is refused, or is not", number);
    if (number) {
        if (ran.ended || ran.steps || memcmp(plain, words, count * sizeof words[0]))
            wrong("a refused net is answered, or its intervals moved", number);
        return;
    }
    for (ended = BRANCHMETAL_SPENT; steps <= pay; steps++) {
        if (quiet >= many) {
            ended = BRANCHMETAL_STEADY;
            break;
        }
        if (steps == pay)
            break;
        memcpy(before, plain, sizeof plain);
        if (plain_step(plain, &joins[steps % many])) {
            memcpy(plain, before, sizeof plain);
            ended = BRANCHMETAL_EMPTY;
            steps++;
            break;
        }
        quiet = memcmp(before, plain, count * sizeof plain[0]) ? 0 : quiet + 1;
    }
    if (ran.ended != ended || ran.steps != steps || memcmp(plain, words, count * sizeof words[0]))
        wrong("a net ends as the plain rule does not", steps);
}

static void answer(void)
{
    long_list();
    for (int i = 0; i < 4000; i++) {
        gate();
        join();
        net();
    }
    char text[128];
    for (uint64_t line = 1; fgets(text, sizeof text, stdin); line++) {
        if (!strncmp(text, "01", 2) || !strncmp(text, "11", 2))
            opens(text + 2, text[0] == '1');
        else if (!strncmp(text, "02", 2) || !strncmp(text, "12", 2))
            adds(text + 2, text[0] == '1' ? 16 : 8);
        else
            asks(line);
    }
}

/* The sheet that is kept, and the places of its numbers that spoil it for certain. */
static branchmetal_sheet sheet;
enum { WIDTH, EDITION, COUNT, MARKED, GIVEN, WAITING, VERDICT, SMALLEST, LARGEST, MARKS, RULES = MARKS + 32, NUMBERS = RULES + 800 };

static uint64_t call_add(branchmetal_sheet *on)
{
    branchmetal_rule rule = {6, 0, 0, 0};
    return branchmetal_sheet_add(on, on->numbers[EDITION], &rule);
}

static uint64_t call_gate(branchmetal_sheet *on)
{
    return branchmetal_sheet_gate(on, BRANCHMETAL_AT_LEAST, 0, 0);
}

/* The calls that change a sheet and read it. */
static uint64_t (*const changes[])(branchmetal_sheet *) = {
    call_add, branchmetal_sheet_mark, branchmetal_sheet_back, branchmetal_sheet_forward, call_gate,
};

/* A number of the sheet is changed. Where it is no sheet then, every call that reads it says 17 and leaves every byte; where it has to be none
 * and is not told, that is wrong. How many places were told. */
static uint64_t spoil(size_t place, int surely, uint64_t line)
{
    branchmetal_sheet spoiled = sheet, left;
    branchmetal_asked asked = {1, 1, 1, 1};
    branchmetal_shared shared = {1, 1};
    uint64_t written = 1, words[2] = {7, 7};
    spoiled.numbers[place] ^= place == EDITION ? 2 + below(UINT64_MAX - 2) : (uint64_t)1 << below(64);
    left = spoiled;
    if (branchmetal_sheet_mark(&left) != 17) {
        if (surely)
            wrong("a spoiled sheet is taken for one", line);
        return 0;
    }
    for (size_t i = 0; i < sizeof changes / sizeof changes[0]; i++)
        if (changes[i](&left) != 17 || memcmp(&left, &spoiled, sizeof left))
            wrong("a call on a spoiled sheet says another number than 17, or writes", line);
    if (branchmetal_sheet_ask(&spoiled, words, 2, &asked) != 17 || branchmetal_sheet_count(&spoiled, &shared) != 17 ||
        branchmetal_sheet_list(&spoiled, 0, words, 2, &written) != 17)
        wrong("what is asked of a spoiled sheet gets another number than 17", line);
    if (asked.verdict || asked.smallest || asked.largest || asked.links || shared.quotient || shared.remainder || written || words[0] != 7 ||
        words[1] != 7 || memcmp(&left, &spoiled, sizeof left))
        wrong("a spoiled sheet is answered, or a buffer is written", line);
    return 1;
}

/* Places that are told for certain: what is kept, the counts that the rules settle, and a place not in use. */
static uint64_t spoil_some(uint64_t line)
{
    static const size_t certain[] = {EDITION, COUNT, GIVEN, VERDICT, SMALLEST, LARGEST};
    uint64_t told = 0;
    for (size_t i = 0; i < sizeof certain / sizeof certain[0]; i++)
        told += spoil(certain[i], 1, line);
    if (sheet.numbers[GIVEN] < BRANCHMETAL_RULES)
        told += spoil(RULES + 4 * sheet.numbers[GIVEN] + below(4 * (BRANCHMETAL_RULES - sheet.numbers[GIVEN])), 1, line);
    if (sheet.numbers[MARKED] + sheet.numbers[WAITING] < 32)
        told += spoil(MARKS + sheet.numbers[MARKED] + sheet.numbers[WAITING], 1, line);
    return told + spoil(below(NUMBERS), 0, line);
}

/* A refused call leaves every byte. */
static void refuses(uint64_t number, const branchmetal_sheet *before, uint64_t line)
{
    if (number && memcmp(before, &sheet, sizeof sheet))
        wrong("a refused call moves the sheet", line);
    say(number);
}

/* Asks the sheet, in the desk's lines, and holds the count and the listing to the answer. */
static void asks_sheet(uint64_t line)
{
    branchmetal_asked asked;
    branchmetal_shared shared;
    uint64_t word, written, number = branchmetal_sheet_ask(&sheet, links, room, &asked);
    int digits = sheet.numbers[EDITION] ? 16 : 8;
    if (number != branchmetal_sheet_count(&sheet, &shared) || number != branchmetal_sheet_list(&sheet, 0, &word, 1, &written))
        wrong("asking, counting and listing are not refused alike", line);
    if (number) {
        say(number);
        return;
    }
    printf("a0%02" PRIx64 "%0*" PRIx64 "%0*" PRIx64 "\n", asked.verdict, digits, asked.smallest, digits, asked.largest);
    for (uint64_t i = 0; i < asked.links; i++)
        printf("c0%0*" PRIx64 "%0*" PRIx64 "%02" PRIx64 "\n", digits, links[3 * i], digits, links[3 * i + 1], links[3 * i + 2]);
    if ((shared.quotient || shared.remainder > 1 ? 2 : shared.remainder) != asked.verdict || written != (asked.verdict != 0) ||
        (written && word != asked.smallest))
        wrong("the count or the listing is not the verdict's", line);
}

/* A gate on the sheet is its four rules added, or none. */
static void gates_sheet(uint64_t line)
{
    branchmetal_sheet gated = sheet, added = sheet;
    branchmetal_rule four[4];
    uint32_t low = below(UINT32_MAX), high = below(UINT32_MAX);
    uint64_t kind = below(3), number = branchmetal_sheet_gate(&gated, kind, low, high);
    uint64_t wanted = sheet.numbers[WIDTH] == 0 ? 1 : sheet.numbers[WIDTH] != 32 ? 13 : branchmetal_gate_rules(kind, low, high, four);
    if (!wanted)
        for (int i = 0; i < 4 && !wanted; i++)
            wanted = branchmetal_sheet_add(&added, sheet.numbers[EDITION], &four[i]);
    if (wanted)
        added = sheet;
    if (number != wanted || memcmp(&gated, &added, sizeof gated))
        wrong("a gate on a sheet is not its four rules", line);
}

static void keep(void)
{
    char text[128];
    uint64_t told = 0;
    branchmetal_sheet zeros = {{0}};
    memset(&sheet, 0xa5, sizeof sheet);
    if (branchmetal_sheet_mark(&sheet) != 17)
        wrong("memory that nobody set is taken for a sheet", 0);
    branchmetal_sheet_blank(&sheet);
    if (memcmp(&sheet, &zeros, sizeof sheet))
        wrong("the blank sheet is not all zeros", 0);
    for (uint64_t line = 1; fgets(text, sizeof text, stdin); line++) {
        branchmetal_sheet before = sheet;
        const char *digits = text + 2;
        int new = text[0] == '1', wide = new ? 16 : 8;
        if (text[1] == '1')
            refuses(branchmetal_sheet_open(&sheet, field(&digits, 2), new), &before, line);
        else if (text[1] == '2') {
            branchmetal_rule rule;
            rule.form = field(&digits, 2);
            rule.sense = field(&digits, 2);
            rule.c1 = field(&digits, wide);
            rule.c2 = field(&digits, wide);
            refuses(branchmetal_sheet_add(&sheet, new, &rule), &before, line);
        } else if (text[1] == '3')
            refuses(branchmetal_sheet_mark(&sheet), &before, line);
        else if (text[1] == '4')
            refuses(branchmetal_sheet_back(&sheet), &before, line);
        else if (text[1] == '6')
            refuses(branchmetal_sheet_forward(&sheet), &before, line);
        else
            asks_sheet(line);
        if (line % 16 == 0) {
            told += spoil_some(line);
            gates_sheet(line);
        }
    }
    fprintf(stderr, "%" PRIu64 " spoiled sheets got 17 and stayed as they were\n", told);
}

int main(int words, char **word)
{
    if (words == 3 && !strcmp(word[1], "draw"))
        draw(strtoull(word[2], NULL, 10));
    else if (words == 3 && !strcmp(word[1], "calls"))
        calls(strtoull(word[2], NULL, 10));
    else if (words == 2 && !strcmp(word[1], "answer"))
        answer();
    else if (words == 2 && !strcmp(word[1], "keep"))
        keep();
    else
        return 2;
    return 0;
}
