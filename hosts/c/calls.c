/*
 * Tests of the calls as a C host makes them; orders.c has those of the call that is given an order, logs.c those of the two that are given a log,
 * lookups.c those of the two that read no text. What is expected is written by hand from docs/FORMAT.md. Each text stands in a block of its own length,
 * and each lent slice between guards, so that valgrind, and without it the guards, see a byte too many.
 */
#define _XOPEN_SOURCE 700
#include <pthread.h>
#include <signal.h>
#include <stdio.h>
#include <stdlib.h>
#include <string.h>
#include <sys/time.h>

#include "checks.h"
#include "codremif.h"
#include "models.h"

#define GUARD_BYTES 64
#define TWO_40 ((uint64_t)1 << 40)

typedef uint64_t (*set_call)(const uint8_t *, size_t, uint32_t, uint8_t *, size_t);
typedef uint64_t (*list_call)(const uint8_t *, size_t, uint8_t *, size_t);

static void *block(size_t size)
{
    void *bytes = malloc(size == 0 ? 1 : size);
    if (bytes == NULL)
        abort();
    return bytes;
}

/* Lent bytes between guards. All of them, the guards too, begin as `fill`. */
struct lent {
    uint8_t *all;
    uint8_t *bytes;
    size_t length;
    uint8_t fill;
};

static struct lent lend(size_t length, uint8_t fill)
{
    struct lent lent = {block(length + 2 * GUARD_BYTES), NULL, length, fill};
    memset(lent.all, fill, length + 2 * GUARD_BYTES);
    lent.bytes = lent.all + GUARD_BYTES;
    return lent;
}

/* Whether the lent bytes begin with these, and everything past them and both guards are as they were. Gives the block back. */
static int took(struct lent *lent, const uint8_t *written, size_t count)
{
    int good = count <= lent->length && (count == 0 || memcmp(lent->bytes, written, count) == 0);
    for (size_t i = 0; i < lent->length + 2 * GUARD_BYTES; i++)
        if (i < GUARD_BYTES || i >= GUARD_BYTES + count)
            good = good && lent->all[i] == lent->fill;
    free(lent->all);
    return good;
}

/* A text in a block of just its length. */
struct text {
    uint8_t *bytes;
    size_t length;
};

static struct text text_of(const char *bytes, size_t length)
{
    struct text text = {block(length), length};
    memcpy(text.bytes, bytes, length);
    return text;
}

/* Whether a call that is handed a set gives this answer and writes these bytes, whatever the lent bytes held. */
static int answered(set_call call, struct text text, uint32_t set, size_t lent_bytes, uint64_t answer, const uint8_t *written, size_t count)
{
    struct lent clear = lend(lent_bytes, 0x00), filled = lend(lent_bytes, 0xEE);
    int good = call(text.bytes, text.length, set, clear.bytes, lent_bytes) == answer;
    good = call(text.bytes, text.length, set, filled.bytes, lent_bytes) == answer && good;
    good = took(&clear, written, count) && good;
    return took(&filled, written, count) && good;
}

static int judged(struct text text, uint32_t set, size_t lent_bytes, uint64_t answer, const uint8_t *written, size_t count)
{
    return answered(codremif_judge, text, set, lent_bytes, answer, written, count);
}

static int reached(struct text text, uint32_t set, size_t lent_bytes, uint64_t answer, const uint8_t *written, size_t count)
{
    return answered(codremif_reached, text, set, lent_bytes, answer, written, count);
}

/* Whether listing gives this answer and writes these bytes, whatever the lent bytes held. */
static int listed(list_call call, struct text text, size_t lent_bytes, uint64_t answer, const uint8_t *written, size_t count)
{
    struct lent clear = lend(lent_bytes, 0x00), filled = lend(lent_bytes, 0xEE);
    int good = call(text.bytes, text.length, clear.bytes, lent_bytes) == answer;
    good = call(text.bytes, text.length, filled.bytes, lent_bytes) == answer && good;
    good = took(&clear, written, count) && good;
    return took(&filled, written, count) && good;
}

static const char tremor[] = "vars=3\nrules=3\ninit=!c\nprop=>c&ab\nrule=ra:>CA\nrule=rb:>CB\nrule=vote:>C&AB\n";
static const char chain[] = "vars=2\nrules=2\ninit=&!a!b\nprop=!b\nrule=same:=Aa\nrule=late:>Ba\n";
static const char quiet[] = "vars=1\nrules=1\ninit=1\nprop=1\nrule=any:1\n";
static const char battery[] = "vars=4\nrules=5\ninit=!c\nprop=>c&ab\nrule=motion:>CA\nrule=quiet:>!a!C\nrule=power:>CB\nrule=double:>C&aA\n"
                              "rule=lamp:=DC\n";
static const char both[] = "vars=2\nrules=2\ninit=&!a!b\nprop=!a\nprop=!b\nrule=ra:=Aa\nrule=rb:=Bb\n";
static const char shared[] = "vars=2\nrules=3\ninit=&!a!b\nprop=!a\nprop=!b\nprop=!&ab\nprop=1\nrule=ra:!A\nrule=rb:!B\nrule=none:!|AB\n";
static const char counter[] = "vars=2\nrules=2\ninit=&!a!b\nprop=!&ab\nprop=1\nprop=!b\nprop=!&ab\nrule=low:=A!a\nrule=high:=B!=ba\n";
static const char stale[] = "vars=4\nrules=2\ninit=&!a&!b&!c!d\nprop=>c&ab\nrule=mem:=Da\nrule=vote:>C&BD\n";

/* Whether MUST, MAY and the irrelevant rules are these sets. */
static int has_kinds(struct text text, uint64_t must, uint64_t may, uint64_t irrelevant)
{
    return codremif_must(text.bytes, text.length) == 65536 * must && codremif_may(text.bytes, text.length) == 65536 * may &&
           codremif_irr(text.bytes, text.length) == 65536 * irrelevant;
}

static void test_unpacking(void)
{
    uint64_t answer = 11 + 256 * 21 + 65536 * (uint64_t)65535;
    check(codremif_number(answer) == 11 && codremif_line(answer) == 21, "the number and the line are taken out of an answer");
    check(codremif_length(answer) == 65535 && codremif_count(answer) == 65535 && codremif_set(answer) == 65535 && codremif_pairs(answer) == 65535,
          "the length, the count, the set and the pairs are taken out of an answer");
    check(!codremif_holds(answer) && codremif_holds(answer + TWO_40) == 1, "a verdict that holds is 2^40");
    check(codremif_number(TWO_40) == 0 && codremif_line(TWO_40) == 0 && codremif_length(TWO_40) == 0, "2^40 is no part of the others");
    int only_0 = 1;
    for (unsigned number = 0; number <= 255; number++)
        only_0 = only_0 && codremif_accepted(number) == (number == 0) && codremif_accepted(number + TWO_40 + 65536 * 3) == (number == 0);
    check(only_0, "an answer is accepted if its number is 0, and refused by every other, known or not");
    check(codremif_line(255) == 0 && codremif_length(65535) == 0 && codremif_number(256) == 0, "the parts do not overlap");
    const uint8_t sets[] = {4, 0, 3, 0, 0xCD, 0xAB};
    check(codremif_set_at(sets, 0) == 4 && codremif_set_at(sets, 1) == 3 && codremif_set_at(sets, 2) == 0xABCD,
          "a set of a list is two bytes, low byte first");
}

static void test_refusals(void)
{
    const enum codremif_refusal in_order[] = {
        CODREMIF_ACCEPTED, CODREMIF_LINE_DUE, CODREMIF_COUNT, CODREMIF_NAME, CODREMIF_NAME_TWICE, CODREMIF_EXPRESSION_LENGTH,
        CODREMIF_BYTE, CODREMIF_LETTER, CODREMIF_NOT_ONE, CODREMIF_BYTES_FOLLOW, CODREMIF_NO_SUCH_SET, CODREMIF_TOO_FEW_BYTES,
        CODREMIF_ODD_LIST, CODREMIF_NOT_AN_ORDER, CODREMIF_NOT_A_LOG, CODREMIF_INIT_UNMET,
    };
    int numbers = sizeof in_order / sizeof in_order[0] == 16, words = codremif_words(16)[0] == '\0';
    for (unsigned number = 0; number <= 15; number++) {
        numbers = numbers && in_order[number] == number;
        words = words && codremif_words(number)[0] != '\0';
    }
    check(numbers, "the refusals have the numbers 0 to 15");
    check(words, "each of them has words, and no other number has");
}

#define BYTES_63 "!!!!!!!!!!!!!!!!!!!!!!!!!!!!!!!!!!!!!!!!!!!!!!!!!!!!!!!!!!!!!!!"

static void test_constants(void)
{
    unsigned long ways = 1;
    for (unsigned i = 1; i <= 8; i++)
        ways = ways * (16 - i + 1) / i;
    check(CODREMIF_LIST_SETS == ways && CODREMIF_LIST_BYTES == 2 * ways, "the longest list is 16 over 8 sets");
    check(CODREMIF_TRACE_BYTES == 1 << 7, "the longest trace is each of 2^7 states");
    check(CODREMIF_MARK_BYTES == 1 << 7, "there is a mark for each of 2^7 states");
    check(CODREMIF_TEXT_BYTES == 2670 && CODREMIF_PROPERTIES == 4, "the longest text has 2,670 bytes and four properties");
    check(CODREMIF_TEXT_BYTES ==
              7 + 9 + (1 + CODREMIF_PROPERTIES) * (5 + 64 + 1) + CODREMIF_RULES * (5 + CODREMIF_NAME_BYTES + 1 + 64 + 1 + 64 + 1),
          "the longest text is all lines at their longest");
    const uint64_t answers[] = {0, 0, 0, 0, 1 + 256 * 8};
    for (unsigned properties = 1; properties <= 5; properties++) {
        struct model model;
        char what[96];
        model_wide(&model, properties, BYTES_63 "a", BYTES_63 "#:" BYTES_63 "a");
        struct text text = text_of(model.text, model.length);
        snprintf(what, sizeof what, "all lines at their longest, properties: %u; it is %s", properties, properties <= 4 ? "accepted" : "refused");
        check(model.length == CODREMIF_TEXT_BYTES - 4 * 70 + 70 * properties && codremif_must(text.bytes, text.length) == answers[properties - 1],
              what);
        free(text.bytes);
    }
}

static void test_tremor(void)
{
    struct text text = text_of(tremor, sizeof tremor - 1);
    check(judged(text, 0, 8, 2 * 65536, (const uint8_t[]){0, 4}, 2), "Tremor: set 0 has the trace 0, 4");
    check(judged(text, 1, 8, 2 * 65536, (const uint8_t[]){0, 5}, 2), "Tremor: set 1 has the trace 0, 5");
    check(judged(text, 2, 2, 2 * 65536, (const uint8_t[]){0, 6}, 2), "Tremor: set 2 has the trace 0, 6, in two lent bytes");
    check(judged(text, 3, 8, TWO_40, NULL, 0) && judged(text, 4, 0, TWO_40, NULL, 0) && judged(text, 7, 1, TWO_40, NULL, 0),
          "Tremor: sets 3, 4 and 7 hold and write nothing");
    check(listed(codremif_cores, text, 25740, 2 * 65536, (const uint8_t[]){4, 0, 3, 0}, 4), "Tremor: the cores are 4, 3");
    check(listed(codremif_cores, text, 4, 2 * 65536, (const uint8_t[]){4, 0, 3, 0}, 4), "Tremor: four bytes take the cores");
    check(listed(codremif_cuts, text, 5, 2 * 65536, (const uint8_t[]){5, 0, 6, 0}, 4), "Tremor: the cuts are 5, 6; a fifth byte is kept");
    check(has_kinds(text, 0, 7, 0), "Tremor: MUST is 0, MAY is every rule, and no rule is irrelevant");
    check(judged(text, 8, 8, 10, NULL, 0) && judged(text, 65536, 8, 10, NULL, 0) && judged(text, 0xFFFFFFFF, 0, 10, NULL, 0),
          "Tremor: sets 8, 65536 and 2^32 - 1 are refused by 10");
    check(judged(text, 0, 1, 11, NULL, 0) && judged(text, 0, 0, 11, NULL, 0), "Tremor: one byte for the trace is refused by 11");
    check(listed(codremif_cores, text, 3, 11, NULL, 0) && listed(codremif_cuts, text, 3, 11, NULL, 0),
          "Tremor: three bytes for the list are refused by 11");
    free(text.bytes);
}

static void test_other_models(void)
{
    struct text text = text_of(chain, sizeof chain - 1);
    check(judged(text, 2, 4, 3 * 65536, (const uint8_t[]){0, 1, 2}, 3), "N 2: set 2 has the trace 0, 1, 2");
    check(judged(text, 1, 4, 2 * 65536, (const uint8_t[]){0, 2}, 2), "N 2: set 1 has the trace 0, 2");
    check(listed(codremif_cores, text, 8, 65536, (const uint8_t[]){3, 0}, 2), "N 2: the core is 3");
    check(listed(codremif_cuts, text, 8, 2 * 65536, (const uint8_t[]){1, 0, 2, 0}, 4), "N 2: the cuts are 1, 2");
    check(has_kinds(text, 3, 0, 0), "N 2: MUST is 3, MAY is 0, and no rule is irrelevant");
    free(text.bytes);
    text = text_of(quiet, sizeof quiet - 1);
    check(listed(codremif_cores, text, 2, 65536, (const uint8_t[]){0, 0}, 2), "rule 1: the core is 0");
    check(listed(codremif_cuts, text, 0, 0, NULL, 0), "rule 1: there is no cut, which takes no byte");
    free(text.bytes);
}

/* From 2 to 0 and from 0 to 1, and no step else. */
static const char hop[] = "vars=2\nrules=1\ninit=b\nprop=1\nrule=hop:&!a&!B=b!A\n";
static const char no_start[] = "vars=2\nrules=1\ninit=0\nprop=1\nrule=any:1\n";

static void test_reached(void)
{
    struct text text = text_of(tremor, sizeof tremor - 1);
    const uint8_t all[] = {1, 1, 1, 1, 1, 1, 1, 1}, by_ra[] = {1, 1, 1, 1, 0, 1, 0, 1}, by_all[] = {1, 1, 1, 1, 0, 0, 0, 1};
    check(reached(text, 0, 8, 8 * 65536, all, 8), "Tremor: set 0 reaches every state in the eight pairs of the first");
    check(reached(text, 1, 8, 48 * 65536, by_ra, 8), "Tremor: set 1 reaches six states, in eight pairs for each");
    check(reached(text, 3, 8, 40 * 65536, by_all, 8) && reached(text, 4, 8, 40 * 65536, by_all, 8) && reached(text, 7, 8, 40 * 65536, by_all, 8),
          "Tremor: sets 3, 4 and 7 reach five states, in eight pairs for each");
    check(reached(text, 1, 9, 48 * 65536, by_ra, 8) && reached(text, 0, 300, 8 * 65536, all, 8), "Tremor: bytes past eight marks keep their content");
    check(reached(text, 8, 8, 10, NULL, 0) && reached(text, 65536, 8, 10, NULL, 0) && reached(text, 0xFFFFFFFF, 8, 10, NULL, 0),
          "Tremor: sets 8, 65536 and 2^32 - 1 have no marks and are refused by 10");
    check(reached(text, 0, 7, 11, NULL, 0) && reached(text, 7, 7, 11, NULL, 0) && reached(text, 7, 5, 11, NULL, 0) && reached(text, 0, 0, 11, NULL, 0),
          "Tremor: seven bytes for the marks are refused by 11, and five where five states are reached");
    check(reached(text, 8, 7, 10, NULL, 0) && reached(text, 0xFFFFFFFF, 0, 10, NULL, 0), "Tremor: a set that it lacks comes before too few bytes");
    free(text.bytes);
    text = text_of(chain, sizeof chain - 1);
    check(reached(text, 2, 4, 8 * 65536, all, 4), "N 2: set 2 reaches every state at the end of the second state's pairs");
    check(reached(text, 3, 4, 4 * 65536, (const uint8_t[]){1, 0, 0, 0}, 4) && reached(text, 1, 4, 8 * 65536, (const uint8_t[]){1, 0, 1, 0}, 4),
          "N 2: set 3 reaches the start state alone, set 1 one state more");
    free(text.bytes);
}

static void test_reached_at_the_edges(void)
{
    struct text text = text_of(hop, sizeof hop - 1);
    check(reached(text, 1, 4, 10 * 65536, (const uint8_t[]){1, 1, 1, 1}, 4), "the start states 2 and 3 are tried before 0, which is marked after them");
    check(reached(text, 0, 4, 2 * 65536, (const uint8_t[]){1, 1, 1, 1}, 4), "the end comes in the middle of a state's pairs");
    free(text.bytes);
    text = text_of(no_start, sizeof no_start - 1);
    check(reached(text, 0, 4, 0, (const uint8_t[]){0, 0, 0, 0}, 4) && reached(text, 1, 4, 0, (const uint8_t[]){0, 0, 0, 0}, 4) &&
              reached(text, 0, 3, 11, NULL, 0),
          "no start state: no state is reached, no pair tried, and yet four marks are due");
    free(text.bytes);
    text = text_of(quiet, sizeof quiet - 1);
    check(reached(text, 0, 2, 0, (const uint8_t[]){1, 1}, 2) && reached(text, 1, 2, 0, (const uint8_t[]){1, 1}, 2) && reached(text, 1, 1, 11, NULL, 0),
          "every state is a start state: no pair is tried");
    free(text.bytes);
}

/* Seven bits: 128 states. */
static void test_largest_reached(void)
{
    uint8_t marks[128];
    struct model model;
    model_bases(&model);
    struct text text = text_of(model.text, model.length);
    memset(marks, 1, sizeof marks);
    check(reached(text, 0, 128, 128 * 65536, marks, 128), "seven bits: set 0 reaches 128 states in 128 pairs");
    memset(marks + 1, 0, sizeof marks - 1);
    check(reached(text, 0xFFFF, 128, 128 * 65536, marks, 128) && reached(text, 0xFFFF, 200, 128 * 65536, marks, 128),
          "seven bits: the full set of the vectors reaches one state in 128 pairs");
    check(reached(text, 0xFFFF, 127, 11, NULL, 0) && reached(text, 0, 127, 11, NULL, 0) && reached(text, 0x10000, 127, 10, NULL, 0),
          "seven bits: 127 bytes are refused by 11, set 65536 by 10");
    for (unsigned state = 0; state < 128; state++)
        marks[state] = state % 2 == 0;
    check(reached(text, 1, 128, 64 * 128 * 65536, marks, 128), "seven bits: the set of one vector reaches 64 states, in 128 pairs for each");
    free(text.bytes);
    model_counter(&model);
    text = text_of(model.text, model.length);
    memset(marks, 1, sizeof marks);
    check(reached(text, 0x7F, 128, 127 * 128 * 65536, marks, 128), "a counter: each state but the last is tried with 128, the most that there is");
    free(text.bytes);
}

/* Two properties, and four. The answers are for all of them jointly. */
static void test_properties(void)
{
    struct text text = text_of(both, sizeof both - 1);
    check(judged(text, 0, 4, 2 * 65536, (const uint8_t[]){0, 1}, 2), "two properties: set 0 breaks both, the trace is the first of 0, 1 and 0, 2");
    check(judged(text, 1, 4, 2 * 65536, (const uint8_t[]){0, 2}, 2), "two properties: set 1 breaks the second, with the trace 0, 2");
    check(judged(text, 2, 4, 2 * 65536, (const uint8_t[]){0, 1}, 2), "two properties: set 2 breaks the first, with the trace 0, 1");
    check(judged(text, 3, 4, TWO_40, NULL, 0), "two properties: set 3 holds for each");
    check(judged(text, 4, 4, 10, NULL, 0) && judged(text, 0, 1, 11, NULL, 0), "two properties: set 4 is refused by 10, one byte for a trace by 11");
    check(listed(codremif_cores, text, 8, 65536, (const uint8_t[]){3, 0}, 2) &&
              listed(codremif_cuts, text, 8, 2 * 65536, (const uint8_t[]){1, 0, 2, 0}, 4) && has_kinds(text, 3, 0, 0),
          "two properties: the core is 3, the cuts are 1 and 2, MUST is 3");
    free(text.bytes);
    text = text_of(shared, sizeof shared - 1);
    check(listed(codremif_cores, text, 8, 2 * 65536, (const uint8_t[]){4, 0, 3, 0}, 4) &&
              listed(codremif_cuts, text, 8, 2 * 65536, (const uint8_t[]){5, 0, 6, 0}, 4) && has_kinds(text, 0, 7, 0),
          "four properties: the cores are 4, 3, and no union that has 4 as a proper part; the cuts are 5, 6");
    free(text.bytes);
    text = text_of(counter, sizeof counter - 1);
    check(judged(text, 3, 4, 3 * 65536, (const uint8_t[]){0, 1, 2}, 3),
          "four properties: the trace is 0, 1, 2, by the third, and not 0, 1, 2, 3, by the first");
    check(judged(text, 1, 4, 2 * 65536, (const uint8_t[]){0, 3}, 2) && judged(text, 2, 4, 3 * 65536, (const uint8_t[]){0, 1, 2}, 3),
          "four properties: set 1 has the trace 0, 3, and set 2 has 0, 1, 2");
    check(listed(codremif_cores, text, 0, 0, NULL, 0) && listed(codremif_cuts, text, 2, 65536, (const uint8_t[]){0, 0}, 2) &&
              has_kinds(text, 0, 0, 3),
          "four properties, two of them broken: there is no core, and the cut is 0");
    free(text.bytes);
}

/* Tremor that may start in any state, and a rule that it starts quiet. */
static const char power_up[] = "vars=3\nrules=4\ninit=1\nprop=>c&ab\nrule=ra:>CA\nrule=rb:>CB\nrule=vote:>C&AB\nrule=quiet:1:!c\n";
/* No state meets both start parts. */
static const char apart[] = "vars=1\nrules=2\ninit=1\nprop=0\nrule=on:1:a\nrule=off:1:!a\n";
/* From 0 to 1, 2 and 3: after the first state of a run its start part is not asked. */
static const char from_0[] = "vars=2\nrules=2\ninit=1\nprop=!&ab\nrule=low:=A!a:&!a!b\nrule=high:=B!=ba\n";

static void test_start_parts(void)
{
    struct text text = text_of(power_up, sizeof power_up - 1);
    check(judged(text, 0, 8, 65536, (const uint8_t[]){4}, 1) && judged(text, 7, 1, 65536, (const uint8_t[]){4}, 1),
          "a start part: sets without its rule start in a bad state, with a trace of one state");
    check(judged(text, 8, 8, 2 * 65536, (const uint8_t[]){0, 4}, 2) && judged(text, 9, 8, 2 * 65536, (const uint8_t[]){0, 5}, 2),
          "a start part: sets with its rule start in 0, and are broken a second later");
    check(judged(text, 11, 8, TWO_40, NULL, 0) && judged(text, 12, 0, TWO_40, NULL, 0) && judged(text, 15, 8, TWO_40, NULL, 0),
          "a start part: sets 11, 12 and 15 hold");
    check(listed(codremif_cores, text, 4, 2 * 65536, (const uint8_t[]){12, 0, 11, 0}, 4) && listed(codremif_cores, text, 3, 11, NULL, 0) &&
              listed(codremif_cuts, text, 7, 3 * 65536, (const uint8_t[]){8, 0, 5, 0, 6, 0}, 6) && has_kinds(text, 8, 7, 0),
          "a start part: each core has its rule, which is a cut alone and MUST");
    check(reached(text, 7, 8, 0, (const uint8_t[]){1, 1, 1, 1, 1, 1, 1, 1}, 8) &&
              reached(text, 15, 8, 40 * 65536, (const uint8_t[]){1, 1, 1, 1, 0, 0, 0, 1}, 8) && reached(text, 15, 7, 11, NULL, 0),
          "a start part: without its rule every state is a start state, with it four are");
    free(text.bytes);
    text = text_of(apart, sizeof apart - 1);
    check(judged(text, 0, 2, 65536, (const uint8_t[]){0}, 1) && judged(text, 1, 2, 65536, (const uint8_t[]){1}, 1) &&
              judged(text, 2, 2, 65536, (const uint8_t[]){0}, 1) && judged(text, 3, 2, TWO_40, NULL, 0),
          "two start parts: the start states are those that meet the start part of each rule in the set");
    check(reached(text, 1, 2, 65536, (const uint8_t[]){1, 1}, 2) && reached(text, 3, 2, 0, (const uint8_t[]){0, 0}, 2) && has_kinds(text, 3, 0, 0),
          "two start parts that no state meets: no state is reached, and both rules are relied on");
    free(text.bytes);
    text = text_of(from_0, sizeof from_0 - 1);
    check(judged(text, 3, 4, 4 * 65536, (const uint8_t[]){0, 1, 2, 3}, 4) && judged(text, 2, 4, 65536, (const uint8_t[]){3}, 1) &&
              judged(text, 1, 4, 2 * 65536, (const uint8_t[]){0, 3}, 2),
          "a start part is asked of the first state of a run alone");
    free(text.bytes);
}

/* A text in a block of its own length has these kinds. */
static void check_kinds(const char *bytes, size_t length, uint64_t must, uint64_t may, uint64_t irrelevant, const char *what)
{
    struct text text = text_of(bytes, length);
    check(has_kinds(text, must, may, irrelevant), what);
    free(text.bytes);
}

static void test_kinds(void)
{
    struct model model;
    check_kinds(battery, sizeof battery - 1, 4, 9, 18, "all kinds: MUST is power, MAY motion and double, irrelevant quiet and lamp");
    check_kinds(quiet, sizeof quiet - 1, 0, 0, 1, "set 0 is the one core: every rule is irrelevant");
    check_kinds(stale, sizeof stale - 1, 0, 0, 3, "no core: every rule is irrelevant");
    model_wide(&model, 1, "!a", "1");
    check_kinds(model.text, model.length, 0, 0, 0xFFFF, "no core and sixteen rules: every rule is irrelevant");
    model_wide(&model, 4, "!a", ">Aa");
    check_kinds(model.text, model.length, 0, 0xFFFF, 0, "sixteen rules alike, each a core alone: every rule is in MAY");
    model_begin(&model, 7, 16, "!a", "!a");
    for (unsigned i = 0; i < 16; i++)
        model_rule(&model, i, i == 15 ? "!A" : "=Bb");
    check_kinds(model.text, model.length, 0x8000, 0, 0x7FFF, "the last of sixteen rules is the one core: MUST, and the others are irrelevant");
}

struct refused {
    const char *text;
    unsigned number;
    unsigned line;
};

#define COUNTS "vars=1\nrules=1\n"
#define STATES COUNTS "init=a\nprop=a\n"
#define FOUR STATES "prop=a\nprop=a\nprop=a\n"

static const struct refused refused_texts[] = {
    {"", 1, 1},
    {"vars=1", 1, 1},
    {"vars=8\n", 2, 1},
    {"vars=8\nrules=0\n", 2, 1},
    {"vars=1\nrules=0\n", 2, 2},
    {"vars=1\nrules=01\n", 2, 2},
    {"vars=1\nrules=17\n", 2, 2},
    {"vars=1\nrules=16\n", 1, 3},
    {COUNTS "init=\n", 5, 3},
    {COUNTS "init=" BYTES_63 "!a\n", 5, 3},
    {COUNTS "init=x\n", 6, 3},
    {COUNTS "init=A\n", 7, 3},
    {COUNTS "init=b\n", 7, 3},
    {COUNTS "init=&a\n", 8, 3},
    {COUNTS "init=aa\n", 8, 3},
    {COUNTS "init=a\nprop=A\n", 7, 4},
    {STATES, 1, 5},
    {STATES "rule=a:1", 1, 5},
    {STATES "rule=abcdefghi:1\n", 3, 5},
    {STATES "rule=:1\n", 3, 5},
    {STATES "rule=a:\n", 5, 5},
    {"vars=1\nrules=2\ninit=a\nprop=a\nrule=a:1\nrule=a:1\n", 4, 6},
    {STATES "rule=a:1\nrule=b:1\n", 9, 6},
    {STATES "rule=a:1\n\n", 9, 6},
    {COUNTS "init=a\nrule=a:1\n", 1, 4},
    {COUNTS "prop=a\ninit=a\nrule=a:1\n", 1, 3},
    {COUNTS "init=a\nprop=a", 1, 4},
    {STATES "prop=a", 1, 5},
    {STATES "prop=\n", 5, 5},
    {STATES "prop=A\n", 7, 5},
    {STATES "prop\n", 1, 5},
    {STATES "prop=a\nprop=x\n", 6, 6},
    {STATES "prop=a\nprop=a\nprop=aa\n", 8, 7},
    {STATES "prop=a\nprop=a\nprop=a", 1, 7},
    {FOUR, 1, 8},
    {FOUR "prop=a\nrule=a:1\n", 1, 8},
    {FOUR "prop=A\n", 1, 8},
    {FOUR "prop=a", 1, 8},
    {"vars=1\nrules=2\ninit=a\nprop=a\nrule=a:1\nprop=a\nrule=b:1\n", 1, 6},
    {STATES "rule=a:1\nprop=a\n", 9, 6},
    {STATES "prop=a\nrule=a:1\n\n", 9, 7},
    {STATES "prop=a\nprop=a\nrule=a:1\nrule=b:1\n", 9, 8},
    {FOUR "rule=a:1\nr", 9, 9},
    {STATES "rule=a:1:\n", 5, 5},
    {STATES "rule=a:1:" BYTES_63 "!a\n", 5, 5},
    {STATES "rule=a:1:" BYTES_63 "a:\n", 5, 5},
    {STATES "rule=a:1:a:\n", 6, 5},
    {STATES "rule=a:1:a:a\n", 6, 5},
    {STATES "rule=a:1::\n", 6, 5},
    {STATES "rule=a:1: a\n", 6, 5},
    {STATES "rule=a:1:A:\n", 6, 5},
    {STATES "rule=a:1:A\n", 7, 5},
    {STATES "rule=a:1:b\n", 7, 5},
    {STATES "rule=a:1:AA\n", 7, 5},
    {STATES "rule=a:1:aa\n", 8, 5},
    {STATES "rule=a:1:&a\n", 8, 5},
    {STATES "rule=a::a\n", 5, 5},
    {STATES "rule=a::\n", 5, 5},
    {STATES "rule=a:" BYTES_63 "!a:A\n", 5, 5},
    {STATES "rule=a:x:\n", 6, 5},
    {STATES "rule=a:b:\n", 7, 5},
    {STATES "rule=a:aa:\n", 8, 5},
    {STATES "rule=a:aa:a:\n", 8, 5},
    {STATES "rule=a:aa:A\n", 8, 5},
    {STATES "rule=A:1:\n", 3, 5},
    {"vars=1\nrules=2\ninit=a\nprop=a\nrule=a:1:1\nrule=a:1:\n", 4, 6},
    {STATES "rule=a:1:a", 1, 5},
    {STATES "rule=a:1:a\n\n", 9, 6},
};

/* Whether every call refuses the text by this number and line, with nothing beside them, and leaves each lent byte as it was. */
static int refused_by_all(struct text text, uint64_t answer)
{
    const uint8_t order[] = {0, 1, 2, 2}, log[] = {1, 0, 255};
    int good = codremif_must(text.bytes, text.length) == answer && codremif_may(text.bytes, text.length) == answer &&
               codremif_irr(text.bytes, text.length) == answer;
    for (size_t order_len = 0; order_len <= sizeof order; order_len++)
        good = codremif_one_core(text.bytes, text.length, order, order_len) == answer && good;
    for (size_t log_len = 0; log_len <= sizeof log; log_len++) {
        good = codremif_blame(text.bytes, text.length, log, log_len) == answer && good;
        good = codremif_breach(text.bytes, text.length, log, log_len) == CODREMIF_NO_PLACE && good;
    }
    for (size_t lent_bytes = 0; lent_bytes <= 128; lent_bytes += 128) {
        good = judged(text, 0, lent_bytes, answer, NULL, 0) && good;
        good = judged(text, 0xFFFFFFFF, lent_bytes, answer, NULL, 0) && good;
        good = reached(text, 0, lent_bytes, answer, NULL, 0) && good;
        good = reached(text, 0xFFFFFFFF, lent_bytes, answer, NULL, 0) && good;
        good = listed(codremif_cores, text, lent_bytes, answer, NULL, 0) && good;
        good = listed(codremif_cuts, text, lent_bytes, answer, NULL, 0) && good;
    }
    return good;
}

static void test_refused_texts(void)
{
    for (size_t i = 0; i < sizeof refused_texts / sizeof refused_texts[0]; i++) {
        const struct refused *r = &refused_texts[i];
        char what[64];
        struct text text = text_of(r->text, strlen(r->text));
        snprintf(what, sizeof what, "refused text %zu: number %u, line %u", i + 1, r->number, r->line);
        check(refused_by_all(text, r->number + 256 * r->line), what);
        free(text.bytes);
    }
    struct text cut_short = text_of(tremor, sizeof tremor - 2);
    check(refused_by_all(cut_short, 1 + 256 * 7), "Tremor without its last byte 10: number 1, line 7");
    free(cut_short.bytes);
    struct text too_long = text_of(tremor, sizeof tremor);
    check(refused_by_all(too_long, 9 + 256 * 8), "Tremor with the byte 0 of a C string: number 9, line 8");
    free(too_long.bytes);
}

static void test_null(void)
{
    uint8_t lent[4] = {1, 2, 3, 4};
    const uint8_t *text = (const uint8_t *)tremor, *still = (const uint8_t *)quiet;
    size_t length = sizeof tremor - 1, still_length = sizeof quiet - 1;
    check(codremif_judge(NULL, 0, 0, lent, 4) == 257 && codremif_judge(NULL, 0, 0, NULL, 0) == 257 &&
              codremif_reached(NULL, 0, 0, lent, 4) == 257 && codremif_reached(NULL, 0, 0, NULL, 0) == 257 &&
              codremif_cores(NULL, 0, lent, 4) == 257 && codremif_cores(NULL, 0, NULL, 0) == 257 &&
              codremif_cuts(NULL, 0, lent, 4) == 257 && codremif_cuts(NULL, 0, NULL, 0) == 257 && codremif_must(NULL, 0) == 257 &&
              codremif_may(NULL, 0) == 257 && codremif_irr(NULL, 0) == 257 && codremif_one_core(NULL, 0, lent, 4) == 257 &&
              codremif_one_core(NULL, 0, NULL, 0) == 257 && codremif_blame(NULL, 0, lent, 4) == 257 && codremif_blame(NULL, 0, NULL, 0) == 257 &&
              codremif_breach(NULL, 0, lent, 4) == CODREMIF_NO_PLACE && codremif_breach(NULL, 0, NULL, 0) == CODREMIF_NO_PLACE,
          "no text at NULL: number 1, line 1");
    check(memcmp(lent, (const uint8_t[]){1, 2, 3, 4}, 4) == 0, "no text at NULL: the lent bytes keep their content");
    check(codremif_judge(text, length, 0, NULL, 0) == 11 && codremif_judge(text, length, 7, NULL, 0) == TWO_40,
          "no byte lent at NULL: a broken set is refused by 11, a set that holds is judged");
    check(codremif_reached(text, length, 0, NULL, 0) == 11 && codremif_reached(text, length, 7, NULL, 0) == 11 &&
              codremif_reached(text, length, 8, NULL, 0) == 10,
          "no byte lent at NULL: the marks are refused by 11");
    check(codremif_cores(text, length, NULL, 0) == 11 && codremif_cuts(text, length, NULL, 0) == 11 &&
              codremif_cuts(still, still_length, NULL, 0) == 0,
          "no byte lent at NULL: a list of some sets is refused by 11, one of none is given");
    check(codremif_one_core(text, length, NULL, 0) == 13 && codremif_one_core(still, still_length, NULL, 0) == 13, "no order at NULL: refused by 13");
    check(codremif_blame(text, length, NULL, 0) == 14 && codremif_breach(still, still_length, NULL, 0) == CODREMIF_NO_PLACE,
          "no log at NULL: refused by 14");
}

/* The lent bytes hold nothing that was ever written: valgrind tells if an answer depends on them. */
static void test_unwritten_bytes(void)
{
    uint8_t *lent = block(CODREMIF_LIST_BYTES);
    const uint8_t *text = (const uint8_t *)tremor;
    uint64_t answer = codremif_judge(text, sizeof tremor - 1, 1, lent, CODREMIF_TRACE_BYTES);
    check(answer == 2 * 65536 && lent[0] == 0 && lent[1] == 5, "bytes that were never written take a trace");
    answer = codremif_reached(text, sizeof tremor - 1, 1, lent + 2, CODREMIF_MARK_BYTES);
    check(answer == 48 * 65536 && lent[2] == 1 && lent[6] == 0 && lent[9] == 1, "bytes that were never written take marks");
    answer = codremif_cores(text, sizeof tremor - 1, lent + 10, CODREMIF_LIST_BYTES - 10);
    check(answer == 2 * 65536 && lent[10] == 4 && lent[11] == 0, "bytes that were never written take a list");
    free(lent);
}

static void test_pairs(void)
{
    struct model model;
    uint8_t sets[512];
    model_pairs(&model);
    struct text text = text_of(model.text, model.length);
    int good = codremif_cores(text.bytes, text.length, sets, 512) == 256 * 65536;
    for (size_t i = 0; i < 256; i++) {
        uint32_t expected = 0;
        for (unsigned k = 0; k < 8; k++)
            expected |= (i >> k & 1 ? 2u : 1u) << 2 * k;
        good = good && codremif_set_at(sets, i) == expected;
    }
    check(good, "eight pairs: the 256 cores, by number");
    good = codremif_cuts(text.bytes, text.length, sets, 512) == 8 * 65536;
    for (size_t k = 0; k < 8; k++)
        good = good && codremif_set_at(sets, k) == 3u << 2 * k;
    check(good, "eight pairs: the cuts are the pairs");
    check(judged(text, 0xFFFF ^ 0xC00, 2, 2 * 65536, (const uint8_t[]){0, 13}, 2), "eight pairs: without the sixth the trace is 0, 13");
    check(listed(codremif_cores, text, 511, 11, NULL, 0), "eight pairs: 511 bytes are refused by 11");
    check(has_kinds(text, 0, 0xFFFF, 0), "eight pairs: MUST is 0, and MAY is every rule");
    free(text.bytes);
}

/* Whether the vectors of a set are seven that span seven bits: each, freed of those before it, leaves something. */
static int is_basis(uint32_t set)
{
    unsigned found = 0, spanning[16];
    for (unsigned i = 0; i < 16; i++) {
        unsigned rest = model_vectors[i];
        if (!(set >> i & 1))
            continue;
        for (unsigned j = 0; j < found; j++)
            if ((rest ^ spanning[j]) < rest)
                rest ^= spanning[j];
        if (rest == 0)
            return 0;
        spanning[found++] = rest;
    }
    return found == 7;
}

static void test_bases(void)
{
    static uint8_t sets[CODREMIF_LIST_BYTES];
    struct model model;
    model_bases(&model);
    size_t count = codremif_count(codremif_cores((const uint8_t *)model.text, model.length, sets, sizeof sets));
    size_t place = 0;
    int good = 1;
    for (uint32_t set = 0; set < 65536; set++)
        if (is_basis(set)) {
            good = good && place < count && codremif_set_at(sets, place) == set;
            place++;
        }
    check(good && place == count && count > 5000, "seven bits and 16 vectors: the cores are the bases, by number");
}

struct answers {
    uint64_t judge, reached, cores, cuts, must, may, irr, one_core, blame, breach, suffices, witness;
    uint8_t trace[CODREMIF_TRACE_BYTES], marks[CODREMIF_MARK_BYTES], core_sets[CODREMIF_LIST_BYTES], cut_sets[CODREMIF_LIST_BYTES];
};

static void ask_all(const struct model *model, struct answers *answers)
{
    static const uint8_t order[CODREMIF_RULES] = {0, 1, 2, 3, 4, 5, 6, 7, 8, 9, 10, 11, 12, 13, 14, 15};
    static const uint8_t log[] = {0, 1, 2, 3, 1, 0};
    const uint8_t *text = (const uint8_t *)model->text;
    memset(answers, 0, sizeof *answers);
    answers->judge = codremif_judge(text, model->length, 2, answers->trace, sizeof answers->trace);
    answers->reached = codremif_reached(text, model->length, 2, answers->marks, sizeof answers->marks);
    answers->cores = codremif_cores(text, model->length, answers->core_sets, sizeof answers->core_sets);
    answers->cuts = codremif_cuts(text, model->length, answers->cut_sets, sizeof answers->cut_sets);
    answers->must = codremif_must(text, model->length);
    answers->may = codremif_may(text, model->length);
    answers->irr = codremif_irr(text, model->length);
    answers->one_core = codremif_one_core(text, model->length, order, codremif_rules(text, model->length));
    answers->blame = codremif_blame(text, model->length, log, sizeof log);
    answers->breach = codremif_breach(text, model->length, log, sizeof log);
    size_t cores_len = 2 * codremif_count(answers->cores), cuts_len = 2 * codremif_count(answers->cuts);
    answers->suffices = codremif_suffices(2, answers->core_sets, cores_len, answers->cut_sets, cuts_len);
    answers->witness = codremif_witness(2, answers->core_sets, cores_len, answers->cut_sets, cuts_len);
}

#define MODELS 4
#define THREADS 4
#define ROUNDS 20

static struct model shared_models[MODELS];
static struct answers alone[MODELS];

/* Asks the shared models again and again, each thread beginning with another, and says whether the answers are those that were given alone. */
static void *ask_beside_others(void *first)
{
    struct answers *answers = block(sizeof *answers);
    int good = 1;
    for (size_t round = 0; round < ROUNDS; round++) {
        size_t i = (*(size_t *)first + round) % MODELS;
        ask_all(&shared_models[i], answers);
        good = good && memcmp(answers, &alone[i], sizeof *answers) == 0;
    }
    free(answers);
    return good ? first : NULL;
}

static void test_threads(void)
{
    pthread_t threads[THREADS];
    size_t first[THREADS];
    int good = 1;
    model_text(&shared_models[0], tremor);
    model_text(&shared_models[1], chain);
    model_pairs(&shared_models[2]);
    model_text(&shared_models[3], shared);
    for (size_t i = 0; i < MODELS; i++)
        ask_all(&shared_models[i], &alone[i]);
    for (size_t i = 0; i < THREADS; i++) {
        first[i] = i;
        if (pthread_create(&threads[i], NULL, ask_beside_others, &first[i]) != 0)
            abort();
    }
    for (size_t i = 0; i < THREADS; i++) {
        void *result;
        pthread_join(threads[i], &result);
        good = good && result != NULL;
    }
    check(good, "threads at once on the same texts get the answers that one gets alone");
}

static volatile sig_atomic_t interrupted, interrupted_well = 1;

/* Asks a model in the middle of whatever the program is at. The library keeps no state, so neither call can tell. */
static void ask_in_handler(int signal)
{
    static struct answers answers;
    size_t i = (size_t)interrupted % MODELS;
    (void)signal;
    ask_all(&shared_models[i], &answers);
    if (memcmp(&answers, &alone[i], sizeof answers) != 0)
        interrupted_well = 0;
    interrupted++;
}

/* After test_threads, which has asked the shared models alone. */
static void test_signals(void)
{
    struct answers *answers = block(sizeof *answers);
    struct sigaction action;
    struct itimerval every = {{0, 2000}, {0, 2000}}, never = {{0, 0}, {0, 0}};
    int good = 1;
    memset(&action, 0, sizeof action);
    action.sa_handler = ask_in_handler;
    action.sa_flags = SA_RESTART;
    if (sigaction(SIGALRM, &action, NULL) != 0 || setitimer(ITIMER_REAL, &every, NULL) != 0)
        abort();
    for (size_t round = 0; round < 100000 && interrupted < 50; round++) {
        ask_all(&shared_models[round % MODELS], answers);
        good = good && memcmp(answers, &alone[round % MODELS], sizeof *answers) == 0;
    }
    /* the handler stays: a signal may still be under way */
    setitimer(ITIMER_REAL, &never, NULL);
    free(answers);
    check(good && interrupted_well && interrupted >= 50, "a signal handler asks in the middle of a call, and both answers are right");
}

int main(void)
{
    test_unpacking();
    test_refusals();
    test_constants();
    test_tremor();
    test_other_models();
    test_reached();
    test_reached_at_the_edges();
    test_largest_reached();
    test_properties();
    test_start_parts();
    test_kinds();
    test_refused_texts();
    test_null();
    test_unwritten_bytes();
    test_pairs();
    test_bases();
    test_threads();
    test_signals();
    return exit_status();
}
