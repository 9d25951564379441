/*
 * Tests of codremif_blame and codremif_breach as a C host makes them. What is expected is written by hand from docs/FORMAT.md. The text and the log
 * stand in pages that can only be read, between two that cannot be touched: so a byte that is read too many, and any byte that is written, ends the
 * program. What a page has beside a log is 0, which is a state.
 */
#include <stdio.h>
#include <stdlib.h>
#include <string.h>

#include "checks.h"
#include "codremif.h"
#include "fences.h"
#include "models.h"

#define TWO_40 ((uint64_t)1 << 40)

/* More states than are counted in 16 bits, and than many pages have. */
#define MANY_STATES ((size_t)200000)

/* A log as a test writes it. */
struct log {
    const uint8_t *states;
    size_t length;
};

#define LOG(...) ((struct log){(const uint8_t[]){__VA_ARGS__}, sizeof((const uint8_t[]){__VA_ARGS__})})
#define EMPTY ((struct log){NULL, 0})

/* Whether both calls answer so wherever the text and the log stand. */
static int answers(const char *text, struct log log, uint64_t answer, uint64_t place)
{
    int good = 1;
    for (int sides = 0; sides < 4; sides++) {
        struct fenced fenced_text = fence((const uint8_t *)text, strlen(text), sides & 1 ? BEFORE_THE_SECOND : BEHIND_THE_FIRST);
        struct fenced fenced_log = fence(log.states, log.length, sides & 2 ? BEFORE_THE_SECOND : BEHIND_THE_FIRST);
        good = codremif_blame(fenced_text.bytes, strlen(text), fenced_log.bytes, log.length) == answer && good;
        good = codremif_breach(fenced_text.bytes, strlen(text), fenced_log.bytes, log.length) == place && good;
        take_down(&fenced_text);
        take_down(&fenced_log);
    }
    return good;
}

/* These rules are broken, and the first bad state is at this place. */
static int breach(const char *text, struct log log, uint32_t broken, size_t place)
{
    return answers(text, log, 65536 * (uint64_t)broken, place);
}

/* These rules are broken, and no state is bad. */
static int no_breach(const char *text, struct log log, uint32_t broken)
{
    return answers(text, log, 65536 * (uint64_t)broken + TWO_40, log.length);
}

static int refused(const char *text, struct log log, uint64_t number)
{
    return answers(text, log, number, CODREMIF_NO_PLACE);
}

static const char tremor[] = "vars=3\nrules=3\ninit=!c\nprop=>c&ab\nrule=ra:>CA\nrule=rb:>CB\nrule=vote:>C&AB\n";
static const char chain[] = "vars=2\nrules=2\ninit=&!a!b\nprop=!b\nrule=same:=Aa\nrule=late:>Ba\n";
static const char stale[] = "vars=4\nrules=2\ninit=&!a&!b&!c!d\nprop=>c&ab\nrule=mem:=Da\nrule=vote:>C&BD\n";
static const char never[] = "vars=1\nrules=1\ninit=!a\nprop=!a\nrule=none:0\n";
static const char no_start[] = "vars=1\nrules=1\ninit=0\nprop=0\nrule=any:1\n";
static const char both[] = "vars=2\nrules=2\ninit=&!a!b\nprop=!a\nprop=!b\nrule=ra:=Aa\nrule=rb:=Bb\n";
static const char four[] = "vars=2\nrules=2\ninit=&!a!b\nprop=1\nprop=1\nprop=1\nprop=!&ab\nrule=any:1\nrule=late:>Ba\n";
static const char seven[] = "vars=7\nrules=1\ninit=1\nprop=!g\nrule=same:=Gg\n";

/* Tremor that may start in any state, and a rule that it starts quiet. */
static const char power_up[] = "vars=3\nrules=4\ninit=1\nprop=>c&ab\nrule=ra:>CA\nrule=rb:>CB\nrule=vote:>C&AB\nrule=quiet:1:!c\n";
/* One rule with both parts, and one with a start part that `init` contradicts. */
static const char both_parts[] = "vars=1\nrules=2\ninit=1\nprop=!a\nrule=off:>Aa:!a\nrule=any:1\n";
static const char contrary[] = "vars=1\nrules=1\ninit=!a\nprop=1\nrule=on:1:a\n";

static void test_unpacking(void)
{
    uint64_t largest = 65536 * (uint64_t)65535, without_breach = largest + TWO_40;
    check(codremif_set(largest) == 65535 && codremif_no_breach(largest) == 0 && codremif_accepted(largest) && codremif_judgements(largest) == 0,
          "the broken rules are taken out of an answer, and that some state is bad");
    check(codremif_set(without_breach) == 65535 && codremif_no_breach(without_breach) == 1 && codremif_accepted(without_breach) &&
              codremif_line(without_breach) == 0,
          "2^40 says that no state is bad, and is no part of the others");
    check(codremif_number(14) == CODREMIF_NOT_A_LOG && codremif_number(15) == CODREMIF_INIT_UNMET && !codremif_accepted(14) &&
              !codremif_accepted(15) && codremif_set(15) == 0 && codremif_no_breach(14) == 0,
          "a refused log is number 14 or 15, line 0, with no rule and no word on its states");
    check(CODREMIF_NO_PLACE == UINT64_MAX, "no place is 2^64 - 1");
}

static void test_tremor(void)
{
    check(breach(tremor, LOG(0, 1, 3, 7, 5, 1), 6, 4), "Tremor: B comes to rest while the unit rings, and rb and vote are to blame");
    check(breach(tremor, LOG(0, 6), 5, 1) && breach(tremor, LOG(0, 3, 4), 7, 2), "Tremor: without A it is ra and vote, without both all three");
    check(no_breach(tremor, LOG(0, 1, 3, 7), 0) && no_breach(tremor, LOG(0), 0) && no_breach(tremor, LOG(3, 7, 7, 2, 7), 0),
          "Tremor: it rings while both move, and nothing is wrong");
    check(breach(tremor, LOG(0, 5, 6), 7, 1) && breach(tremor, LOG(0, 5, 1, 3, 6), 7, 1) && breach(tremor, LOG(0, 5, 5), 6, 1),
          "Tremor: rules that are broken after the breach are broken too, and the first breach stays the first");
    check(breach(tremor, LOG(1, 4, 0, 0, 0), 7, 1) && breach(tremor, LOG(0, 0, 0, 0, 6), 5, 4),
          "Tremor: the first pair of a log counts, and the last");
}

static void test_other_models(void)
{
    check(no_breach(chain, LOG(0, 1), 1) && no_breach(chain, LOG(0, 1, 0), 1) && no_breach(chain, LOG(0, 0), 0),
          "N 2: a rule is broken, though no state is bad");
    check(breach(chain, LOG(0, 1, 2), 1, 2) && breach(chain, LOG(0, 1, 3, 0), 1, 2) && breach(chain, LOG(0, 2), 2, 1),
          "N 2: either rule is broken alone, and is a cut alone");
    check(breach(stale, LOG(0, 1, 14), 0, 2) && breach(stale, LOG(0, 1, 14, 14), 1, 2),
          "a stale vote: no rule is broken up to the breach, since the full set is broken");
    check(no_breach(never, LOG(0), 0) && no_breach(never, LOG(0, 0), 1) && breach(never, LOG(0, 1), 1, 1),
          "a rule that no step meets is broken by the first step, and by no log of one state");
    check(breach(both, LOG(0, 2), 2, 1) && breach(both, LOG(0, 1, 2), 3, 1) && breach(four, LOG(0, 1, 2, 3), 2, 3),
          "several properties: the first breach of any, the last property's too");
    check(breach(seven, LOG(127), 0, 0) && breach(seven, LOG(63, 127, 127), 1, 1) && no_breach(seven, LOG(0, 63), 0),
          "seven bits: 127 is a state");
}

static void test_start_parts(void)
{
    check(breach(power_up, LOG(4), 8, 0) && breach(power_up, LOG(5, 1), 8, 0) && no_breach(power_up, LOG(7), 8) &&
              no_breach(power_up, LOG(7, 3, 7), 8),
          "a start part that fails in the first state breaks its rule, be that state bad or not");
    check(no_breach(power_up, LOG(0, 7, 7), 0) && breach(power_up, LOG(0, 4), 7, 1), "a start part is not asked of later states");
    check(breach(power_up, LOG(5, 6), 13, 0) && breach(power_up, LOG(7, 7, 5), 14, 2), "a log breaks some rules by a start part, others by a step part");
    check(breach(both_parts, LOG(1), 1, 0) && breach(both_parts, LOG(1, 0), 1, 0) && breach(both_parts, LOG(0, 1), 1, 1) &&
              no_breach(both_parts, LOG(0, 0), 0),
          "a rule with both parts is broken by either");
    check(no_breach(contrary, LOG(0), 1) && refused(contrary, LOG(1), 15), "the first state need meet init, and no start part");
}

static void test_not_logs(void)
{
    check(refused(tremor, EMPTY, 14) && refused(seven, EMPTY, 14) && refused(no_start, EMPTY, 14), "a log without a state is refused by 14");
    check(refused(tremor, LOG(8), 14) && refused(tremor, LOG(8, 0), 14) && refused(tremor, LOG(0, 8, 0), 14) && refused(tremor, LOG(0, 0, 8), 14) &&
              refused(tremor, LOG(0, 255), 14) && refused(tremor, LOG(0, 5, 8), 14),
          "a state of 2^N or more is refused by 14, wherever it stands, and behind a breach");
    check(refused(seven, LOG(128), 14) && refused(seven, LOG(0, 128), 14) && refused(seven, LOG(255, 127), 14), "seven bits: 128 is refused by 14");
    check(refused(tremor, LOG(4), 15) && refused(tremor, LOG(7), 15) && refused(tremor, LOG(5, 0, 0), 15) && refused(no_start, LOG(0), 15) &&
              refused(no_start, LOG(1, 0), 15),
          "a first state that does not meet init is refused by 15");
    check(refused(tremor, LOG(4, 8), 14) && refused(tremor, LOG(7, 0, 255), 14) && refused(no_start, LOG(0, 2), 14), "14 is tried before 15");
}

/* Each byte as the only state of a log, as the first, as the last and between others. */
static void test_every_byte(void)
{
    int good = 1;
    for (unsigned value = 0; value <= 255; value++) {
        uint8_t state = (uint8_t)value;
        /* What is broken by the step to it from any state: the trigger is on without A, and without B. */
        uint32_t broken = (value & 5) == 4 ? 5 : 0;
        broken |= (value & 6) == 4 ? 6 : 0;
        if (value >= 8) {
            good = refused(tremor, LOG(state), 14) && refused(tremor, LOG(state, 0), 14) && good;
            good = refused(tremor, LOG(0, state), 14) && refused(tremor, LOG(0, state, 0), 14) && good;
            continue;
        }
        if (value >= 4)
            good = refused(tremor, LOG(state), 15) && refused(tremor, LOG(state, 0), 15) && good;
        else
            good = no_breach(tremor, LOG(state), 0) && no_breach(tremor, LOG(state, 0), 0) && good;
        if (broken != 0)
            good = breach(tremor, LOG(0, state), broken, 1) && breach(tremor, LOG(0, state, 0), broken, 1) && good;
        else
            good = no_breach(tremor, LOG(0, state), 0) && no_breach(tremor, LOG(0, state, 0), 0) && good;
    }
    check(good, "each byte as the only state of a log, the first, the last and between others");
}

/* Zeros, of which the last is then 5: bad, and after any state rb and vote are broken. Then the last is no state. */
static void test_every_length(void)
{
    static uint8_t states[MANY_STATES];
    const size_t longer[] = {4095, 4096, 4097, 65535, 65536, 65537, MANY_STATES};
    int good = 1;
    for (size_t i = 0; i < 300 + sizeof longer / sizeof longer[0]; i++) {
        size_t length = i < 300 ? i + 2 : longer[i - 300];
        struct log log = {states, length};
        good = no_breach(tremor, log, 0) && good;
        states[length - 1] = 5;
        good = breach(tremor, log, 6, length - 1) && good;
        states[length - 1] = 8;
        good = refused(tremor, log, 14) && good;
        states[length - 1] = 0;
    }
    check(good, "each length from 2 to 301, about a page, about 2^16 and 200,000: the last state counts");
    struct log log = {states, MANY_STATES};
    states[65536] = 6;
    states[MANY_STATES - 2] = 5;
    check(breach(tremor, log, 7, 65536), "200,000 states: the first breach is at place 65,536, and what is broken near the end counts");
    memset(states, 0, sizeof states);
}

/* The numbers of the text come before 14 and 15. */
static void test_text_first(void)
{
    const struct log logs[] = {EMPTY, LOG(0), LOG(1), LOG(2), LOG(255), LOG(0, 1), LOG(1, 200)};
    int good = 1;
    for (size_t i = 0; i < sizeof logs / sizeof logs[0]; i++) {
        good = refused("vars=1\nrules=1\ninit=!a\nprop=1\nrule=any:1\n\n", logs[i], 9 + 256 * 6) && good;
        good = refused("vars=1\nrules=1\ninit=!a\nprop=1\nrule=any:1", logs[i], 1 + 256 * 5) && good;
        good = refused("vars=1\nrules=17\ninit=!a\nprop=1\nrule=any:1\n", logs[i], 2 + 256 * 2) && good;
        good = refused("", logs[i], 1 + 256 * 1) && good;
    }
    check(good, "a refused text comes before bytes that are no log, and before a first state that does not meet init: 9 as well as 1 and 2");
}

/* Seven bits, so that the bytes of a text are states. Byte 10 is the bad one; the first is at place 6. The rule keeps `g` as it is. */
static const char own_log[] = "vars=7\nrules=1\ninit=1\nprop=!&b&d!|a|c|e|fg\nrule=same:=Gg\n";

static void test_null_and_shared_memory(void)
{
    const uint8_t *text = (const uint8_t *)tremor, *own = (const uint8_t *)own_log;
    size_t length = sizeof tremor - 1, own_length = sizeof own_log - 1;
    check(codremif_blame(text, length, NULL, 0) == 14 && codremif_breach(text, length, NULL, 0) == CODREMIF_NO_PLACE,
          "no log at NULL: refused by 14");
    check(codremif_blame(NULL, 0, NULL, 0) == 257 && codremif_blame(NULL, 0, text, 3) == 257 &&
              codremif_breach(NULL, 0, NULL, 0) == CODREMIF_NO_PLACE && codremif_breach(NULL, 0, text, 3) == CODREMIF_NO_PLACE,
          "no text at NULL: number 1, line 1");
    check(codremif_blame(text, length, text, length) == 14 && codremif_breach(text, length, text, length) == CODREMIF_NO_PLACE,
          "a log that is the text itself: its bytes are no states of three bits, so it is refused by 14");
    check(breach(own_log, (struct log){own, own_length}, 1, 6) && codremif_blame(own, own_length, own, own_length) == 65536 &&
              codremif_breach(own, own_length, own, own_length) == 6 && codremif_blame(own, own_length, own, 6) == 65536 + TWO_40 &&
              codremif_breach(own, own_length, own, 6) == 6,
          "a log that is the text itself, and its first line: bytes are states of seven bits");
}

/* Each step to 8 + k breaks the rules of the pair k, and no other. */
static void test_pairs(void)
{
    struct model model;
    int good = 1;
    model_pairs(&model);
    for (unsigned k = 0; k < 8; k++)
        good = breach(model.text, LOG(0, 7, (uint8_t)(8 + k), 3), 3u << 2 * k, 2) && good;
    check(good, "eight pairs: the step to a bad state breaks the two rules that forbid it, which are a cut");
    check(breach(model.text, LOG(0, 8, 9, 10, 11, 12, 13, 14, 15), 0xFFFF, 1) && breach(model.text, LOG(2, 15, 8), 0xC003, 1),
          "eight pairs: the rules of all steps are broken, sixteen at the most");
    check(no_breach(model.text, LOG(0, 1, 2, 3, 4, 5, 6, 7), 0), "eight pairs: good states break no rule");
}

/* The step to a state breaks each rule whose vector has an odd number of bits in common with it. */
static void test_bases(void)
{
    struct model model;
    int good = 1;
    model_bases(&model);
    /* each bit comes up, and few states are asked: a call on the largest tables takes long under valgrind */
    for (unsigned state = 1; state < 128; state += 9) {
        uint32_t broken = 0;
        for (unsigned i = 0; i < 16; i++) {
            unsigned odd = 0;
            for (unsigned bit = 0; bit < 7; bit++)
                odd ^= (model_vectors[i] & state) >> bit & 1;
            broken |= odd << i;
        }
        good = breach(model.text, LOG(0, (uint8_t)state), broken, 1) && good;
        good = breach(model.text, LOG(0, 0, (uint8_t)state, 0), broken, 2) && good;
    }
    check(good, "seven bits and 16 vectors: the step to every ninth state breaks the rules with an odd number of its bits");
}

static void test_counter(void)
{
    struct model model;
    uint8_t states[129];
    model_counter(&model);
    for (unsigned i = 0; i < 129; i++)
        states[i] = (uint8_t)(i % 128);
    check(no_breach(model.text, (struct log){states, 129}, 0), "a counter: it counts through 128 states and begins again, and breaks no rule");
    states[64] = 65;
    check(no_breach(model.text, (struct log){states, 129}, 3), "a counter: with 65 for 64 the rules of the two lowest bits are broken");
    check(refused(model.text, (struct log){states + 1, 128}, 15), "a counter: a log that begins with 1 is refused by 15");
}

int main(void)
{
    test_unpacking();
    test_tremor();
    test_other_models();
    test_start_parts();
    test_not_logs();
    test_every_byte();
    test_every_length();
    test_text_first();
    test_null_and_shared_memory();
    test_pairs();
    test_bases();
    test_counter();
    return exit_status();
}
