/*
 * Tests of codremif_one_core as a C host makes them. What is expected is written by hand from docs/FORMAT.md. The text and the order stand in pages
 * that can only be read, between two that cannot be touched: so a byte that is read too many, and any byte that is written, ends the program. What a
 * page has beside an order is 0, which is the place of a rule.
 */
#include <stdio.h>
#include <stdlib.h>
#include <string.h>

#include "checks.h"
#include "codremif.h"
#include "fences.h"
#include "models.h"

#define TWO_40 ((uint64_t)1 << 40)
#define TWO_41 ((uint64_t)1 << 41)

/* The answers that there are. */
#define FOUND(set, rules) (65536 * (uint64_t)(set) + TWO_40 + ((rules) + 1) * TWO_41)
#define NO_CORE TWO_41
#define REFUSED ((uint64_t)13)

/* An order as a test writes it. */
struct order {
    const uint8_t *places;
    size_t length;
};

#define ORDER(...) ((struct order){(const uint8_t[]){__VA_ARGS__}, sizeof((const uint8_t[]){__VA_ARGS__})})
#define EMPTY ((struct order){NULL, 0})

/* Whether the call answers so wherever the text and the order stand. */
static int answers(const char *text, struct order order, uint64_t answer)
{
    int good = 1;
    for (int sides = 0; sides < 4; sides++) {
        struct fenced fenced_text = fence((const uint8_t *)text, strlen(text), sides & 1 ? BEFORE_THE_SECOND : BEHIND_THE_FIRST);
        struct fenced fenced_order = fence(order.places, order.length, sides & 2 ? BEFORE_THE_SECOND : BEHIND_THE_FIRST);
        good = codremif_one_core(fenced_text.bytes, strlen(text), fenced_order.bytes, order.length) == answer && good;
        take_down(&fenced_text);
        take_down(&fenced_order);
    }
    return good;
}

static int found(const char *text, struct order order, uint32_t core)
{
    return answers(text, order, FOUND(core, order.length));
}

static int refused(const char *text, struct order order)
{
    return answers(text, order, REFUSED);
}

static const char tremor[] = "vars=3\nrules=3\ninit=!c\nprop=>c&ab\nrule=ra:>CA\nrule=rb:>CB\nrule=vote:>C&AB\n";
static const char broken[] = "vars=3\nrules=3\ninit=!c\nprop=!c\nrule=ra:>CA\nrule=rb:>CB\nrule=vote:>C&AB\n";
static const char chain[] = "vars=2\nrules=2\ninit=&!a!b\nprop=!b\nrule=same:=Aa\nrule=late:>Ba\n";
static const char quiet[] = "vars=1\nrules=1\ninit=1\nprop=1\nrule=any:1\n";
static const char stale[] = "vars=4\nrules=2\ninit=&!a&!b&!c!d\nprop=>c&ab\nrule=mem:=Da\nrule=vote:>C&BD\n";
static const char battery[] = "vars=4\nrules=5\ninit=!c\nprop=>c&ab\nrule=motion:>CA\nrule=quiet:>!a!C\nrule=power:>CB\nrule=double:>C&aA\n"
                              "rule=lamp:=DC\n";
static const char shared[] = "vars=2\nrules=3\ninit=&!a!b\nprop=!a\nprop=!b\nprop=!&ab\nprop=1\nrule=ra:!A\nrule=rb:!B\nrule=none:!|AB\n";

/* Tremor that may start in any state, and a rule that it starts quiet. */
static const char power_up[] = "vars=3\nrules=4\ninit=1\nprop=>c&ab\nrule=ra:>CA\nrule=rb:>CB\nrule=vote:>C&AB\nrule=quiet:1:!c\n";

static void test_unpacking(void)
{
    uint64_t largest = FOUND(65535, 16);
    check(codremif_set(largest) == 65535 && codremif_judgements(largest) == 17 && codremif_holds(largest) == 1 && codremif_accepted(largest) &&
              codremif_line(largest) == 0,
          "the core, the judgements and the verdict on the full set are taken out of an answer");
    check(codremif_set(NO_CORE) == 0 && codremif_judgements(NO_CORE) == 1 && codremif_holds(NO_CORE) == 0 && codremif_accepted(NO_CORE),
          "no core is set 0 after one judgement, and the full set does not hold");
    check(codremif_judgements(TWO_41 - 1) == 0 && codremif_judgements(17 * TWO_41 + TWO_40) == 17 && codremif_set(17 * TWO_41) == 0,
          "the judgements are no part of the others");
    check(codremif_number(REFUSED) == CODREMIF_NOT_AN_ORDER && codremif_line(REFUSED) == 0 && codremif_judgements(REFUSED) == 0 &&
              !codremif_accepted(REFUSED),
          "bytes that are no order are number 13, line 0");
}

static void test_tremor(void)
{
    check(found(tremor, ORDER(0, 1, 2), 4) && found(tremor, ORDER(1, 0, 2), 4) && found(tremor, ORDER(0, 2, 1), 4) &&
              found(tremor, ORDER(1, 2, 0), 4),
          "Tremor: vote alone is found where another rule comes first in the order");
    check(found(tremor, ORDER(2, 0, 1), 3) && found(tremor, ORDER(2, 1, 0), 3), "Tremor: ra and rb are found where vote comes first");
}

static void test_other_models(void)
{
    check(found(chain, ORDER(0, 1), 3) && found(chain, ORDER(1, 0), 3), "no rule can be dropped: both are found in both orders");
    check(found(quiet, ORDER(0), 0), "set 0 is found, after two judgements");
    check(answers(stale, ORDER(0, 1), NO_CORE) && answers(stale, ORDER(1, 0), NO_CORE) && answers(broken, ORDER(2, 0, 1), NO_CORE),
          "the full set is broken: there is no core, after one judgement");
    check(found(battery, ORDER(0, 1, 2, 3, 4), 12) && found(battery, ORDER(4, 3, 2, 1, 0), 5) && found(battery, ORDER(2, 3, 0, 4, 1), 5) &&
              found(battery, ORDER(2, 0, 3, 4, 1), 12),
          "all kinds of rules: power is kept where it comes first, quiet and lamp are dropped where they come last");
    check(found(shared, ORDER(0, 1, 2), 4) && found(shared, ORDER(2, 0, 1), 3) && found(shared, ORDER(0, 2, 1), 4),
          "four properties: the set that remains holds for each");
    check(found(power_up, ORDER(0, 1, 2, 3), 12) && found(power_up, ORDER(3, 2, 0, 1), 11) && found(power_up, ORDER(2, 3, 1, 0), 11),
          "a start part: its rule is kept wherever it stands in the order");
}

static void test_not_orders(void)
{
    const char *const texts[] = {tremor, broken};
    int too_few = 1, too_many = 1, twice = 1, beyond = 1;
    for (size_t i = 0; i < 2; i++) {
        const char *text = texts[i];
        too_few = refused(text, EMPTY) && refused(text, ORDER(0)) && refused(text, ORDER(0, 1)) && refused(text, ORDER(2, 1)) && too_few;
        too_many = refused(text, ORDER(0, 1, 2, 0)) && refused(text, ORDER(0, 1, 2, 3)) && refused(text, ORDER(2, 1, 0, 255)) && too_many;
        twice = refused(text, ORDER(0, 0, 2)) && refused(text, ORDER(0, 1, 0)) && refused(text, ORDER(1, 2, 2)) &&
                refused(text, ORDER(0, 0, 0)) && twice;
        beyond = refused(text, ORDER(3, 1, 2)) && refused(text, ORDER(0, 3, 2)) && refused(text, ORDER(0, 1, 3)) &&
                 refused(text, ORDER(0, 1, 255)) && refused(text, ORDER(255, 1, 2)) && refused(text, ORDER(16, 17, 18)) && beyond;
    }
    check(too_few, "too few places, and none at all, are refused by 13, whether the full set holds or not");
    check(too_many, "too many places are refused by 13");
    check(twice, "a place twice is refused by 13");
    check(beyond, "a place of R and more is refused by 13");
    check(refused(quiet, EMPTY) && refused(quiet, ORDER(1)) && refused(quiet, ORDER(255)) && refused(quiet, ORDER(0, 0)) &&
              refused(quiet, ORDER(0, 1)),
          "one rule: anything but the place 0 alone is refused by 13");
}

/* Each byte of an order changed to each value: it is one only with the value that it had. */
static void test_every_byte(void)
{
    const uint8_t kept[] = {2, 0, 1};
    int good = 1;
    for (size_t place = 0; place < sizeof kept; place++)
        for (unsigned value = 0; value <= 255; value++) {
            uint8_t changed[sizeof kept];
            memcpy(changed, kept, sizeof kept);
            changed[place] = (uint8_t)value;
            good = answers(tremor, (struct order){changed, sizeof changed}, value == kept[place] ? FOUND(3, 3) : REFUSED) && good;
        }
    check(good, "each byte of an order with each value is refused by 13, but for the one that it has");
}

/* Of 0, 1, .. and of 0, 1, 2 and zeros. The last lengths have a right count in their low 8 or 16 bits. */
static void test_every_length(void)
{
    static uint8_t by_number[65536 + 3], zeros[65536 + 3] = {0, 1, 2};
    const size_t lengths[] = {256, 256 + 3, 65536, 65536 + 3};
    int good = 1;
    for (size_t i = 0; i < sizeof by_number; i++)
        by_number[i] = (uint8_t)i;
    for (size_t length = 0; length <= 40; length++) {
        good = answers(tremor, (struct order){by_number, length}, length == 3 ? FOUND(4, 3) : REFUSED) && good;
        good = answers(tremor, (struct order){zeros, length}, length == 3 ? FOUND(4, 3) : REFUSED) && good;
    }
    for (size_t i = 0; i < sizeof lengths / sizeof lengths[0]; i++)
        good = refused(tremor, (struct order){by_number, lengths[i]}) && refused(tremor, (struct order){zeros, lengths[i]}) && good;
    check(good, "each length from 0 to 40, and 256 and 65,536 more than the right one, are refused by 13, but for the right one");
}

/* The numbers of the text come before 13. */
static void test_text_first(void)
{
    const struct order orders[] = {EMPTY, ORDER(0), ORDER(0, 0), ORDER(1), ORDER(255), ORDER(0, 1)};
    int good = 1;
    for (size_t i = 0; i < sizeof orders / sizeof orders[0]; i++) {
        good = answers("vars=1\nrules=1\ninit=1\nprop=1\nrule=any:1\n\n", orders[i], 9 + 256 * 6) && good;
        good = answers("vars=1\nrules=1\ninit=1\nprop=1\nrule=any:1", orders[i], 1 + 256 * 5) && good;
        good = answers("vars=1\nrules=17\ninit=1\nprop=1\nrule=any:1\n", orders[i], 2 + 256 * 2) && good;
        good = answers("", orders[i], 1 + 256 * 1) && good;
    }
    check(good, "a refused text comes before bytes that are no order: 9 as well as 1 and 2");
}

static void test_null_and_shared_memory(void)
{
    const uint8_t *text = (const uint8_t *)tremor;
    size_t length = sizeof tremor - 1;
    check(codremif_one_core(text, length, NULL, 0) == REFUSED && codremif_one_core((const uint8_t *)broken, sizeof broken - 1, NULL, 0) == REFUSED,
          "no order at NULL: refused by 13");
    check(codremif_one_core(NULL, 0, NULL, 0) == 257 && codremif_one_core(NULL, 0, text, 3) == 257, "no text at NULL: number 1, line 1");
    check(codremif_one_core(text, length, text, length) == REFUSED && codremif_one_core(text, length, text + 4, 3) == REFUSED,
          "an order that is a part of the text: no text has the place 0, so it is refused by 13");
}

/* The rules outside a set first, each half by number. */
static void order_for(uint32_t set, uint8_t order[16])
{
    size_t length = 0;
    for (uint32_t inside = 0; inside <= 1; inside++)
        for (unsigned place = 0; place < 16; place++)
            if ((set >> place & 1) == inside)
                order[length++] = (uint8_t)place;
}

static void test_pairs(void)
{
    uint8_t order[16], sets[512];
    struct model model;
    model_pairs(&model);
    const uint8_t *text = (const uint8_t *)model.text;
    int good = codremif_count(codremif_cores(text, model.length, sets, sizeof sets)) == 256;
    for (size_t i = 0; i < 256; i++) {
        order_for(codremif_set_at(sets, i), order);
        good = codremif_one_core(text, model.length, order, 16) == FOUND(codremif_set_at(sets, i), 16) && good;
    }
    check(good, "eight pairs: each of the 256 cores is found by the order that has the other rules first");
    check(found(model.text, ORDER(0, 1, 2, 3, 4, 5, 6, 7, 8, 9, 10, 11, 12, 13, 14, 15), 0xAAAA) &&
              found(model.text, ORDER(15, 14, 13, 12, 11, 10, 9, 8, 7, 6, 5, 4, 3, 2, 1, 0), 0x5555),
          "eight pairs: the second of each pair is kept where the first comes first, and the other way round");
    check(refused(model.text, ORDER(0, 1, 2, 3, 4, 5, 6, 7, 8, 9, 10, 11, 12, 13, 14)) &&
              refused(model.text, ORDER(0, 1, 2, 3, 4, 5, 6, 7, 8, 9, 10, 11, 12, 13, 14, 16)) &&
              refused(model.text, ORDER(0, 1, 2, 3, 4, 5, 6, 7, 8, 9, 10, 11, 12, 13, 14, 14)) &&
              refused(model.text, ORDER(0, 1, 2, 3, 4, 5, 6, 7, 8, 9, 10, 11, 12, 13, 14, 15, 16)),
          "sixteen rules: fifteen places, the place 16, a place twice and seventeen places are refused by 13");
}

/* A basis by an order: from the end of it, each vector that those after it do not make up. */
static uint32_t last_basis(const uint8_t order[16])
{
    uint32_t basis = 0;
    unsigned spanned[7], count = 0;
    for (size_t i = 16; i-- > 0;) {
        unsigned rest = model_vectors[order[i]];
        for (unsigned j = 0; j < count; j++)
            if ((rest ^ spanned[j]) < rest)
                rest ^= spanned[j];
        if (rest != 0) {
            spanned[count++] = rest;
            basis |= (uint32_t)1 << order[i];
        }
    }
    return basis;
}

/* Seven bits and 16 vectors, of which a core is a basis: thousands of cores. */
static void test_bases(void)
{
    struct model model;
    uint8_t order[16];
    int good = 1;
    model_bases(&model);
    for (unsigned factor = 1; factor < 16; factor += 2)
        for (unsigned offset = 0; offset < 16; offset++) {
            for (unsigned i = 0; i < 16; i++)
                order[i] = (uint8_t)((factor * i + offset) % 16);
            good = codremif_one_core((const uint8_t *)model.text, model.length, order, 16) == FOUND(last_basis(order), 16) && good;
        }
    check(good, "seven bits and 16 vectors: the basis is found that takes each vector as late in the order as can be");
}

int main(void)
{
    test_unpacking();
    test_tremor();
    test_other_models();
    test_not_orders();
    test_every_byte();
    test_every_length();
    test_text_first();
    test_null_and_shared_memory();
    test_pairs();
    test_bases();
    return exit_status();
}
