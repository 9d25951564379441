/*
 * Tests of codremif_suffices and codremif_witness as a C host makes them. What is expected is written by hand from docs/FORMAT.md. Each list stands
 * in pages that can only be read, between two that cannot be touched: once it ends where the second begins, and once it begins where the first ends.
 * So a byte that is read too many, and any byte that is written, ends the program. What a page has beside the list is 0: as a listed core it would be
 * inside every set, and as a listed cut apart from every set.
 */
#include <stdio.h>
#include <stdlib.h>

#include "checks.h"
#include "codremif.h"
#include "fences.h"
#include "models.h"

/* The answers that there are. */
#define UNLISTED ((uint64_t)0)
#define REFUSED ((uint64_t)12)
#define INSIDE (65536 + ((uint64_t)1 << 40))
#define APART ((uint64_t)131072)

/* More sets than the list of any model has. */
#define MANY_SETS ((size_t)200000)

/* A list as a test writes it. */
struct list {
    const uint8_t *bytes;
    size_t length;
};

#define LIST(...) ((struct list){(const uint8_t[]){__VA_ARGS__}, sizeof((const uint8_t[]){__VA_ARGS__})})
#define EMPTY ((struct list){NULL, 0})

static struct list part_of(struct list list, size_t length)
{
    return (struct list){list.bytes, length};
}

/* Whether both calls answer so where these very bytes are handed over, and the witness is two bytes of the right list. */
static int answers(uint32_t set, struct list cores, struct list cuts, uint64_t answer, uint64_t byte_place)
{
    uint64_t said = codremif_suffices(set, cores.bytes, cores.length, cuts.bytes, cuts.length);
    uint64_t found = codremif_witness(set, cores.bytes, cores.length, cuts.bytes, cuts.length);
    const uint8_t *witness = codremif_witness_bytes(said, found, cores.bytes, cuts.bytes), *expected = NULL;
    if (answer == INSIDE)
        expected = &cores.bytes[byte_place];
    if (answer == APART)
        expected = &cuts.bytes[byte_place];
    return said == answer && found == byte_place && witness == expected;
}

/* Whether both calls answer so wherever the lists stand. */
static int looked_up(uint32_t set, struct list cores, struct list cuts, uint64_t answer, uint64_t byte_place)
{
    int good = 1;
    for (int sides = 0; sides < 4; sides++) {
        struct fenced fenced_cores = fence(cores.bytes, cores.length, sides & 1 ? BEFORE_THE_SECOND : BEHIND_THE_FIRST);
        struct fenced fenced_cuts = fence(cuts.bytes, cuts.length, sides & 2 ? BEFORE_THE_SECOND : BEHIND_THE_FIRST);
        struct list read_cores = {fenced_cores.bytes, cores.length}, read_cuts = {fenced_cuts.bytes, cuts.length};
        good = answers(set, read_cores, read_cuts, answer, byte_place) && good;
        take_down(&fenced_cores);
        take_down(&fenced_cuts);
    }
    return good;
}

static int unlisted(uint32_t set, struct list cores, struct list cuts)
{
    return looked_up(set, cores, cuts, UNLISTED, CODREMIF_NO_WITNESS);
}

static int refused(uint32_t set, struct list cores, struct list cuts)
{
    return looked_up(set, cores, cuts, REFUSED, CODREMIF_NO_WITNESS);
}

/* The lists of Tremor: the cores are 4 and 3, the cuts 5 and 6. */
#define TREMOR_CORES LIST(4, 0, 3, 0)
#define TREMOR_CUTS LIST(5, 0, 6, 0)

static void test_unpacking(void)
{
    check(codremif_said(UNLISTED) == CODREMIF_UNLISTED && codremif_said(INSIDE) == CODREMIF_CORE_INSIDE &&
              codremif_said(APART) == CODREMIF_CUT_APART && codremif_said(REFUSED) == CODREMIF_UNLISTED,
          "what is said of the set is taken out of an answer");
    check(codremif_holds(INSIDE) == 1 && codremif_holds(APART) == 0 && codremif_holds(UNLISTED) == 0 && codremif_holds(REFUSED) == 0,
          "a core inside is 2^40 beside");
    check(codremif_number(REFUSED) == CODREMIF_ODD_LIST && codremif_line(REFUSED) == 0 && !codremif_accepted(REFUSED) &&
              codremif_accepted(INSIDE) && codremif_accepted(APART) && codremif_accepted(UNLISTED),
          "a list of odd length is number 12, line 0, and the other answers are accepted");
    const uint8_t cores[4] = {4, 0, 3, 0}, cuts[4] = {5, 0, 6, 0};
    check(codremif_witness_bytes(INSIDE, 2, cores, cuts) == cores + 2 && codremif_witness_bytes(APART, 0, cores, cuts) == cuts &&
              codremif_set_at(codremif_witness_bytes(INSIDE, 2, cores, cuts), 0) == 3 &&
              codremif_set_at(codremif_witness_bytes(APART, 2, cores, cuts), 0) == 6,
          "the witness is two bytes of the list that holds it");
    check(codremif_witness_bytes(UNLISTED, CODREMIF_NO_WITNESS, cores, cuts) == NULL &&
              codremif_witness_bytes(REFUSED, CODREMIF_NO_WITNESS, cores, cuts) == NULL &&
              codremif_witness_bytes(INSIDE, CODREMIF_NO_WITNESS, cores, cuts) == NULL &&
              codremif_witness_bytes(UNLISTED, 0, cores, cuts) == NULL,
          "where there is no witness there are no bytes");
    check(CODREMIF_NO_WITNESS == UINT64_MAX, "no byte place is that of no witness");
}

struct expected {
    uint32_t set;
    uint64_t answer;
    uint64_t byte_place;
};

static void test_tremor(void)
{
    const struct expected expected[] = {
        {0, APART, 0},      {1, APART, 2},      {2, APART, 0},          {3, INSIDE, 2},         {4, INSIDE, 0},          {5, INSIDE, 0},
        {6, INSIDE, 0},     {7, INSIDE, 0},     {8, APART, 0},          {9, APART, 2},          {11, INSIDE, 2},         {65536, APART, 0},
        {65539, INSIDE, 2}, {65540, INSIDE, 0}, {0x80000001, APART, 2}, {0xFFFF0000, APART, 0}, {0xFFFFFFFB, INSIDE, 2}, {0xFFFFFFFF, INSIDE, 0},
    };
    int good = 1;
    for (size_t i = 0; i < sizeof expected / sizeof expected[0]; i++)
        good = looked_up(expected[i].set, TREMOR_CORES, TREMOR_CUTS, expected[i].answer, expected[i].byte_place) && good;
    check(good, "Tremor: each of its sets, and sets with rules that it lacks, up to rule 31");
    check(looked_up(7, LIST(3, 0, 4, 0), TREMOR_CUTS, INSIDE, 0) && looked_up(0, TREMOR_CORES, LIST(6, 0, 5, 0), APART, 0) &&
              looked_up(1, TREMOR_CORES, LIST(6, 0, 5, 0), APART, 0),
          "the first in the list's own order is the witness, whatever the order is");
    check(looked_up(3, LIST(4, 0, 3, 0, 3, 0, 1, 0), TREMOR_CUTS, INSIDE, 2) && looked_up(1, TREMOR_CORES, LIST(5, 0, 5, 0, 6, 0, 6, 0), APART, 4),
          "a set that stands twice is found at its first place");
    check(looked_up(3, TREMOR_CUTS, TREMOR_CORES, APART, 0) && looked_up(4, TREMOR_CUTS, TREMOR_CORES, APART, 2) &&
              looked_up(6, TREMOR_CUTS, TREMOR_CORES, INSIDE, 2) && looked_up(7, TREMOR_CUTS, TREMOR_CORES, INSIDE, 0),
          "each list is searched as the one it is handed over as, with the lists exchanged too");
    check(looked_up(4, LIST(4, 0), LIST(3, 0), INSIDE, 0) && looked_up(4, LIST(5, 0), LIST(3, 0), APART, 0) && unlisted(4, LIST(5, 0), LIST(6, 0)),
          "a core inside comes before a cut apart");
}

static void test_unlisted(void)
{
    check(unlisted(3, LIST(4, 0), TREMOR_CUTS) && unlisted(4, LIST(3, 0), TREMOR_CUTS),
          "Tremor without one of its cores: a set that it was in is unlisted");
    check(unlisted(1, TREMOR_CORES, LIST(5, 0)) && unlisted(2, TREMOR_CORES, LIST(6, 0)),
          "Tremor without one of its cuts: a set that it was apart from is unlisted");
    check(unlisted(0, EMPTY, EMPTY) && unlisted(0xFFFFFFFF, EMPTY, EMPTY), "with two empty lists every set is unlisted");
    check(unlisted(1, TREMOR_CORES, EMPTY) && unlisted(7, EMPTY, TREMOR_CUTS), "an empty list has no witness");
    check(looked_up(7, TREMOR_CORES, EMPTY, INSIDE, 0) && looked_up(1, EMPTY, TREMOR_CUTS, APART, 2),
          "beside an empty list the other one is searched");
    check(looked_up(0, LIST(0, 0), EMPTY, INSIDE, 0) && looked_up(0xFFFFFFFF, LIST(255, 255, 0, 0), LIST(0, 0), INSIDE, 0) &&
              looked_up(0x10000, LIST(255, 255, 0, 0), LIST(0, 0), INSIDE, 2),
          "set 0 as a listed core is inside every set");
    check(looked_up(0, LIST(1, 0), LIST(0, 0), APART, 0) && looked_up(0xFFFFFFFE, LIST(1, 0), LIST(2, 0, 0, 0), APART, 2) &&
              looked_up(0xFFFF, EMPTY, LIST(255, 255, 0, 0), APART, 2),
          "set 0 as a listed cut is apart from every set");
}

/* Each rule alone, against each of 32 rules alone: which bit of which byte it is, and that none from 16 on is in a listed set. */
static void test_every_rule(void)
{
    int good = 1;
    for (unsigned rule = 0; rule < 16; rule++) {
        struct list alone = LIST(rule < 8 ? (uint8_t)(1 << rule) : 0, rule < 8 ? 0 : (uint8_t)(1 << (rule - 8)));
        for (unsigned other = 0; other < 32; other++) {
            uint32_t set = (uint32_t)1 << other;
            good = answers(set, alone, alone, other == rule ? INSIDE : APART, 0) && good;
            good = answers(~set, alone, alone, other == rule ? APART : INSIDE, 0) && good;
        }
    }
    check(good, "each of 16 rules, against each of 32, is in the byte and the bit that a list has it in");
}

static void test_odd_lengths(void)
{
    const uint32_t sets[] = {0, 3, 7, 0x10000, 0xFFFFFFFF};
    struct list cores = LIST(0, 0, 0, 0, 0), cuts = LIST(0, 0, 0, 0, 0);
    int by_cores = 1, by_cuts = 1, by_both = 1, by_none = 1;
    for (size_t i = 0; i < sizeof sets / sizeof sets[0]; i++)
        for (size_t odd = 1; odd <= 5; odd += 2)
            for (size_t even = 0; even <= 4; even += 2) {
                by_cores = refused(sets[i], part_of(cores, odd), part_of(cuts, even)) && by_cores;
                by_cuts = refused(sets[i], part_of(cores, even), part_of(cuts, odd)) && by_cuts;
                by_both = refused(sets[i], part_of(cores, odd), part_of(cuts, even + 1)) && by_both;
                by_none = answers(sets[i], part_of(cores, odd - 1), part_of(cuts, 2), odd == 1 ? APART : INSIDE, 0) && by_none;
            }
    check(by_cores, "a core list of 1, 3 or 5 bytes is refused by 12, whatever it would have found");
    check(by_cuts, "a cut list of 1, 3 or 5 bytes is refused by 12, although a listed core is inside");
    check(by_both, "two lists of odd length are refused by 12");
    check(by_none, "with one byte less they are accepted");
}

static void test_null(void)
{
    const struct list cores = TREMOR_CORES, cuts = TREMOR_CUTS, odd = LIST(4, 0, 3);
    check(answers(7, EMPTY, EMPTY, UNLISTED, CODREMIF_NO_WITNESS) && answers(0, EMPTY, EMPTY, UNLISTED, CODREMIF_NO_WITNESS),
          "no list at NULL: unlisted");
    check(answers(7, cores, EMPTY, INSIDE, 0) && answers(1, cores, EMPTY, UNLISTED, CODREMIF_NO_WITNESS) && answers(1, EMPTY, cuts, APART, 2) &&
              answers(7, EMPTY, cuts, UNLISTED, CODREMIF_NO_WITNESS),
          "one list at NULL: the other is searched");
    check(answers(7, odd, EMPTY, REFUSED, CODREMIF_NO_WITNESS) && answers(7, EMPTY, odd, REFUSED, CODREMIF_NO_WITNESS),
          "one list at NULL and the other of odd length: refused by 12");
}

/* The lists are only read, so that they may share memory, and begin at any address. */
static void test_shared_memory(void)
{
    static const uint8_t bytes[] = {99, 6, 0, 3, 0, 5, 0, 4};
    const struct list same = {bytes + 1, 6}, early = {bytes + 1, 4}, late = {bytes + 3, 4}, between = {bytes + 2, 6};
    check(answers(7, same, same, INSIDE, 0) && answers(3, same, same, INSIDE, 2) && answers(1, same, same, APART, 0) &&
              answers(2, same, same, APART, 4) && answers(8, same, same, APART, 0),
          "the same memory as both lists");
    check(answers(1, early, late, UNLISTED, CODREMIF_NO_WITNESS) && answers(2, early, late, APART, 2) && answers(3, early, late, INSIDE, 2) &&
              answers(5, late, early, INSIDE, 2) && answers(1, late, early, APART, 0),
          "two lists that overlap by one set");
    /* read one byte later, the bytes are the sets 768, 1280 and 1024 */
    check(answers(0x300, between, same, INSIDE, 0) && answers(0x500, between, same, INSIDE, 2) && answers(0x600, between, same, INSIDE, 4) &&
              answers(0, between, same, APART, 0) && answers(0x100, same, between, APART, 4),
          "two lists that overlap by half a set, one at an odd address");
}

/* A list that is longer than any model's: the witness at its end is found, and its byte place is past 16 bits. */
static void test_many_sets(void)
{
    uint8_t *bytes = malloc(2 * MANY_SETS);
    if (bytes == NULL)
        abort();
    for (size_t i = 0; i < MANY_SETS; i++) {
        bytes[2 * i] = (uint8_t)(i % 256);
        bytes[2 * i + 1] = (uint8_t)(0x80 | i / 256 % 128);
    }
    struct list many = {bytes, 2 * MANY_SETS};
    /* each of them has rule 15, so that it is inside no set without it, and apart from none with it */
    check(unlisted(0x7FFF, many, EMPTY) && unlisted(0x8000, EMPTY, many) && unlisted(0xFFFF7FFF, many, EMPTY), "200,000 sets are passed over");
    bytes[2 * MANY_SETS - 2] = 5;
    bytes[2 * MANY_SETS - 1] = 0;
    check(looked_up(0x7FFF, many, EMPTY, INSIDE, 2 * MANY_SETS - 2) && looked_up(0x8002, EMPTY, many, APART, 2 * MANY_SETS - 2) &&
              looked_up(0x7FFF, many, many, INSIDE, 2 * MANY_SETS - 2),
          "the last of 200,000 sets is the witness");
    check(looked_up(0xFFFF, many, many, INSIDE, 0) && looked_up(0, EMPTY, many, APART, 0) && unlisted(0x8001, LIST(2, 0), many),
          "the first of 200,000 sets is the witness");
    check(refused(0x7FFF, part_of(many, 2 * MANY_SETS - 1), EMPTY) && refused(0xFFFF, EMPTY, part_of(many, 2 * MANY_SETS - 1)),
          "200,000 sets without their last byte are refused by 12");
    free(bytes);
}

/*
 * The lists that the library gives of the eight pairs, and every fifth set of 16 rules. A set holds if it has a rule of each pair; the first core
 * inside it takes the first rule of a pair where it can. It is broken if it has none of some pair, and the first such pair is the first cut apart.
 */
static void test_pairs(void)
{
    uint8_t cores[512], cuts[16];
    struct model model;
    model_pairs(&model);
    const uint8_t *text = (const uint8_t *)model.text;
    int good = codremif_count(codremif_cores(text, model.length, cores, 512)) == 256;
    good = codremif_count(codremif_cuts(text, model.length, cuts, 16)) == 8 && good;
    unsigned inside = 0, apart = 0;
    for (uint32_t set = 0; set < 65536; set += 5) {
        uint64_t core = 0, cut = 8;
        for (unsigned k = 8; k-- > 0;) {
            core += (uint64_t)!(set >> 2 * k & 1) << k;
            cut = (set >> 2 * k & 3) == 0 ? k : cut;
        }
        good = good && answers(set, (struct list){cores, 512}, (struct list){cuts, 16}, cut < 8 ? APART : INSIDE, 2 * (cut < 8 ? cut : core));
        inside += cut == 8;
        apart += cut < 8;
    }
    check(good && inside > 1000 && apart > 10000,
          "eight pairs: the first core inside a set, or the first cut apart from it, in the lists that the library gives");
}

int main(void)
{
    test_unpacking();
    test_tremor();
    test_unlisted();
    test_every_rule();
    test_odd_lengths();
    test_null();
    test_shared_memory();
    test_many_sets();
    test_pairs();
    return exit_status();
}
