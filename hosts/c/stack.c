/*
 * Measures the stack that each call needs, and holds the header's statements to it. Each call runs on a thread whose stack is a painted block;
 * the deepest byte that has lost its paint tells the need. The models are the largest and the deepest, accepted and refused; the lists are the
 * longest of a model.
 * Without valgrind: to it, bytes below the stack pointer are nobody's to read.
 */
#define _POSIX_C_SOURCE 200809L
#include <pthread.h>
#include <stdio.h>
#include <stdlib.h>
#include <string.h>

#include "checks.h"
#include "codremif.h"
#include "models.h"

#define BLOCK_BYTES ((size_t)4 << 20)
#define PAGE_BYTES 4096
#define PAINT 0xA5
#define ROUND_BYTES 65536
#define LOG_BYTES 5000

/* What a call without an array may be stated to need: so little is not rounded up as the others are. */
#define SMALL_BYTES 1024

enum call { JUDGE, REACHED, CORES, CUTS, MUST, MAY, IRR, ONE_CORE, BLAME, BREACH, SUFFICES, WITNESS, CALLS };

static const struct {
    const char *name;
    size_t stated;
} calls[CALLS] = {
    {"codremif_judge", CODREMIF_JUDGE_STACK_BYTES},
    {"codremif_reached", CODREMIF_REACHED_STACK_BYTES},
    {"codremif_cores", CODREMIF_CORES_STACK_BYTES},
    {"codremif_cuts", CODREMIF_CUTS_STACK_BYTES},
    {"codremif_must", CODREMIF_MUST_STACK_BYTES},
    {"codremif_may", CODREMIF_MAY_STACK_BYTES},
    {"codremif_irr", CODREMIF_IRR_STACK_BYTES},
    {"codremif_one_core", CODREMIF_ONE_CORE_STACK_BYTES},
    {"codremif_blame", CODREMIF_BLAME_STACK_BYTES},
    {"codremif_breach", CODREMIF_BREACH_STACK_BYTES},
    {"codremif_suffices", CODREMIF_SUFFICES_STACK_BYTES},
    {"codremif_witness", CODREMIF_WITNESS_STACK_BYTES},
};

/* What is lent to a call, or handed over as both lists to one that looks a set up. */
static uint8_t lent[CODREMIF_LIST_BYTES];

/* So many of these bytes are an order of so many rules; `lent_length` says how many are handed over. */
static const uint8_t order[CODREMIF_RULES + 1] = {0, 1, 2, 3, 4, 5, 6, 7, 8, 9, 10, 11, 12, 13, 14, 15, 16};

/* A log, but for the byte at its end, which is no state; `lent_length` says how many bytes are handed over. */
static uint8_t log_states[LOG_BYTES];

static size_t most[CALLS];
static size_t widest_gap;
static int as_meant = 1;

/* One call on a painted stack, and what it left of the paint. */
struct run {
    const struct model *model;
    enum call call;
    uint32_t set;
    size_t lent_length;
    uint8_t *lent;
    uint8_t *stack;
    uint64_t answer;
    size_t need;
    size_t gap;
};

static uint64_t ask(const struct run *run)
{
    const uint8_t *text = (const uint8_t *)run->model->text;
    size_t length = run->model->length;
    switch (run->call) {
    case JUDGE: return codremif_judge(text, length, run->set, run->lent, run->lent_length);
    case REACHED: return codremif_reached(text, length, run->set, run->lent, run->lent_length);
    case CORES: return codremif_cores(text, length, run->lent, run->lent_length);
    case CUTS: return codremif_cuts(text, length, run->lent, run->lent_length);
    case MUST: return codremif_must(text, length);
    case MAY: return codremif_may(text, length);
    case IRR: return codremif_irr(text, length);
    case ONE_CORE: return codremif_one_core(text, length, order, run->lent_length);
    case BLAME: return codremif_blame(text, length, log_states, run->lent_length);
    case BREACH: return codremif_breach(text, length, log_states, run->lent_length);
    case SUFFICES: return codremif_suffices(run->set, run->lent, run->lent_length, run->lent, run->lent_length);
    default: return codremif_witness(run->set, run->lent, run->lent_length, run->lent, run->lent_length);
    }
}

/*
 * Runs on the painted stack. The need is counted from a byte of this frame, which is a little too much and never too little. The paint is looked
 * at before the thread ends, since the C library may give a stack's pages back then.
 */
static void *run_painted(void *argument)
{
    struct run *run = argument;
    volatile uint8_t here = 0;
    size_t frame = (size_t)((uintptr_t)&here - (uintptr_t)run->stack);
    size_t at = 0;
    run->answer = ask(run);
    while (at < frame && run->stack[at] == PAINT)
        at++;
    run->need = frame - at;
    for (size_t gap = 0; at < frame; at++) {
        gap = run->stack[at] == PAINT ? gap + 1 : 0;
        run->gap = gap > run->gap ? gap : run->gap;
    }
    return NULL;
}

static void run_on(struct run *run)
{
    pthread_attr_t attributes;
    pthread_t thread;
    memset(run->stack, PAINT, BLOCK_BYTES);
    if (pthread_attr_init(&attributes) != 0 || pthread_attr_setstack(&attributes, run->stack, BLOCK_BYTES) != 0 ||
        pthread_create(&thread, &attributes, run_painted, run) != 0 || pthread_join(thread, NULL) != 0) {
        fprintf(stderr, "stack: no thread on a stack of its own\n");
        exit(2);
    }
    pthread_attr_destroy(&attributes);
}

static uint64_t measure(const struct model *model, enum call call, uint32_t set, size_t lent_length)
{
    static void *stack;
    if (stack == NULL && posix_memalign(&stack, PAGE_BYTES, BLOCK_BYTES) != 0)
        exit(2);
    struct run run = {model, call, set, lent_length, lent, stack, 0, 0, 0};
    run_on(&run);
    most[call] = run.need > most[call] ? run.need : most[call];
    widest_gap = run.gap > widest_gap ? run.gap : widest_gap;
    return run.answer;
}

/* A log for the model: the first state that meets `init`, and in turn with it the one that differs from it in `a` alone. */
static void make_log(const struct model *model)
{
    uint8_t first = 0;
    while (codremif_number(codremif_blame((const uint8_t *)model->text, model->length, &first, 1)) == CODREMIF_INIT_UNMET)
        first++;
    for (size_t i = 0; i + 1 < LOG_BYTES; i++)
        log_states[i] = first ^ (i & 1);
    log_states[LOG_BYTES - 1] = 255;
}

/* Both calls that are given a log: one state, many, and a byte that is none behind them. */
static void measure_logs(const struct model *model, unsigned number)
{
    const size_t lengths[] = {1, LOG_BYTES - 1, LOG_BYTES};
    make_log(model);
    for (size_t i = 0; i < sizeof lengths / sizeof lengths[0]; i++) {
        unsigned meant = number == CODREMIF_ACCEPTED && lengths[i] == LOG_BYTES ? CODREMIF_NOT_A_LOG : number;
        as_meant = codremif_number(measure(model, BLAME, 0, lengths[i])) == meant && as_meant;
        as_meant = (measure(model, BREACH, 0, lengths[i]) == CODREMIF_NO_PLACE) == (meant != CODREMIF_ACCEPTED) && as_meant;
    }
}

/*
 * Every call on a model: sets that hold and sets that are broken, and one that no model has; enough lent bytes, and too few; an order, and a byte too
 * many; a log, and a byte that is no state. The model is meant to be refused by the number, so that a slip in a text does not pass for a large model.
 */
static void measure_all(const struct model *model, unsigned number)
{
    const uint32_t sets[] = {0, 1, 0x5555, 0x7FFF, 0xFFFF, 0x10000};
    for (size_t i = 0; i < sizeof sets / sizeof sets[0]; i++) {
        measure(model, JUDGE, sets[i], CODREMIF_TRACE_BYTES);
        measure(model, REACHED, sets[i], CODREMIF_MARK_BYTES);
    }
    measure(model, JUDGE, 0, 0);
    measure(model, REACHED, 0, 0);
    for (enum call call = CORES; call <= CUTS; call++) {
        measure(model, call, 0, CODREMIF_LIST_BYTES);
        measure(model, call, 0, 0);
    }
    for (enum call call = MUST; call <= IRR; call++)
        as_meant = codremif_number(measure(model, call, 0, 0)) == number && as_meant;
    size_t rules = codremif_rules((const uint8_t *)model->text, model->length);
    as_meant = codremif_number(measure(model, ONE_CORE, 0, rules)) == number && as_meant;
    as_meant = codremif_number(measure(model, ONE_CORE, 0, rules + 1)) == (number == CODREMIF_ACCEPTED ? CODREMIF_NOT_AN_ORDER : number) && as_meant;
    measure_logs(model, number);
}

#define TIMES_4(x) x x x x
#define TIMES_16(x) TIMES_4(x) TIMES_4(x) TIMES_4(x) TIMES_4(x)
#define TIMES_31(x) TIMES_16(x) TIMES_4(x) TIMES_4(x) TIMES_4(x) x x x
#define TIMES_63(x) TIMES_31(x) TIMES_31(x) x

static void measure_accepted(void)
{
    struct model model;
    model_wide(&model, CODREMIF_PROPERTIES, TIMES_63("!") "a", TIMES_63("!") "#");
    measure_all(&model, CODREMIF_ACCEPTED);
    model_wide(&model, CODREMIF_PROPERTIES, TIMES_31("|a") "!b", TIMES_31("&#") "#");
    measure_all(&model, CODREMIF_ACCEPTED);
    model_wide(&model, CODREMIF_PROPERTIES, TIMES_31("=") TIMES_31("c") "c", TIMES_31(">") TIMES_31("#") "#");
    measure_all(&model, CODREMIF_ACCEPTED);
    model_wide(&model, CODREMIF_PROPERTIES, TIMES_16("!|a") TIMES_4("!!") "b", TIMES_16("!|#") TIMES_4("!!!") "#");
    measure_all(&model, CODREMIF_ACCEPTED);
    model_wide(&model, 1, TIMES_63("!") "a", TIMES_63("!") "#");
    measure_all(&model, CODREMIF_ACCEPTED);
    model_wide(&model, CODREMIF_PROPERTIES, TIMES_63("!") "a", TIMES_63("!") "#:" TIMES_63("!") "b");
    measure_all(&model, CODREMIF_ACCEPTED);
    model_wide(&model, CODREMIF_PROPERTIES, TIMES_31("|a") "!b", TIMES_31("&#") "#:" TIMES_31(">") TIMES_31("c") "c");
    measure_all(&model, CODREMIF_ACCEPTED);
    model_pairs(&model);
    measure_all(&model, CODREMIF_ACCEPTED);
    model_bases(&model);
    measure_all(&model, CODREMIF_ACCEPTED);
    model_text(&model, "vars=1\nrules=1\ninit=1\nprop=1\nrule=any:1\n");
    measure_all(&model, CODREMIF_ACCEPTED);
}

static void measure_refused(void)
{
    struct model model;
    model_wide(&model, CODREMIF_PROPERTIES, "a", TIMES_63("!") "!");
    measure_all(&model, CODREMIF_NOT_ONE);
    model_wide(&model, CODREMIF_PROPERTIES, "a", TIMES_63("&") "a");
    measure_all(&model, CODREMIF_NOT_ONE);
    model_wide(&model, CODREMIF_PROPERTIES, "a", TIMES_63("!") "!a");
    measure_all(&model, CODREMIF_EXPRESSION_LENGTH);
    model_wide(&model, CODREMIF_PROPERTIES, "a", TIMES_31("&") TIMES_31("#") "##");
    measure_all(&model, CODREMIF_NOT_ONE);
    model_wide(&model, CODREMIF_PROPERTIES, TIMES_63(TIMES_4("!")) "a", "1");
    measure_all(&model, CODREMIF_EXPRESSION_LENGTH);
    model_wide(&model, CODREMIF_PROPERTIES, "a", TIMES_63("!") "#:" TIMES_63("!") "!");
    measure_all(&model, CODREMIF_NOT_ONE);
    model_wide(&model, CODREMIF_PROPERTIES, "a", TIMES_63("!") "#:" TIMES_63("!") "!a");
    measure_all(&model, CODREMIF_EXPRESSION_LENGTH);
    model_wide(&model, CODREMIF_PROPERTIES, "a", TIMES_63("!") "#:" TIMES_31("&") TIMES_31("a") "a:");
    measure_all(&model, CODREMIF_BYTE);
    model_wide(&model, CODREMIF_PROPERTIES + 1, TIMES_63("!") "a", "1");
    measure_all(&model, CODREMIF_LINE_DUE);
    model_text(&model, "vars=7\nrules=16\ninit=" TIMES_31(TIMES_31("&a")));
    measure_all(&model, CODREMIF_LINE_DUE);
    model_wide(&model, CODREMIF_PROPERTIES, "a", TIMES_63("!") "#:" TIMES_63("!") "a");
    model.text[model.length++] = '\n';
    measure_all(&model, CODREMIF_BYTES_FOLLOW);
    model_text(&model, "");
    measure_all(&model, CODREMIF_LINE_DUE);
}

/* Both calls that look a set up: the first set found, the last found, none found, and a list that is refused. */
static void measure_lookups(void)
{
    struct model none;
    model_text(&none, "");
    /* each set has all the rules but one of the first eight, and the last has no rule */
    for (size_t i = 0; i < CODREMIF_LIST_BYTES; i++)
        lent[i] = i + 2 >= CODREMIF_LIST_BYTES ? 0 : i % 2 == 1 ? 0xFF : (uint8_t)~(1 << i / 2 % 8);
    for (enum call call = SUFFICES; call <= WITNESS; call++) {
        uint64_t first = measure(&none, call, 0xFFFFFFFE, CODREMIF_LIST_BYTES), last = measure(&none, call, 0xFF, CODREMIF_LIST_BYTES);
        uint64_t nothing = measure(&none, call, 0x100, CODREMIF_LIST_BYTES - 2), odd = measure(&none, call, 0, CODREMIF_LIST_BYTES - 1);
        if (call == SUFFICES)
            as_meant = codremif_said(first) == CODREMIF_CORE_INSIDE && codremif_said(last) == CODREMIF_CORE_INSIDE && as_meant;
        else
            as_meant = first == 0 && last == CODREMIF_LIST_BYTES - 2 && as_meant;
        as_meant = nothing == (call == SUFFICES ? CODREMIF_UNLISTED : CODREMIF_NO_WITNESS) && as_meant;
        as_meant = odd == (call == SUFFICES ? CODREMIF_ODD_LIST : CODREMIF_NO_WITNESS) && as_meant;
    }
}

/* Stated enough, not more than four times too much or else small, and the painted block was larger by far. */
static void hold_to(const char *name, size_t stated, size_t need)
{
    char what[160];
    snprintf(what, sizeof what, "%s needs %zu bytes of stack, and the header states %zu", name, need, stated);
    check(need < BLOCK_BYTES / 2 && need <= stated && (stated == SMALL_BYTES || (stated <= 4 * need && stated % ROUND_BYTES == 0)), what);
}

int main(void)
{
    size_t all = 0;
    measure_accepted();
    measure_refused();
    measure_lookups();
    for (enum call call = JUDGE; call < CALLS; call++) {
        hold_to(calls[call].name, calls[call].stated, most[call]);
        all = calls[call].stated > all ? calls[call].stated : all;
    }
    check(all == CODREMIF_STACK_BYTES, "CODREMIF_STACK_BYTES is the most of them");
    check(widest_gap < PAGE_BYTES, "no page of the stack is passed over");
    check(as_meant, "each model, each order, each log and each list is accepted or refused as it is meant to be");
    return exit_status();
}
