/*
 * texts COUNT: tests of what the header itself reads: how many rules an accepted text has, its full set and the names of its rules. Random models
 * with one to four properties, and with start parts and without, are written here, so what is expected is known, and the library is asked whether it
 * sees as many rules, whether MUST, MAY and the irrelevant rules make up the full set, whether what is said of a set that is looked up in the two
 * lists agrees with judging it, whether what it says of a set jointly follows from what it says by each property, whether a set reaches the states of
 * its trace and no state that it does not reach with fewer rules, whether the start parts of rules outside a set make no difference to it, whether
 * each order finds a listed core and each listed core is found by an order, and whether the rules that are broken in a log with a bad state share a
 * rule with each listed core and contain a listed cut. Each text stands in a block of its own length, so that valgrind sees a byte too many; cut-off
 * and damaged texts must do no harm.
 */
#include <stdio.h>
#include <stdlib.h>
#include <string.h>

#include "checks.h"
#include "codremif.h"
#include "models.h"

/* A number below a bound; the same ones in each run. */
static unsigned below(unsigned bound)
{
    static uint64_t state = 20261116;
    state = state * 6364136223846793005u + 1442695040888963407u;
    return (unsigned)(state >> 33) % bound;
}

/* A name that no rule before it has, of 1 to 8 bytes. Names of one byte, and names that begin others, come up often. */
static void random_name(char names[][CODREMIF_NAME_BYTES + 1], unsigned rule)
{
    char *name = names[rule];
    for (;;) {
        unsigned length = 1 + below(CODREMIF_NAME_BYTES), taken = 0;
        for (unsigned i = 0; i < length; i++)
            name[i] = "rule01xz"[below(8)];
        name[length] = '\0';
        for (unsigned earlier = 0; earlier < rule; earlier++)
            taken = taken || strcmp(names[earlier], name) == 0;
        if (!taken)
            return;
    }
}

/*
 * A random model, its counts, the names of its rules, the same model with each of its properties alone, and the same model with other start parts in
 * the rules at odd places, or none.
 */
struct random_model {
    struct model joint, by_property[CODREMIF_PROPERTIES], other_starts;
    unsigned rules, properties;
    char names[CODREMIF_RULES][CODREMIF_NAME_BYTES + 1];
};

/* The last ones of these have a second letter. */
static const char *random_property(unsigned vars)
{
    static const char *const expressions[] = {"!a", "!a", "|a!a", "!b", "!&ab", ">ba"};
    return expressions[below(vars == 1 ? 3 : 6)];
}

static const char *random_step(unsigned vars)
{
    static const char *const expressions[] = {"1",      "0",         "a",  "!A",  ">Aa", "=Aa",  "&A!a",
                                              "|!A!!a", "!!!!=!A!a", "!B", ">Bb", ">BA", ">B!A", "=Bb"};
    return expressions[below(vars == 1 ? 9 : 14)];
}

/* What follows the step part: every other rule has no start part. */
static const char *random_start(unsigned vars)
{
    static const char *const parts[] = {":1", ":!a", ":!a", ":|a!a", ":a", ":!!!!!!a", ":!b", ":&!a!b", ":>ba"};
    return below(2) ? "" : parts[below(vars == 1 ? 6 : 9)];
}

static void add_rule(struct model *model, const char *name, const char *step, const char *start)
{
    char parts[64];
    snprintf(parts, sizeof parts, "%s%s", step, start);
    model_named_rule(model, name, parts);
}

static void random_model(struct random_model *random)
{
    unsigned vars = 1 + below(7);
    const char *init = vars > 1 && below(2) ? "&!a!b" : below(2) ? "!a" : "1";
    random->rules = 1 + below(CODREMIF_RULES);
    random->properties = 1 + below(CODREMIF_PROPERTIES);
    for (unsigned i = 0; i < random->properties; i++) {
        const char *property = random_property(vars);
        model_begin(&random->by_property[i], vars, random->rules, init, property);
        if (i == 0)
            model_begin(&random->joint, vars, random->rules, init, property);
        else
            model_property(&random->joint, property);
    }
    random->other_starts = random->joint;
    for (unsigned rule = 0; rule < random->rules; rule++) {
        const char *step = random_step(vars), *start = random_start(vars);
        random_name(random->names, rule);
        add_rule(&random->joint, random->names[rule], step, start);
        add_rule(&random->other_starts, random->names[rule], step, rule % 2 ? random_start(vars) : start);
        for (unsigned i = 0; i < random->properties; i++)
            add_rule(&random->by_property[i], random->names[rule], step, start);
    }
}

static uint8_t *copy(const char *bytes, size_t length)
{
    uint8_t *text = malloc(length == 0 ? 1 : length);
    if (text == NULL)
        abort();
    memcpy(text, bytes, length);
    return text;
}

static int has_names(const uint8_t *text, size_t text_len, char names[][CODREMIF_NAME_BYTES + 1], unsigned rules)
{
    int good = 1;
    for (unsigned rule = 0; rule < rules; rule++) {
        size_t length;
        const char *name = codremif_rule_name(text, text_len, rule, &length);
        good = good && name != NULL && length == strlen(names[rule]) && memcmp(name, names[rule], length) == 0;
    }
    for (unsigned past = rules; past < rules + 20; past++) {
        size_t length = 1;
        good = good && codremif_rule_name(text, text_len, past, &length) == NULL && length == 0;
    }
    return good;
}

/* Whether the full set is the library's: it is judged, and the next number is no set. */
static int is_full_set(const uint8_t *text, size_t text_len, uint32_t set)
{
    uint8_t trace[CODREMIF_TRACE_BYTES];
    return codremif_accepted(codremif_judge(text, text_len, set, trace, sizeof trace)) &&
           codremif_number(codremif_judge(text, text_len, set + 1, trace, sizeof trace)) == CODREMIF_NO_SUCH_SET;
}

/* Whether each rule of the full set, and no other, is in exactly one of MUST, MAY and the irrelevant rules. */
static int has_one_kind_each(const uint8_t *text, size_t text_len, uint32_t full)
{
    uint64_t must = codremif_must(text, text_len), may = codremif_may(text, text_len), irrelevant = codremif_irr(text, text_len);
    return codremif_accepted(must) && codremif_accepted(may) && codremif_accepted(irrelevant) &&
           codremif_set(must) + codremif_set(may) + codremif_set(irrelevant) == full &&
           (codremif_set(must) | codremif_set(may) | codremif_set(irrelevant)) == full;
}

static void test_random_models(unsigned count)
{
    int accepted = 1, rules_agree = 1, sets_agree = 1, names_agree = 1, cores_agree = 1, kinds_agree = 1, seen[CODREMIF_RULES + 1] = {0};
    unsigned with_core = 0;
    for (unsigned i = 0; i < count; i++) {
        struct random_model random;
        uint8_t sets[CODREMIF_LIST_BYTES], trace[CODREMIF_TRACE_BYTES];
        random_model(&random);
        size_t length = random.joint.length;
        uint8_t *text = copy(random.joint.text, length);
        uint32_t full = codremif_full_set(text, length);
        uint64_t cores = codremif_cores(text, length, sets, sizeof sets);
        int holds = codremif_holds(codremif_judge(text, length, full, trace, sizeof trace));
        accepted = accepted && codremif_accepted(codremif_must(text, length));
        rules_agree = rules_agree && codremif_rules(text, length) == random.rules;
        sets_agree = sets_agree && is_full_set(text, length, full);
        names_agree = names_agree && has_names(text, length, random.names, random.rules);
        cores_agree = cores_agree && codremif_accepted(cores) && (codremif_count(cores) > 0) == holds;
        kinds_agree = kinds_agree && has_one_kind_each(text, length, full);
        with_core += codremif_count(cores) > 0;
        seen[random.rules] = 1;
        free(text);
    }
    for (unsigned rules = 1; rules <= CODREMIF_RULES; rules++)
        accepted = accepted && seen[rules];
    check(accepted, "random models of 1 to 16 rules are accepted");
    check(rules_agree, "random models: codremif_rules is the number of rules");
    check(sets_agree, "random models: codremif_full_set is the last set that the library judges");
    check(names_agree, "random models: codremif_rule_name gives each name, and NULL past the last");
    check(cores_agree && with_core > count / 10 && with_core < count - count / 10,
          "random models: the full set holds exactly when there is a core");
    check(kinds_agree, "random models: each rule is in exactly one of MUST, MAY and the irrelevant rules");
}

/* The text of a random model, in a block of just its length. */
static uint8_t *random_text(size_t *length)
{
    struct random_model random;
    random_model(&random);
    *length = random.joint.length;
    return copy(random.joint.text, random.joint.length);
}

/* What was said of the sets of random models that were looked up in the models' own lists. */
struct said {
    unsigned inside, apart, unlisted, unlike_judged, no_witness;
};

/* Looks some sets of the model up. The witness has to be what it is said to be: a core inside the set, or a cut apart from it. */
static void look_up(const uint8_t *text, size_t text_len, struct said *said)
{
    static uint8_t cores[CODREMIF_LIST_BYTES], cuts[CODREMIF_LIST_BYTES];
    uint8_t trace[CODREMIF_TRACE_BYTES];
    size_t cores_len = 2 * codremif_count(codremif_cores(text, text_len, cores, sizeof cores));
    size_t cuts_len = 2 * codremif_count(codremif_cuts(text, text_len, cuts, sizeof cuts));
    for (unsigned i = 0; i < 8; i++) {
        uint32_t set = below(codremif_full_set(text, text_len) + 1);
        uint64_t answer = codremif_suffices(set, cores, cores_len, cuts, cuts_len);
        const uint8_t *witness = codremif_witness_bytes(answer, codremif_witness(set, cores, cores_len, cuts, cuts_len), cores, cuts);
        int inside = codremif_said(answer) == CODREMIF_CORE_INSIDE, apart = codremif_said(answer) == CODREMIF_CUT_APART;
        said->inside += inside;
        said->apart += apart;
        said->unlisted += !inside && !apart;
        said->unlike_judged += codremif_holds(codremif_judge(text, text_len, set, trace, sizeof trace)) != inside;
        if (witness == NULL || (codremif_set_at(witness, 0) & set) != (inside ? codremif_set_at(witness, 0) : 0))
            said->no_witness++;
    }
}

static void test_random_lookups(unsigned count)
{
    struct said said = {0, 0, 0, 0, 0};
    for (unsigned i = 0; i < count; i++) {
        size_t length;
        uint8_t *text = random_text(&length);
        look_up(text, length, &said);
        free(text);
    }
    check(said.inside > count && said.apart > count && said.inside + said.apart == 8 * count,
          "random models: sets are looked up in the lists of their model, with a core inside and with a cut apart");
    check(said.unlisted == 0, "random models: no set is unlisted");
    check(said.unlike_judged == 0, "random models: a core is inside a set exactly when the set holds");
    check(said.no_witness == 0, "random models: the witness is a core inside the set, or a cut apart from it");
}

/* The verdict on a set; if it is broken, the trace has some states. */
struct judged {
    int accepted;
    size_t length;
    uint8_t trace[CODREMIF_TRACE_BYTES];
};

static struct judged judge(const struct model *model, uint32_t set)
{
    struct judged judged = {0, 0, {0}};
    uint8_t *text = copy(model->text, model->length);
    uint64_t answer = codremif_judge(text, model->length, set, judged.trace, sizeof judged.trace);
    judged.accepted = codremif_accepted(answer);
    judged.length = codremif_length(answer);
    free(text);
    return judged;
}

/* Whether a trace comes before another: it is shorter, or as long with the smaller state at the first place where they differ. */
static int is_before(const struct judged *one, const struct judged *other)
{
    return one->length != other->length ? one->length < other->length : memcmp(one->trace, other->trace, one->length) < 0;
}

/* What came up of random models with several properties, and what was wrong. */
struct several {
    unsigned models[CODREMIF_PROPERTIES + 1], held, by_another, unlike_verdict, unlike_trace;
};

/* Jointly a set holds if it holds by each property, and the trace is the first of those by each. */
static void judge_several(const struct random_model *random, uint32_t set, struct several *several)
{
    struct judged joint = judge(&random->joint, set), first = {1, 0, {0}}, alone;
    unsigned broken_by = 0;
    for (unsigned i = 0; i < random->properties; i++) {
        alone = judge(&random->by_property[i], set);
        first.accepted = first.accepted && alone.accepted;
        if (alone.length > 0 && (first.length == 0 || is_before(&alone, &first))) {
            first.length = alone.length;
            memcpy(first.trace, alone.trace, alone.length);
            broken_by = i;
        }
    }
    several->held += first.length == 0;
    several->by_another += broken_by > 0;
    several->unlike_verdict += !joint.accepted || !first.accepted || (joint.length == 0) != (first.length == 0);
    several->unlike_trace += joint.length != first.length || memcmp(joint.trace, first.trace, first.length) != 0;
}

static void test_random_properties(unsigned count)
{
    struct several several = {{0}, 0, 0, 0, 0};
    int each = 1;
    for (unsigned i = 0; i < count; i++) {
        struct random_model random;
        random_model(&random);
        several.models[random.properties]++;
        for (unsigned turn = 0; turn < 4; turn++)
            judge_several(&random, turn == 0 ? ((uint32_t)1 << random.rules) - 1 : below(1u << random.rules), &several);
    }
    for (unsigned properties = 1; properties <= CODREMIF_PROPERTIES; properties++)
        each = each && several.models[properties] > count / 10;
    check(each && several.held > count / 10 && several.by_another > count / 10,
          "random models: one to four properties, with sets that hold for each, and sets that a later one than the first is broken by");
    check(several.unlike_verdict == 0, "random models: a set holds exactly when it holds by each property");
    check(several.unlike_trace == 0, "random models: the trace is the first of those by each property");
}

/* What came up of the reached states of random models, and what was wrong. */
struct marked {
    unsigned refused, broken, fewer, not_on_trace, more;
};

static void mark(const struct random_model *random, struct marked *marked)
{
    uint8_t marks[CODREMIF_MARK_BYTES] = {0}, with_a_rule[CODREMIF_MARK_BYTES] = {0};
    uint32_t set = below(1u << random->rules), larger = set | 1u << below(random->rules);
    struct judged judged = judge(&random->joint, set);
    uint8_t *text = copy(random->joint.text, random->joint.length);
    marked->refused += !codremif_accepted(codremif_reached(text, random->joint.length, set, marks, sizeof marks));
    marked->refused += !codremif_accepted(codremif_reached(text, random->joint.length, larger, with_a_rule, sizeof with_a_rule));
    marked->broken += judged.length > 0;
    marked->fewer += memcmp(marks, with_a_rule, sizeof marks) != 0;
    for (size_t i = 0; i < judged.length; i++)
        marked->not_on_trace += marks[judged.trace[i]] != 1;
    for (size_t state = 0; state < sizeof marks; state++)
        marked->more += with_a_rule[state] > marks[state];
    free(text);
}

static void test_random_reached(unsigned count)
{
    struct marked marked = {0, 0, 0, 0, 0};
    for (unsigned i = 0; i < count; i++) {
        struct random_model random;
        random_model(&random);
        mark(&random, &marked);
    }
    check(marked.refused == 0 && marked.broken > count / 10 && marked.fewer > count / 20,
          "random models: states are marked, of broken sets, and fewer of them with a rule more");
    check(marked.not_on_trace == 0, "random models: a set reaches each state of its trace");
    check(marked.more == 0, "random models: with a rule more a set reaches no state more");
}

/* What came up of models that differ in the start parts of rules at odd places, and what was wrong. */
struct starts {
    unsigned refused, unlike_text, at_once, unlike_full, unlike_trace, unlike_marks;
};

static int reaches(const struct model *model, uint32_t set, uint8_t marks[CODREMIF_MARK_BYTES], uint64_t *answer)
{
    uint8_t *text = copy(model->text, model->length);
    memset(marks, 0, CODREMIF_MARK_BYTES);
    *answer = codremif_reached(text, model->length, set, marks, CODREMIF_MARK_BYTES);
    free(text);
    return codremif_accepted(*answer);
}

static int same_trace(const struct judged *one, const struct judged *other)
{
    return one->length == other->length && memcmp(one->trace, other->trace, one->length) == 0;
}

/* The start parts of rules outside a set make no difference to it. */
static void compare_starts(const struct random_model *random, struct starts *starts)
{
    uint32_t full = ((uint32_t)1 << random->rules) - 1, even = below(full + 1) & 0x5555;
    struct judged one = judge(&random->joint, even), other = judge(&random->other_starts, even);
    struct judged full_one = judge(&random->joint, full), full_other = judge(&random->other_starts, full);
    uint8_t marks[CODREMIF_MARK_BYTES], other_marks[CODREMIF_MARK_BYTES];
    uint64_t answer, other_answer;
    int accepted = reaches(&random->joint, even, marks, &answer) && reaches(&random->other_starts, even, other_marks, &other_answer);
    starts->refused += !one.accepted || !other.accepted || !full_one.accepted || !full_other.accepted || !accepted;
    starts->unlike_text += random->joint.length != random->other_starts.length;
    starts->at_once += one.length == 1;
    starts->unlike_full += !same_trace(&full_one, &full_other);
    starts->unlike_trace += !same_trace(&one, &other);
    starts->unlike_marks += !accepted || answer != other_answer || memcmp(marks, other_marks, sizeof marks) != 0;
}

static void test_random_starts(unsigned count)
{
    struct starts starts = {0, 0, 0, 0, 0, 0};
    for (unsigned i = 0; i < count; i++) {
        struct random_model random;
        random_model(&random);
        compare_starts(&random, &starts);
    }
    check(starts.refused == 0 && starts.unlike_text > count / 2 && starts.at_once > count / 20 && starts.unlike_full > count / 50,
          "random models: start parts are accepted, some sets start in a bad state, and other start parts make a difference to the full set");
    check(starts.unlike_trace == 0, "random models: the start parts of rules outside a set make no difference to its trace");
    check(starts.unlike_marks == 0, "random models: nor to the states that it reaches");
}

/* What came up of the cores that orders find in random models, and what was wrong. */
struct found {
    unsigned cores, no_core, another, unlisted, not_counted, missed;
};

/* An order that has the rules outside the set first, and is any beside that. Its length is how many rules there are. */
static void random_order(uint8_t *order, unsigned rules, uint32_t set)
{
    unsigned length = 0;
    for (uint32_t inside = 0; inside <= 1; inside++)
        for (unsigned place = 0, first = length; place < rules; place++)
            if ((set >> place & 1) == inside) {
                unsigned at = first + below(length - first + 1);
                memmove(order + at + 1, order + at, length - at);
                order[at] = (uint8_t)place;
                length++;
            }
}

static int is_listed(const uint8_t *sets, size_t count, uint32_t set)
{
    for (size_t i = 0; i < count; i++)
        if (codremif_set_at(sets, i) == set)
            return 1;
    return 0;
}

/* By any order, and by one that leads to a chosen core. */
static void find_cores(const uint8_t *text, size_t text_len, struct found *found)
{
    static uint8_t sets[CODREMIF_LIST_BYTES];
    uint8_t order[CODREMIF_RULES];
    unsigned rules = codremif_rules(text, text_len);
    size_t count = codremif_count(codremif_cores(text, text_len, sets, sizeof sets));
    random_order(order, rules, 0);
    uint64_t answer = codremif_one_core(text, text_len, order, rules);
    if (count == 0) {
        found->no_core++;
        found->unlisted += codremif_holds(answer) || codremif_set(answer) != 0;
        found->not_counted += !codremif_accepted(answer) || codremif_judgements(answer) != 1;
        return;
    }
    found->cores++;
    found->unlisted += !codremif_holds(answer) || !is_listed(sets, count, codremif_set(answer));
    found->not_counted += !codremif_accepted(answer) || codremif_judgements(answer) != rules + 1;
    uint32_t core = codremif_set_at(sets, below((unsigned)count));
    random_order(order, rules, core);
    found->another += core != codremif_set(answer);
    found->missed += codremif_set(codremif_one_core(text, text_len, order, rules)) != core;
}

static void test_random_orders(unsigned count)
{
    struct found found = {0, 0, 0, 0, 0, 0};
    for (unsigned i = 0; i < count; i++) {
        size_t length;
        uint8_t *text = random_text(&length);
        find_cores(text, length, &found);
        free(text);
    }
    check(found.cores > count / 10 && found.no_core > count / 10 && found.another > count / 20,
          "random models: orders find cores, not all of them the same, and find none where there is none");
    check(found.unlisted == 0, "random models: what an order finds is a listed core, and there is none where the list is empty");
    check(found.not_counted == 0, "random models: one judgement for the full set, and where it holds one for each rule");
    check(found.missed == 0, "random models: a listed core is found by an order that has the rules outside it first");
}

/* What came up of random logs for random models, and what was wrong. */
struct blamed {
    unsigned refused, breaches, no_breach, none_broken, unlike_numbers, unlike_places, apart, no_cut, held, longer;
};

/* Any states, of which the first has `a` and `b` unset three times in four: so it often meets `init`. */
static void random_log(uint8_t *log, size_t log_len, unsigned states)
{
    for (size_t i = 0; i < log_len; i++)
        log[i] = (uint8_t)below(states);
    if (below(4) > 0)
        log[0] &= 0xFC;
}

/* Whether each listed core has a rule of the set, and whether a listed cut is a part of it. */
static void look_at_lists(const uint8_t *text, size_t text_len, uint32_t set, struct blamed *blamed)
{
    static uint8_t sets[CODREMIF_LIST_BYTES];
    unsigned inside = 0;
    size_t count = codremif_count(codremif_cores(text, text_len, sets, sizeof sets));
    for (size_t i = 0; i < count; i++)
        blamed->apart += (codremif_set_at(sets, i) & set) == 0;
    count = codremif_count(codremif_cuts(text, text_len, sets, sizeof sets));
    for (size_t i = 0; i < count; i++)
        inside += (codremif_set_at(sets, i) & ~set) == 0;
    blamed->no_cut += inside == 0;
}

/* Where a state is bad, the rules that are not broken are a broken set, and its trace is no longer than the log up to that state. */
static void blame(const uint8_t *text, size_t text_len, struct blamed *blamed)
{
    uint8_t bytes[20], trace[CODREMIF_TRACE_BYTES];
    size_t log_len = 1 + below(below(2) ? 2 : sizeof bytes);
    random_log(bytes, log_len, 1u << (text[5] - '0'));
    uint8_t *log = copy((const char *)bytes, log_len);
    uint64_t answer = codremif_blame(text, text_len, log, log_len), place = codremif_breach(text, text_len, log, log_len);
    free(log);
    if (!codremif_accepted(answer)) {
        blamed->refused++;
        blamed->unlike_numbers += answer != CODREMIF_INIT_UNMET;
        blamed->unlike_places += place != CODREMIF_NO_PLACE;
    } else if (codremif_no_breach(answer)) {
        blamed->no_breach++;
        blamed->unlike_places += place != log_len;
    } else {
        uint64_t judged = codremif_judge(text, text_len, codremif_full_set(text, text_len) & ~codremif_set(answer), trace, sizeof trace);
        blamed->breaches++;
        blamed->none_broken += codremif_set(answer) == 0;
        blamed->unlike_places += place >= log_len;
        blamed->held += !codremif_accepted(judged) || codremif_holds(judged);
        blamed->longer += codremif_length(judged) > place + 1;
        look_at_lists(text, text_len, codremif_set(answer), blamed);
    }
}

static void test_random_logs(unsigned count)
{
    struct blamed blamed = {0, 0, 0, 0, 0, 0, 0, 0, 0, 0};
    for (unsigned i = 0; i < count; i++) {
        size_t length;
        uint8_t *text = random_text(&length);
        for (unsigned turn = 0; turn < 4; turn++)
            blame(text, length, &blamed);
        free(text);
    }
    check(blamed.refused > count / 10 && blamed.breaches > count / 2 && blamed.no_breach > count / 10 && blamed.none_broken > count / 200,
          "random models: logs with a bad state, where rules are broken or none, logs without, and logs that are refused");
    check(blamed.unlike_numbers == 0, "random models: a log is refused for its first state alone");
    check(blamed.unlike_places == 0, "random models: the place of the first bad state is in the log, or it is the log's length, or the log is refused");
    check(blamed.held == 0 && blamed.longer == 0, "random models: without the broken rules of a log the rest is broken, by a trace that is not longer");
    check(blamed.apart == 0 && blamed.no_cut == 0, "random models: the broken rules of a log share a rule with each listed core, and contain a listed cut");
}

/* Of a text that is not accepted nothing is promised but that nothing outside it is read. */
static void test_other_texts(void)
{
    static const char tremor[] = "vars=3\nrules=3\ninit=!c\nprop=>c&ab\nrule=ra:>CA\nrule=rb:>CB\nrule=vote:>C&AB\n";
    int good = 1;
    size_t length;
    for (size_t cut = 0; cut < sizeof tremor; cut++) {
        uint8_t *text = copy(tremor, cut);
        for (unsigned rule = 0; rule < 5; rule++) {
            const char *name = codremif_rule_name(text, cut, rule, &length);
            good = good && (name == NULL ? length == 0 : name >= (char *)text && name + length <= (char *)text + cut);
        }
        good = good && codremif_rules(text, cut) <= 3 && codremif_full_set(text, cut) <= 7;
        free(text);
    }
    good = good && codremif_rules(NULL, 0) == 0 && codremif_full_set(NULL, 0) == 0;
    good = good && codremif_rule_name(NULL, 0, 0, &length) == NULL && length == 0;
    char many[600] = "";
    for (int line = 0; line < 100; line++)
        memcpy(many + 6 * line, "rule=\n", 6);
    good = good && codremif_rules((const uint8_t *)many, sizeof many) == CODREMIF_RULES;
    check(good, "of a text that is cut off, empty or no model, nothing outside it is read");
}

static void test_longest_names(void)
{
    struct model model;
    size_t length;
    model_pairs(&model);
    const char *last = codremif_rule_name((const uint8_t *)model.text, model.length, 15, &length);
    check(codremif_full_set((const uint8_t *)model.text, model.length) == 0xFFFF && length == CODREMIF_NAME_BYTES &&
              memcmp(last, "rule0015", length) == 0,
          "sixteen rules with names of eight bytes: the full set is 65,535, the last name is found");
}

int main(int argc, char **argv)
{
    unsigned count = argc == 2 ? (unsigned)strtoul(argv[1], NULL, 10) : 0;
    test_random_models(count);
    test_random_lookups(count);
    test_random_properties(count);
    test_random_reached(count);
    test_random_starts(count);
    test_random_orders(count);
    test_random_logs(count);
    test_other_texts();
    test_longest_names();
    return exit_status();
}
