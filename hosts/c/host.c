/*
 * A small C host: host MODEL-FILE [SET], or host --blame MODEL-FILE LOG-FILE
 *
 * Reads a model file, judges the set of rules (the full set if none is given) and prints the verdict, the trace if it is broken, how many states the
 * set reaches and which, how many pairs of states were tried for them, MUST, MAY, the irrelevant rules, one core, the cores and the cuts, each set as
 * its number and its names. All but the reached states is for the properties of the model jointly. The one core is found with the rules of the set
 * dearer than the others, so that it is inside the set where the set holds. Last, the host looks the set up in the two lists, as a screen does that
 * has them already: `inside=` is the first core inside the set, `apart=` the first cut apart from it. Exit status and messages are those of ./report:
 * 0 answered; 1 refused, with one line on standard error; 2 wrong use, or something could not be read or written.
 *
 * With --blame it reads a model file and the log of a station: a state on each line, in base ten. It prints `blamed=` with the names of the rules that
 * are broken anywhere in the log, and `breach=` with the place of the first state that breaks a property; the first state has place 0. Where no state
 * does, that is the log's length, and one line on standard error says so. A refused text or log prints `refused=` and `line=`, as ./report does. The
 * exit status is as above; a line of the log that is not a number is something that could not be read.
 */
#include <errno.h>
#include <stdio.h>
#include <stdlib.h>
#include <string.h>

#include "codremif.h"

/* As many bytes as the report reads; no legal model has more than CODREMIF_TEXT_BYTES. */
#define READ_BYTES 4096

#define USAGE                        \
    "usage: host MODEL-FILE [SET]\n" \
    "       host --blame MODEL-FILE LOG-FILE\n"

enum status { ANSWERED = 0, REFUSED = 1, FAILED = 2 };

struct text {
    uint8_t bytes[READ_BYTES];
    size_t length;
};

struct list {
    uint8_t bytes[CODREMIF_LIST_BYTES];
    size_t length;
};

typedef uint64_t (*set_call)(const uint8_t *, size_t);
typedef uint64_t (*list_call)(const uint8_t *, size_t, uint8_t *, size_t);

static int read_text(const char *path, struct text *text)
{
    FILE *file = fopen(path, "rb");
    if (file == NULL)
        return 0;
    text->length = fread(text->bytes, 1, sizeof text->bytes, file);
    int good = !ferror(file);
    fclose(file);
    return good;
}

/* The names of a set in the model's order, with commas; the empty set is `-`. */
static void print_names(const struct text *text, uint32_t set)
{
    if (set == 0)
        printf("-");
    const char *comma = "";
    for (unsigned rule = 0; rule < codremif_rules(text->bytes, text->length); rule++) {
        size_t length;
        const char *name = codremif_rule_name(text->bytes, text->length, rule, &length);
        if (set >> rule & 1) {
            printf("%s%.*s", comma, (int)length, name);
            comma = ",";
        }
    }
    printf("\n");
}

/* A set as its number and its names. */
static void print_set(const char *key, const struct text *text, uint32_t set)
{
    printf("%s=%lu ", key, (unsigned long)set);
    print_names(text, set);
}

/* Whether the call was accepted; if not, says why not. */
static int accepted(uint64_t answer)
{
    if (codremif_accepted(answer))
        return 1;
    unsigned number = codremif_number(answer);
    fprintf(stderr, "host: refused by number %u, line %u: %s\n", number, codremif_line(answer), codremif_words(number));
    return 0;
}

static int show_verdict(const struct text *text, uint32_t set)
{
    uint8_t trace[CODREMIF_TRACE_BYTES];
    uint64_t answer = codremif_judge(text->bytes, text->length, set, trace, sizeof trace);
    if (!accepted(answer))
        return 0;
    print_set("set", text, set);
    printf("verdict=%s\n", codremif_holds(answer) ? "holds" : "broken");
    for (size_t i = 0; i < codremif_length(answer); i++)
        printf("state=%u\n", trace[i]);
    return 1;
}

/* How many states are reached, and their numbers with commas; no state is `-`. */
static void print_states(const uint8_t *marks, size_t length)
{
    unsigned long count = 0;
    for (size_t state = 0; state < length; state++)
        count += marks[state];
    printf("reached=%lu %s", count, count == 0 ? "-" : "");
    const char *comma = "";
    for (size_t state = 0; state < length; state++)
        if (marks[state]) {
            printf("%s%lu", comma, (unsigned long)state);
            comma = ",";
        }
    printf("\n");
}

/* The bytes past the marks keep their content: a state that the model does not have counts as not reached. */
static int show_reached(const struct text *text, uint32_t set)
{
    uint8_t marks[CODREMIF_MARK_BYTES] = {0};
    uint64_t answer = codremif_reached(text->bytes, text->length, set, marks, sizeof marks);
    if (!accepted(answer))
        return 0;
    print_states(marks, sizeof marks);
    printf("pairs=%lu\n", (unsigned long)codremif_pairs(answer));
    return 1;
}

static int show_set(const char *key, set_call call, const struct text *text)
{
    uint64_t answer = call(text->bytes, text->length);
    if (!accepted(answer))
        return 0;
    print_set(key, text, codremif_set(answer));
    return 1;
}

/* The places of the rules outside a set, and then those of the rules in it. Gives how many there are. */
static size_t order_for(uint32_t set, unsigned rules, uint8_t *order)
{
    size_t length = 0;
    for (uint32_t inside = 0; inside <= 1; inside++)
        for (unsigned place = 0; place < rules; place++)
            if ((set >> place & 1) == inside)
                order[length++] = (uint8_t)place;
    return length;
}

static int show_one_core(const struct text *text, uint32_t set)
{
    uint8_t order[CODREMIF_RULES];
    size_t length = order_for(set, codremif_rules(text->bytes, text->length), order);
    uint64_t answer = codremif_one_core(text->bytes, text->length, order, length);
    if (!accepted(answer))
        return 0;
    if (codremif_holds(answer))
        print_set("one_core", text, codremif_set(answer));
    else
        printf("no_core\n");
    printf("judgements=%lu\n", (unsigned long)codremif_judgements(answer));
    return 1;
}

static int show_list(const char *key, list_call call, const struct text *text, struct list *list)
{
    uint64_t answer = call(text->bytes, text->length, list->bytes, sizeof list->bytes);
    if (!accepted(answer))
        return 0;
    list->length = 2 * codremif_count(answer);
    printf("%ss=%lu\n", key, (unsigned long)codremif_count(answer));
    for (size_t i = 0; i < codremif_count(answer); i++)
        print_set(key, text, codremif_set_at(list->bytes, i));
    return 1;
}

/* The quick answer: no text is read for it, only the names are. In the lists of a model none of its sets is unlisted. */
static int show_witness(const struct text *text, uint32_t set, const struct list *cores, const struct list *cuts)
{
    uint64_t answer = codremif_suffices(set, cores->bytes, cores->length, cuts->bytes, cuts->length);
    uint64_t byte_place = codremif_witness(set, cores->bytes, cores->length, cuts->bytes, cuts->length);
    const uint8_t *witness = codremif_witness_bytes(answer, byte_place, cores->bytes, cuts->bytes);
    if (!accepted(answer))
        return 0;
    if (witness == NULL)
        printf("unlisted\n");
    else
        print_set(codremif_said(answer) == CODREMIF_CORE_INSIDE ? "inside" : "apart", text, codremif_set_at(witness, 0));
    return 1;
}

/* Whether a word is a set's number, base ten. A set that the model does not have is the library's to refuse. */
static int read_set(const char *word, uint32_t *set)
{
    char *end;
    if (word[0] < '0' || word[0] > '9')
        return 0;
    errno = 0;
    unsigned long value = strtoul(word, &end, 10);
    *set = (uint32_t)value;
    return errno == 0 && *end == '\0' && value <= UINT32_MAX;
}

/* The status, unless something that was printed did not get out. */
static enum status written(enum status status)
{
    if (fflush(stdout) == 0 && !ferror(stdout))
        return status;
    fprintf(stderr, "host: standard output cannot be written\n");
    return FAILED;
}

/* The states of a log, in memory that grows with them. */
struct log {
    uint8_t *states;
    size_t length, room;
};

/* Whether there was memory for one more. */
static int add_state(struct log *log, uint8_t state)
{
    if (log->length == log->room) {
        size_t room = log->room == 0 ? READ_BYTES : 2 * log->room;
        uint8_t *states = realloc(log->states, room);
        if (states == NULL)
            return 0;
        log->states = states;
        log->room = room;
    }
    log->states[log->length++] = state;
    return 1;
}

/* What comes next in a file of numbers, one on each line. */
enum next { NUMBER, NO_NUMBER, END };

/* A line is digits and byte 10; the last may end with the file. 255 stands for every larger number as well: no model has a state like that. */
static enum next read_state(FILE *file, uint8_t *state)
{
    unsigned value = 0;
    int digits = 0, byte = getc(file);
    if (byte == EOF)
        return END;
    for (; byte >= '0' && byte <= '9'; byte = getc(file)) {
        digits = 1;
        value = 10 * value + (unsigned)(byte - '0');
        value = value < UINT8_MAX ? value : UINT8_MAX;
    }
    *state = (uint8_t)value;
    return digits && (byte == '\n' || byte == EOF) ? NUMBER : NO_NUMBER;
}

/* Whether the log could be read; if not, says why not. */
static int read_log(const char *path, struct log *log)
{
    FILE *file = fopen(path, "rb");
    enum next next = END;
    uint8_t state = 0;
    int room = 1, good = file != NULL;
    while (good && room && (next = read_state(file, &state)) == NUMBER)
        room = add_state(log, state);
    if (file != NULL) {
        good = !ferror(file);
        fclose(file);
    }
    if (!good)
        fprintf(stderr, "host: %s cannot be read\n", path);
    else if (next == NO_NUMBER)
        fprintf(stderr, "host: line %lu of %s is not a number\n", (unsigned long)log->length + 1, path);
    else if (!room)
        fprintf(stderr, "host: there is no memory for %s\n", path);
    return good && room && next == END;
}

/* What stands on standard error is said once the lines have got out. */
static enum status show_blame(const struct text *text, const struct log *log)
{
    uint64_t answer = codremif_blame(text->bytes, text->length, log->states, log->length);
    uint64_t place = codremif_breach(text->bytes, text->length, log->states, log->length);
    enum status status = codremif_accepted(answer) ? ANSWERED : REFUSED;
    if (status == REFUSED) {
        printf("refused=%u\nline=%u\n", codremif_number(answer), codremif_line(answer));
    } else {
        printf("blamed=");
        print_names(text, codremif_set(answer));
        printf("breach=%llu\n", (unsigned long long)place);
    }
    if (written(status) == FAILED)
        return FAILED;
    if (accepted(answer) && codremif_no_breach(answer))
        fprintf(stderr, "host: no state of the log breaks a property\n");
    return status;
}

static enum status blame(const char *model_path, const char *log_path)
{
    struct text text;
    struct log log = {NULL, 0, 0};
    enum status status = FAILED;
    if (!read_text(model_path, &text))
        fprintf(stderr, "host: %s cannot be read\n", model_path);
    else if (read_log(log_path, &log))
        status = show_blame(&text, &log);
    free(log.states);
    return status;
}

int main(int argc, char **argv)
{
    static struct list cores, cuts;
    struct text text;
    uint32_t set = 0;
    int for_blame = argc > 1 && strcmp(argv[1], "--blame") == 0;
    if (argc == 2 && strcmp(argv[1], "--help") == 0) {
        printf(USAGE);
        return written(ANSWERED);
    }
    if (for_blame && argc == 4)
        return blame(argv[2], argv[3]);
    if (for_blame || (argc != 2 && argc != 3)) {
        fprintf(stderr, USAGE);
        return FAILED;
    }
    if (argc == 3 && !read_set(argv[2], &set)) {
        fprintf(stderr, "host: %s is not a set's number\n", argv[2]);
        return FAILED;
    }
    if (!read_text(argv[1], &text)) {
        fprintf(stderr, "host: %s cannot be read\n", argv[1]);
        return FAILED;
    }
    /* The full set is read off the text, so it has to be accepted first: MUST lends nothing and says so. */
    if (!accepted(codremif_must(text.bytes, text.length)))
        return REFUSED;
    if (argc == 2)
        set = codremif_full_set(text.bytes, text.length);
    if (!show_verdict(&text, set) || !show_reached(&text, set) || !show_set("must", codremif_must, &text) ||
        !show_set("may", codremif_may, &text) || !show_set("irr", codremif_irr, &text) || !show_one_core(&text, set) ||
        !show_list("core", codremif_cores, &text, &cores) || !show_list("cut", codremif_cuts, &text, &cuts) ||
        !show_witness(&text, set, &cores, &cuts))
        return written(REFUSED);
    return written(ANSWERED);
}
