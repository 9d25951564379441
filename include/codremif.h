/*
 * codremif: which rules keep a trigger unit quiet.
 *
 * The manual for a C programmer. docs/FORMAT.md gives the meanings, with examples; this page
 * repeats what a host needs. It is C99, and C++98 or later.
 *
 * A model is a text: named Boolean rules over one second and the next, which may also speak about
 * power-up, and one to four properties. Ten calls read it:
 *
 *   codremif_judge    does a set of rules keep every property in every state that can be
 *                     reached? If not: a shortest run to a bad state
 *   codremif_reached  which states does a set of rules reach, and how many pairs of states were
 *                     tried to find them?
 *   codremif_cores    every core: a set of rules that holds and has no proper part that holds
 *   codremif_cuts     every cut: a set of rules whose removal leaves a broken set, while no
 *                     proper part of it does that
 *   codremif_must     MUST: the rules that all cores have in common
 *   codremif_may      MAY: the rules that some core has, but not all cores have
 *   codremif_irr      the irrelevant rules: those that no core has
 *   codremif_one_core one core, by the caller's order of preference, and how many sets were judged
 *                     to find it
 *   codremif_blame    which rules are broken in a log of states, a byte for each second?
 *   codremif_breach   at which place of the log is the first state that breaks a property?
 *
 * Two calls read no text. They look a set up in a list of cores and a list of cuts, for a screen
 * that has both lists already and asks at each click:
 *
 *   codremif_suffices  is a listed core inside the set? If not: is a listed cut apart from it?
 *   codremif_witness   at which byte of its list does that core or cut stand?
 *
 * One more, codremif_version, tells which library is linked.
 *
 * Build. `tools/library` at the repository's top proves the library and writes
 *   target/staticlib/libcodremif.a, for x86-64 Linux:
 *
 *     cc -Iinclude host.c target/staticlib/libcodremif.a
 *
 *   hosts/c has a host; `make -C hosts/c` builds it and the library, into target/hosts-c/host.
 *   The archive's code is position-independent, so a shared library can have it too.
 *
 * In short. With a text of `length` bytes at `text`:
 *
 *     uint8_t sets[CODREMIF_LIST_BYTES];
 *     uint64_t answer = codremif_cores(text, length, sets, sizeof sets);
 *     if (!codremif_accepted(answer))
 *         ... codremif_number(answer), codremif_line(answer) and codremif_words say why ...
 *     for (size_t i = 0; i < codremif_count(answer); i++)
 *         ... codremif_set_at(sets, i) is a core: rule k is in it if bit k of it is set ...
 *
 *   With a chosen set of its rules:
 *
 *     uint8_t marks[CODREMIF_MARK_BYTES] = {0};
 *     uint64_t answer = codremif_reached(text, length, set, marks, sizeof marks);
 *     if (!codremif_accepted(answer))
 *         ... as above ...
 *     for (size_t state = 0; state < sizeof marks; state++)
 *         ... marks[state] is 1 if the set reaches the state, else 0, as it was past 2^N ...
 *
 *   With an order of the places of its rules, one byte for each, the rule that is dearest last:
 *
 *     uint64_t answer = codremif_one_core(text, length, order, order_len);
 *     if (!codremif_accepted(answer))
 *         ... as above ...
 *     if (codremif_holds(answer))
 *         ... codremif_set(answer) is the core that is found, and may be set 0 ...
 *     else
 *         ... there is no core: the full set is broken ...
 *
 *   With a station's log of `log_len` states, one byte for each second:
 *
 *     uint64_t answer = codremif_blame(text, length, log, log_len);
 *     uint64_t place = codremif_breach(text, length, log, log_len);
 *     if (!codremif_accepted(answer))
 *         ... as above, and place is CODREMIF_NO_PLACE ...
 *     ... codremif_set(answer) has the rules that are broken anywhere in the log ...
 *     if (codremif_no_breach(answer))
 *         ... no state of the log breaks a property, and place is log_len ...
 *     else
 *         ... log[place] is the first that does, and the broken rules contain a cut ...
 *
 *   With the list of its cores, of `cores_len` bytes, the list of its cuts, of `cuts_len`, and a
 *   chosen set:
 *
 *     uint64_t answer = codremif_suffices(set, cores, cores_len, cuts, cuts_len);
 *     uint64_t byte_place = codremif_witness(set, cores, cores_len, cuts, cuts_len);
 *     const uint8_t *witness = codremif_witness_bytes(answer, byte_place, cores, cuts);
 *     if (codremif_said(answer) == CODREMIF_CORE_INSIDE)
 *         ... the set suffices: it has every rule of the core codremif_set_at(witness, 0) ...
 *     if (codremif_said(answer) == CODREMIF_CUT_APART)
 *         ... it does not: it has no rule of the cut codremif_set_at(witness, 0) ...
 *
 * The model text. Lines, each ended by byte 10, in this order and with no others:
 *
 *   vars=N                one digit, 1 to 7: the number of bits in a state
 *   rules=R               1 to 16, no leading zero: the number of rules
 *   init=EXPRESSION       in which states the unit may start, if no rule of the set forbids it
 *   prop=EXPRESSION       1 to 4 such lines: the properties, each the states that are good by it
 *   rule=NAME:STEP        R such lines; a name is 1 to 8 bytes from a-z and 0-9, and no two rules
 *                         have the same. STEP is an expression, the step part of the rule
 *   rule=NAME:STEP:START  the same with a start part, START: one more expression
 *
 *   An expression has 1 to 64 bytes, operator first: 0 and 1; the first N of a to g (the bits
 *   now); in step parts also the first N of A to G (the same bits one second later); ! takes one
 *   operand; &, |, > (implies) and = (alike) take two. The text is no C string: a byte 0 at its
 *   end is refused by 9.
 *
 *   The step part of a rule says which state may follow which, and its start part in which states
 *   the unit may start. A missing start part counts as `1`. A start part is refused by 5 to 8 after
 *   the step part has passed: by 5 if nothing follows its `:`, by 6 for a third `:` in the line, by
 *   7 for a capital letter.
 *
 *   Line 4 is due as a property. The line after a property is one too if it starts with `prop=`,
 *   and else the first rule line is due. After four properties it is due in any case, so a fifth
 *   `prop=` line is refused by 1.
 *
 *   Reading takes time linear in the text's length. No accepted text has more than
 *   CODREMIF_TEXT_BYTES, so a host may turn a longer one away before it asks.
 *
 * Numbers.
 *
 *   A state is a number from 0 to 2^N - 1: bit a weighs 1, b 2, c 4, and so on up to g, 64.
 *   A set of rules is a number from 0 to 2^R - 1: the first rule in the text weighs 1, the next
 *   2, and so on. Set 0 is empty, the full set is 2^R - 1 (codremif_full_set).
 *   A trace is one byte for each state, from a start state of the set to a bad one, both included:
 *   1 to 2^N bytes. A state is bad if it breaks some property. The trace is the shortest run that
 *   ends in a bad state; of several, the one with the smaller state number at the first place where
 *   they differ.
 *   A list (of cores or of cuts) has two bytes for each set, low byte first (codremif_set_at
 *   reads one), fewer rules first, then the smaller set number first. Each set stands in it once.
 *   Marks are one byte for each state by number, 2^N bytes: 1 if it is reached, 0 if it is not.
 *   The place of a rule is a number from 0 to R - 1: the first rule in the text has place 0.
 *   An order is R bytes that have each place exactly once.
 *   A log is one byte for each state, as many as there are. The place of a state in it is a number
 *   from 0: the first state has place 0.
 *
 * Start states. The start states of a set are those that meet `init` and the start part of each
 *   rule in the set; those of set 0 are all that meet `init`. A set with more rules has the same
 *   ones or fewer. Where it has none it holds, and no state is reached. After the first state of a
 *   run no start part is asked.
 *
 * Reached states. A state is reached by a set if some run of the set ends in it; every start state
 *   of the set is. codremif_reached marks the start states of the set first, by number; then each
 *   marked state, in the order of marking, is tried once as the first of a pair with every state
 *   by number, marked or not. A pair that meets the step part of every rule in the set marks its
 *   second state. As soon as 2^N states are marked it ends, and no further pair is tried. So the
 *   pairs tried are 2^N for each reached state if some state is not reached, never fewer than the
 *   states added to the start states, none where every state is a start state, and at most 2^N for
 *   set 0.
 *
 * Properties. All answers are for the properties of the text jointly; which states are reached
 *   does not depend on them. A set holds exactly where it holds for each of them, and their order
 *   makes no difference. To ask by one property, hand over a text with this property line alone.
 *   The joint trace is the first of the traces by each property, in the order above: shorter ones
 *   first. The joint cores are those unions of one core by each property that have no other such
 *   union as a proper part.
 *
 * One core. codremif_one_core judges the full set. If it is broken, there is no core, and this was
 *   the one judgement. If it holds, each rule, in the order given, is dropped when the remaining
 *   set still holds: one judgement for each, R + 1 in all. So the rules that the caller would
 *   rather lose come first in the order, and the dearest last. What is left is a core, whatever
 *   the order is. Each core is left by some order: by each that has the rules outside the core
 *   before those in it.
 *
 * Blame. A log is what a station has recorded, a state for each second: one state or more, each
 *   less than 2^N, of which the first meets `init`. The rules need not have been kept in it.
 *   codremif_blame gives those that are broken anywhere in it: a rule whose start part fails in
 *   the first state, or whose step part fails between a state and the next one, be it before the
 *   first bad state or after it. codremif_breach gives the place of the first bad state, or the
 *   log's length if no state is bad.
 *   Where there is a bad state, the log up to the first one is a run of the set of all the rules
 *   that are not broken. So codremif_judge says of that set that it is broken, and its trace is
 *   not longer than this run. So the broken rules share a rule with every core, and contain a cut.
 *   Where no rule is broken and yet a state is bad, the full set is broken: there is no core, and
 *   the cut is set 0. Where no state is bad, there may be broken rules all the same, and they need
 *   not contain a cut.
 *
 * Looking a set up. A listed core is inside a set if each of its rules is in the set. A listed cut
 *   is apart from a set if none of its rules is in the set. The core list is searched first, for
 *   the first listed core that is inside. Only where there is none, the cut list is searched, for
 *   the first listed cut that is apart. The core or the cut that is found is the witness. Where
 *   neither is found, the set is unlisted.
 *   With both whole lists of an accepted model, and a set that the model has, unlisted never
 *   occurs: a core is inside exactly where codremif_judge says that the set holds, and a cut is
 *   apart exactly where it says that the set is broken.
 *   The calls do not ask whose lists they are. A list may have any even count of bytes, more than
 *   any model's and none at all, with the sets in any order and more than once. The set may have
 *   rules that the model lacks. It is looked up as it stands, all 32 bits of it: a listed set has
 *   the rules 0 to 15 and no other. Set 0 as a listed core is inside every set, and as a listed
 *   cut it is apart from every set.
 *
 * Kinds. Each rule is in exactly one of MUST, MAY and the irrelevant rules. Where some rule is in
 *   a core, the model without its irrelevant rules has the same cores by name. Where the
 *   properties hold, one rule outside MUST may get any other legal step part, and any other legal
 *   start part or none, and they still hold; with two rules changed at once they need not.
 *
 * Edges. The properties hold if the full set does, and that is exactly when there is a core:
 *   codremif_count of the cores is then 1 or more. If the full set is broken, there is no core,
 *   and the one cut is set 0. If set 0 holds, it is the one core, and there is no cut. In both
 *   cases MUST and MAY are 0, and every rule is irrelevant: these three do not say which it is.
 *   codremif_one_core gives set 0 in both, and codremif_holds of its answer tells them apart.
 *
 * Who owns what. The caller owns all memory. The text is only read, and so are the order
 *   (`order`), the log (`log`) and the two lists in which a set is looked up (`cores`, `cuts`).
 *   Lent bytes (`trace`, `marks`, `sets`) are written from their start, and bytes past the trace,
 *   the marks or the list keep their content; what they held before makes no difference to an
 *   answer. No pointer is kept after the call. A witness is two bytes of the caller's own list and
 *   no copy. The calls need no alignment.
 *
 * What the host answers for. Each pointer leads to as many bytes as the length beside it says,
 *   and lent bytes overlap nothing else that is handed over. The text, the order, the log and the
 *   two lists in which a set is looked up are not lent: they may overlap, and may be the same
 *   memory. While a call runs nothing else writes these, and nothing else reads or writes the lent
 *   bytes. Nothing can check these, and if they fail nothing is promised. With a length of 0 the
 *   pointer is not used and may be NULL. Everything else may be handed over: any bytes, any
 *   length, any set number. Every call ends, with an answer or refused.
 *
 * A refused call. Its answer has the number and the line of the first ground that fits (enum
 *   codremif_refusal), and every other part of it is 0: the verdict then reads broken, the
 *   length, count, set, pairs or judgements read 0, a set that is looked up reads unlisted, and a
 *   log reads as if it had a bad state. So ask codremif_accepted first. No lent byte has changed.
 *
 * How much to lend. A call does not tell how many bytes it would have needed. Lend
 *   CODREMIF_TRACE_BYTES, CODREMIF_MARK_BYTES or CODREMIF_LIST_BYTES: these are enough for every
 *   model, and such a call is never refused by 11.
 *
 * Threads and signals. The library has no global state and nothing in it is written: any number
 *   of threads may call it at once, on the same text, order, log or lists too, with lent bytes of
 *   their own. It installs no signal handler and raises no signal. For the same reason a signal
 *   handler may call it, also where the signal came in the middle of a call, if the handler's
 *   stack has the room (below) and the lent bytes are its own.
 *
 * Heap and system. No malloc, no file, no system call, no lock, no errno. The archive needs
 *   memcpy and memset and nothing else. Its code uses SSE2, which every x86-64 processor has, and
 *   nothing later. It has no unwinding tables: a debugger or profiler that needs them does not
 *   see past a frame of the library. Nothing is thrown, and no function of the host is called, so
 *   no exception ever has to pass it.
 *
 * Time. Judging a set, marking the states that it reaches, giving MUST and finding one core take a
 *   millisecond or two at the most, on one processor of a machine of today; so do the lists of
 *   nearly every model. One core takes at most a tenth longer than MUST, and so do the two calls
 *   on a log, if it has 60 states; each state more takes at most 3 nanoseconds. The time of a list
 *   grows with the cores and cuts: where a model has thousands of both it takes some ten
 *   milliseconds (40 is the most that was seen, on models/pages/eight_pages.txt). MAY and the
 *   irrelevant rules take as long as a list. Looking a set up takes at most 2 nanoseconds for each
 *   listed set that is passed over, and a few beside: 52 microseconds for two lists of
 *   CODREMIF_LIST_SETS. This is measured, not proved. That a call ends is proved.
 *
 * Stack. A call takes all its memory from the caller's stack: CODREMIF_STACK_BYTES at most, below
 *   the frame of the caller, what memcpy and memset take included. hosts/c measures it, and adds
 *   up the frames of the archive's code for a bound; both fit. Look to it where a thread's stack
 *   is set by hand or is small by default (musl: 128 KiB), and in signal handlers (sigaltstack).
 *   Where there is less, the call faults on the guard page below the stack: it touches each page
 *   on the way down and passes over none.
 *
 * Versions. CODREMIF_VERSION is this header's, codremif_version the library's; CHANGELOG.md says
 *   what each brought. Link a library whose major number is the header's, and whose whole number
 *   is not less. What a host can build on until the major number changes:
 *
 *   - a name of this header keeps its meaning, and a call its parameters;
 *   - an answer is packed as below;
 *   - a number of a refusal keeps its meaning and its place among the others.
 *
 *   A later version may have more calls and more numbers of refusals, accept texts that are
 *   refused now, and raise the constants below. So a host treats a number that it does not know
 *   as refused: codremif_accepted does.
 */
#ifndef CODREMIF_H
#define CODREMIF_H

#if !defined(__cplusplus) && (!defined(__STDC_VERSION__) || __STDC_VERSION__ < 199901L)
#error "codremif.h needs C99 or later (-std=c99)"
#endif

#include <stddef.h>
#include <stdint.h>

#ifdef __cplusplus
extern "C" {
#endif

/* The version that this header belongs to: major * 1,000,000 + minor * 1,000 + patch. */
#define CODREMIF_VERSION 1007000
#define CODREMIF_VERSION_STRING "1.7.0"

/* An accepted text has at most so many bytes: two counts, `init`, four properties and 16 rules
 * with start parts, all at their longest. */
#define CODREMIF_TEXT_BYTES 2670

/* An accepted text has at most so many properties. */
#define CODREMIF_PROPERTIES 4

/* An accepted text has at most so many rules. */
#define CODREMIF_RULES 16

/* A rule's name has at most so many bytes. */
#define CODREMIF_NAME_BYTES 8

/* A trace has at most so many bytes: each of the 2^7 states once. */
#define CODREMIF_TRACE_BYTES 128

/* Marks have at most so many bytes: one for each of the 2^7 states. */
#define CODREMIF_MARK_BYTES 128

/* The list of a model has at most so many sets: no core is a part of another, nor is a cut, and of
 * 16 rules at most 16 over 8 sets are such (Sperner). */
#define CODREMIF_LIST_SETS 12870

/* The list of a model has at most so many bytes. */
#define CODREMIF_LIST_BYTES 25740

/* What codremif_witness gives where there is no witness; no list has such a byte place. */
#define CODREMIF_NO_WITNESS ((uint64_t)-1)

/* What codremif_breach gives where it is refused; no log has such a place or such a length. */
#define CODREMIF_NO_PLACE ((uint64_t)-1)

/* The stack that a call needs: each, and the most of them. hosts/c/stack.c measures it and
 * hosts/c/frames adds it up; both fail where these say too little. */
#define CODREMIF_JUDGE_STACK_BYTES 65536
#define CODREMIF_REACHED_STACK_BYTES 65536
#define CODREMIF_CORES_STACK_BYTES 131072
#define CODREMIF_CUTS_STACK_BYTES 131072
#define CODREMIF_MUST_STACK_BYTES 65536
#define CODREMIF_MAY_STACK_BYTES 131072
#define CODREMIF_IRR_STACK_BYTES 131072
#define CODREMIF_ONE_CORE_STACK_BYTES 65536
#define CODREMIF_BLAME_STACK_BYTES 65536
#define CODREMIF_BREACH_STACK_BYTES 65536
#define CODREMIF_SUFFICES_STACK_BYTES 1024
#define CODREMIF_WITNESS_STACK_BYTES 1024
#define CODREMIF_STACK_BYTES 131072

/*
 * Why a call is refused; docs/FORMAT.md has an example of each. Numbers 1 to 8 are tried line by
 * line, in this order within a line, and 5 to 8 again on the start part of a rule if its step part
 * has passed; after the whole text come 9, 10 and 11, where an order is handed over 13 after 9, and
 * where a log is handed over 14 and then 15 after 9. The two calls that read no text try 12 and
 * nothing else. The first line is 1; a number that concerns no line gives line 0. codremif_words
 * has the same words.
 */
enum codremif_refusal {
    /* Where no number fits, the call is accepted. */
    CODREMIF_ACCEPTED = 0,
    /* The line due here is missing, doesn't start with its key and `=`, or has no byte 10 at its
     * end. */
    CODREMIF_LINE_DUE = 1,
    /* The count is not written as above or is outside its range. */
    CODREMIF_COUNT = 2,
    /* A rule line's value doesn't begin with a proper name and `:`. */
    CODREMIF_NAME = 3,
    /* An earlier rule has this name. */
    CODREMIF_NAME_TWICE = 4,
    /* The expression has no byte or more than 64. */
    CODREMIF_EXPRESSION_LENGTH = 5,
    /* It has a byte other than `0`, `1`, `!`, `&`, `|`, `>`, `=`, a to g and A to G. */
    CODREMIF_BYTE = 6,
    /* It has a letter beyond the first N, or a capital letter in `init`, `prop` or a start part. */
    CODREMIF_LETTER = 7,
    /* It isn't exactly one expression. */
    CODREMIF_NOT_ONE = 8,
    /* Bytes follow the last rule line (the line after it). */
    CODREMIF_BYTES_FOLLOW = 9,
    /* The judged set is 2^R or more (line 0). */
    CODREMIF_NO_SUCH_SET = 10,
    /* The lent bytes are fewer than this answer's trace or list needs (line 0). */
    CODREMIF_TOO_FEW_BYTES = 11,
    /* A list has an odd count of bytes (line 0). */
    CODREMIF_ODD_LIST = 12,
    /* The order is not R bytes that have each place from 0 to R - 1 exactly once (line 0). */
    CODREMIF_NOT_AN_ORDER = 13,
    /* The log is empty or has a state of 2^N or more (line 0). */
    CODREMIF_NOT_A_LOG = 14,
    /* The log's first state does not meet `init` (line 0). */
    CODREMIF_INIT_UNMET = 15
};

/* What codremif_suffices says of a set. */
enum codremif_lookup {
    /* No listed core is inside the set, and no listed cut is apart from it. It also reads so where
     * the call is refused. */
    CODREMIF_UNLISTED = 0,
    /* A listed core is inside the set. */
    CODREMIF_CORE_INSIDE = 1,
    /* No listed core is inside the set, and a listed cut is apart from it. */
    CODREMIF_CUT_APART = 2
};

/* An answer that nobody looks at may be a refusal: compilers that can warn of it do. */
#if defined(__GNUC__)
#define CODREMIF_LOOK_AT_IT __attribute__((__warn_unused_result__))
#else
#define CODREMIF_LOOK_AT_IT
#endif

/*
 * The calls. Each answer is one 64-bit number: the number of the refusal (0: accepted), plus 256
 * times the line, plus 65,536 times the length, count, set, pairs or what is said of a set, plus
 * 2^40 for a verdict that holds, a core inside or a log without a bad state, plus 2^41 times the
 * judgements. Take it apart with the functions below. Three calls give no such answer but a number
 * as it is: codremif_breach, codremif_witness and codremif_version.
 */

/*
 * Judges a set of rules. Accepted: codremif_holds, and if it does not hold codremif_length, with
 * the trace in the first so many bytes of `trace`. A set that holds writes nothing, has length 0
 * and needs no lent byte.
 * Refused by 1 to 9 (the text), 10 (the set), 11 (trace_len is less than the trace's length).
 */
CODREMIF_LOOK_AT_IT
uint64_t codremif_judge(const uint8_t *text, size_t text_len, uint32_t set, uint8_t *trace,
                        size_t trace_len);

/*
 * Marks the states that a set of rules reaches. Accepted: codremif_pairs, with the marks in the
 * first 2^N bytes of `marks`.
 * Refused by 1 to 9 (the text), 10 (the set), 11 (marks_len is less than 2^N, whatever is
 * reached).
 */
CODREMIF_LOOK_AT_IT
uint64_t codremif_reached(const uint8_t *text, size_t text_len, uint32_t set, uint8_t *marks,
                          size_t marks_len);

/*
 * Lists the cores. Accepted: codremif_count, with so many sets from the start of `sets`.
 * Refused by 1 to 9 (the text), 11 (sets_len is less than twice the count).
 */
CODREMIF_LOOK_AT_IT
uint64_t codremif_cores(const uint8_t *text, size_t text_len, uint8_t *sets, size_t sets_len);

/* Lists the cuts, as codremif_cores lists the cores. */
CODREMIF_LOOK_AT_IT
uint64_t codremif_cuts(const uint8_t *text, size_t text_len, uint8_t *sets, size_t sets_len);

/*
 * Gives MUST. Accepted: codremif_set. Refused by 1 to 9 (the text).
 * It lends nothing, so it also serves to ask whether a text is accepted.
 */
CODREMIF_LOOK_AT_IT
uint64_t codremif_must(const uint8_t *text, size_t text_len);

/*
 * Gives MAY: the rules in some core but not in MUST. Accepted: codremif_set. Refused by 1 to 9
 * (the text). 0 where there is no core, and where there is only one.
 */
CODREMIF_LOOK_AT_IT
uint64_t codremif_may(const uint8_t *text, size_t text_len);

/*
 * Gives the irrelevant rules: those in no core. Accepted: codremif_set. Refused by 1 to 9 (the
 * text). The full set where there is no core, and where set 0 is the one core.
 */
CODREMIF_LOOK_AT_IT
uint64_t codremif_irr(const uint8_t *text, size_t text_len);

/*
 * Finds one core in the caller's order of preference, which is the places of the rules as bytes,
 * dearest last. Accepted: codremif_judgements; and where the full set holds (codremif_holds)
 * codremif_set, the core that is found, after R + 1 judgements. Where the full set is broken,
 * there is no core: codremif_holds is 0, codremif_set is 0, and there was 1 judgement.
 * Refused by 1 to 9 (the text), 13 (the order: too few places or too many, a place twice, or a
 * place of R or more). It lends nothing.
 */
CODREMIF_LOOK_AT_IT
uint64_t codremif_one_core(const uint8_t *text, size_t text_len, const uint8_t *order,
                           size_t order_len);

/*
 * Gives the rules that are broken anywhere in a log, which is states as bytes, one for each second.
 * Accepted: codremif_set, the broken rules; and codremif_no_breach, whether no state of the log
 * breaks a property. Where one does, the broken rules share a rule with every core and contain a
 * cut.
 * Refused by 1 to 9 (the text), 14 (the log: it has no byte, or a byte of 2^N or more anywhere in
 * it), 15 (its first byte). It lends nothing. A log may have any length.
 */
CODREMIF_LOOK_AT_IT
uint64_t codremif_blame(const uint8_t *text, size_t text_len, const uint8_t *log, size_t log_len);

/*
 * Given the same as codremif_blame, gives the place of the first state that breaks a property,
 * counted from 0: it is `log[place]`. `log_len` where no state does. CODREMIF_NO_PLACE where
 * codremif_blame is refused. It is no answer to be taken apart.
 */
CODREMIF_LOOK_AT_IT
uint64_t codremif_breach(const uint8_t *text, size_t text_len, const uint8_t *log, size_t log_len);

/*
 * Looks a set up in two lists, two bytes for each set as codremif_cores and codremif_cuts write
 * them. Accepted: codremif_said. Refused by 12 (cores_len or cuts_len is odd, or both are).
 * It is given no text and lends nothing.
 */
CODREMIF_LOOK_AT_IT
uint64_t codremif_suffices(uint32_t set, const uint8_t *cores, size_t cores_len,
                           const uint8_t *cuts, size_t cuts_len);

/*
 * Given the same as codremif_suffices, gives the byte place of the witness: where the first of its
 * two bytes stands, counted from 0, in `cores` if a listed core is inside the set, else in `cuts`.
 * CODREMIF_NO_WITNESS where the set is unlisted, and where codremif_suffices is refused. It is no
 * answer to be taken apart; codremif_witness_bytes makes a pointer of it.
 */
CODREMIF_LOOK_AT_IT
uint64_t codremif_witness(uint32_t set, const uint8_t *cores, size_t cores_len,
                          const uint8_t *cuts, size_t cuts_len);

/*
 * Gives the library's version, as CODREMIF_VERSION gives the header's. It is no answer to be
 * taken apart. Not less than CODREMIF_VERSION, and the same when divided by 1,000,000: the
 * library has all that the header declares.
 */
CODREMIF_LOOK_AT_IT
uint64_t codremif_version(void);

/* What an answer says. */

/* Of every answer: 1 if the call is accepted, 0 if it is refused, by whichever number. */
static inline int codremif_accepted(uint64_t answer)
{
    return (answer & 0xFF) == CODREMIF_ACCEPTED;
}

/* Of every answer: the number of the refusal, one of enum codremif_refusal or, of a later
 * library, one that this header does not know; 0 for an accepted call. */
static inline unsigned codremif_number(uint64_t answer)
{
    return answer & 0xFF;
}

/* Of every answer: the line that is refused, the first is 1; 0 where no line is. */
static inline unsigned codremif_line(uint64_t answer)
{
    return (answer >> 8) & 0xFF;
}

/* Of codremif_judge: 1 if the set holds; 0 if it is broken, and if the call is refused.
 * Of codremif_one_core: the same of the full set, so 1 if there is a core and one is found.
 * Of codremif_suffices: 1 if a listed core is inside the set; else 0. */
static inline int codremif_holds(uint64_t answer)
{
    return (answer >> 40) & 1;
}

/* Of codremif_judge: how many states the trace has. */
static inline size_t codremif_length(uint64_t answer)
{
    return (answer >> 16) & 0xFFFFFF;
}

/* Of codremif_reached: how many pairs of states were tried. */
static inline size_t codremif_pairs(uint64_t answer)
{
    return (answer >> 16) & 0xFFFFFF;
}

/* Of codremif_cores and codremif_cuts: how many sets the list has. */
static inline size_t codremif_count(uint64_t answer)
{
    return (answer >> 16) & 0xFFFFFF;
}

/* Of codremif_must, codremif_may and codremif_irr: the set. Of codremif_one_core: the core that is
 * found; 0 too where codremif_holds says that there is none. Of codremif_blame: the rules that are
 * broken anywhere in the log. */
static inline uint32_t codremif_set(uint64_t answer)
{
    return (answer >> 16) & 0xFFFFFF;
}

/* Of codremif_one_core: how many sets were judged, the full set included. */
static inline size_t codremif_judgements(uint64_t answer)
{
    return answer >> 41;
}

/* Of codremif_blame: 1 if no state of the log breaks a property; 0 if one does, and if the call is
 * refused. */
static inline int codremif_no_breach(uint64_t answer)
{
    return (answer >> 40) & 1;
}

/* Of codremif_suffices: what it says of the set, one of enum codremif_lookup. */
static inline unsigned codremif_said(uint64_t answer)
{
    return (answer >> 16) & 0xFFFFFF;
}

/* Of codremif_suffices and codremif_witness, both given the same set and lists: the two bytes of
 * the witness, in the list that holds it; codremif_set_at(them, 0) is the set. NULL where the set
 * is unlisted, and where the calls are refused. */
static inline const uint8_t *codremif_witness_bytes(uint64_t answer, uint64_t byte_place,
                                                    const uint8_t *cores, const uint8_t *cuts)
{
    if (byte_place == CODREMIF_NO_WITNESS)
        return NULL;
    switch (codremif_said(answer)) {
    case CODREMIF_CORE_INSIDE: return cores + byte_place;
    case CODREMIF_CUT_APART: return cuts + byte_place;
    default: return NULL;
    }
}

/* The set at a place of a list, counted in sets: the first is 0. The place is less than
 * codremif_count says. */
static inline uint32_t codremif_set_at(const uint8_t *sets, size_t place)
{
    return sets[2 * place] + 256u * sets[2 * place + 1];
}

/* The words above for a number of a refusal; "" for one that this header does not know. */
static inline const char *codremif_words(unsigned number)
{
    switch (number) {
    case CODREMIF_ACCEPTED: return "Where no number fits, the call is accepted.";
    case CODREMIF_LINE_DUE: return "The line due here is missing, doesn't start with its key and "
        "`=`, or has no byte 10 at its end.";
    case CODREMIF_COUNT: return "The count is not written as above or is outside its range.";
    case CODREMIF_NAME: return "A rule line's value doesn't begin with a proper name and `:`.";
    case CODREMIF_NAME_TWICE: return "An earlier rule has this name.";
    case CODREMIF_EXPRESSION_LENGTH: return "The expression has no byte or more than 64.";
    case CODREMIF_BYTE: return "It has a byte other than `0`, `1`, `!`, `&`, `|`, `>`, `=`, "
        "a to g and A to G.";
    case CODREMIF_LETTER: return "It has a letter beyond the first N, or a capital letter in "
        "`init`, `prop` or a start part.";
    case CODREMIF_NOT_ONE: return "It isn't exactly one expression.";
    case CODREMIF_BYTES_FOLLOW: return "Bytes follow the last rule line (the line after it).";
    case CODREMIF_NO_SUCH_SET: return "The judged set is 2^R or more (line 0).";
    case CODREMIF_TOO_FEW_BYTES: return "The lent bytes are fewer than this answer's trace or "
        "list needs (line 0).";
    case CODREMIF_ODD_LIST: return "A list has an odd count of bytes (line 0).";
    case CODREMIF_NOT_AN_ORDER: return "The order is not R bytes that have each place from 0 to "
        "R - 1 exactly once (line 0).";
    case CODREMIF_NOT_A_LOG: return "The log is empty or has a state of 2^N or more (line 0).";
    case CODREMIF_INIT_UNMET: return "The log's first state does not meet `init` (line 0).";
    default: return "";
    }
}

/*
 * What an accepted text says. These read the text themselves, within its length. They are for a
 * text that a call has accepted; of another they say something or other, and do no harm.
 */

/* The name of the rule at a place of an accepted text, the first is 0: where it begins in the
 * text, with its length in `name_len`. It is no C string. NULL and 0 where the text has no such
 * rule. */
static inline const char *codremif_rule_name(const uint8_t *text, size_t text_len, unsigned place,
                                             size_t *name_len)
{
    size_t at = 0, end;
    *name_len = 0;
    while (at < text_len) {
        /* a line begins here; a rule's begins with "rule=" */
        if (text_len - at >= 5 && text[at] == 'r' && text[at + 1] == 'u' && text[at + 2] == 'l' &&
            text[at + 3] == 'e' && text[at + 4] == '=' && place-- == 0) {
            at += 5;
            for (end = at; end < text_len && text[end] != ':'; end++)
                continue;
            *name_len = end - at;
            return (const char *)(text + at);
        }
        while (at < text_len && text[at] != 10)
            at++;
        at++;
    }
    return NULL;
}

/* How many rules an accepted text has. */
static inline unsigned codremif_rules(const uint8_t *text, size_t text_len)
{
    unsigned rules = 0;
    size_t name_len;
    while (rules < CODREMIF_RULES && codremif_rule_name(text, text_len, rules, &name_len) != NULL)
        rules++;
    return rules;
}

/* The full set of an accepted text: all its rules. */
static inline uint32_t codremif_full_set(const uint8_t *text, size_t text_len)
{
    return ((uint32_t)1 << codremif_rules(text, text_len)) - 1;
}

#ifdef __cplusplus
}
#endif

#endif
