/* Model texts that the tests write line by line. */
#ifndef MODELS_H
#define MODELS_H

#include <stddef.h>

/* Room for every text of the tests, those that are refused for their length included. */
#define MODEL_ROOM 8192

struct model {
    char text[MODEL_ROOM];
    size_t length;
};

/* A model of the bytes of a string. */
void model_text(struct model *model, const char *text);

/* Begins a model with its counts, `init` and its first property. */
void model_begin(struct model *model, unsigned vars, unsigned rules, const char *init, const char *property);

/* Adds a property line. */
void model_property(struct model *model, const char *expression);

/* Adds a rule line. What follows the name is the step part, or the step part, `:` and the start part. */
void model_named_rule(struct model *model, const char *name, const char *parts);

/* The same; the name has eight bytes, the most there can be. */
void model_rule(struct model *model, unsigned number, const char *parts);

/*
 * Seven letters, so many properties that are all like `init`, and 16 rules that are alike, but that a # in a rule stands for another letter in
 * each, a capital one in seven of them.
 */
void model_wide(struct model *model, unsigned properties, const char *state, const char *rule);

/*
 * Eight bad states, and rules 2k and 2k + 1 keep the unit out of the k-th. So a core takes one rule of each pair: 256 cores of eight rules,
 * the first is 0x5555 and the last 0xAAAA. A cut is a pair: 3, 12, 48 and so on up to 0xC000. The trace without the pair k is 0, 8 + k.
 */
void model_pairs(struct model *model);

/*
 * Every state but 0 is bad, and rule i asks that the bits of the next state that model_vectors[i] has are an even number. So a set holds if
 * its vectors leave the next state 0 alone, which is if they span all seven bits, and a core is a basis: thousands of them.
 */
void model_bases(struct model *model);
extern const unsigned char model_vectors[16];

/* Seven bits that count: from 0 each state has one next, and the last is 127. Seven rules, one for each bit. */
void model_counter(struct model *model);

#endif
