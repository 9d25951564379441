#include "models.h"

#include <stdarg.h>
#include <stdio.h>
#include <stdlib.h>
#include <string.h>

static void add(struct model *model, const char *format, ...)
{
    va_list words;
    va_start(words, format);
    size_t room = sizeof model->text - model->length;
    int written = vsnprintf(model->text + model->length, room, format, words);
    va_end(words);
    if (written < 0 || (size_t)written >= room)
        abort();
    model->length += (size_t)written;
}

void model_text(struct model *model, const char *text)
{
    model->length = 0;
    add(model, "%s", text);
}

void model_begin(struct model *model, unsigned vars, unsigned rules, const char *init, const char *property)
{
    model->length = 0;
    add(model, "vars=%u\nrules=%u\ninit=%s\n", vars, rules, init);
    model_property(model, property);
}

void model_property(struct model *model, const char *expression)
{
    add(model, "prop=%s\n", expression);
}

void model_named_rule(struct model *model, const char *name, const char *parts)
{
    add(model, "rule=%s:%s\n", name, parts);
}

void model_rule(struct model *model, unsigned number, const char *parts)
{
    add(model, "rule=rule%04u:%s\n", number, parts);
}

void model_wide(struct model *model, unsigned properties, const char *state, const char *rule)
{
    model_begin(model, 7, 16, state, state);
    for (unsigned more = 1; more < properties; more++)
        model_property(model, state);
    for (unsigned i = 0; i < 16; i++) {
        char parts[MODEL_ROOM / 16];
        snprintf(parts, sizeof parts, "%s", rule);
        for (char *at = parts; *at != '\0'; at++)
            if (*at == '#')
                *at = "abcdefgABCDEFGAa"[i];
        model_rule(model, i, parts);
    }
}

void model_pairs(struct model *model)
{
    model_begin(model, 4, 16, "!d", "!d");
    for (unsigned i = 0; i < 16; i++) {
        unsigned k = i / 2;
        char expression[32];
        snprintf(expression, sizeof expression, "!&D&%sA&%sB%sC", k & 1 ? "" : "!", k & 2 ? "" : "!", k & 4 ? "" : "!");
        model_rule(model, i, expression);
    }
}

const unsigned char model_vectors[16] = {1, 2, 4, 8, 16, 32, 64, 35, 71, 57, 109, 73, 31, 19, 117, 120};

void model_bases(struct model *model)
{
    model_begin(model, 7, 16, "&!a&!b&!c&!d&!e&!f!g", "&!a&!b&!c&!d&!e&!f!g");
    for (unsigned i = 0; i < 16; i++) {
        char expression[32] = "";
        char *at = expression;
        /* each letter is unlike what the rest of the letters come to: !=A!=B .. 0, and the whole of it is false */
        *at++ = '!';
        for (unsigned bit = 0; bit < 7; bit++)
            if (model_vectors[i] >> bit & 1)
                at += sprintf(at, "!=%c", 'A' + (int)bit);
        *at = '0';
        model_rule(model, i, expression);
    }
}

void model_counter(struct model *model)
{
    static const char *const bits[] = {"=A!a", "=B!=ba", "=C!=c&ab", "=D!=d&a&bc", "=E!=e&a&b&cd", "=F!=f&a&b&c&de", "=G!=g&a&b&c&d&ef"};
    model_begin(model, 7, 7, "&!a&!b&!c&!d&!e&!f!g", "1");
    for (unsigned i = 0; i < 7; i++)
        model_rule(model, i, bits[i]);
}
