/* The functions on texts, called with lent memory. */
#ifndef MEMORY_TEXTS_H
#define MEMORY_TEXTS_H

#include "cudlomer.h"
#include "lend.h"

static int64_t text_bounds(struct ranges text, void *out, size_t size)
{
    return cudlomer_bounds(text.first, text.first_size, out, size);
}

static int64_t text_trace(struct ranges text, void *out, size_t size)
{
    return cudlomer_trace(text.first, text.first_size, out, size);
}

static int64_t text_set(struct ranges text, void *out, size_t size)
{
    return cudlomer_set_read(text.first, text.first_size, out, size / sizeof(uint64_t));
}

/* What is lent and only read is a text. */
static int64_t check_writer(const char *what, call *function, struct ranges text)
{
    int64_t answer = call_with_room(function, text);
    check_sizes(what, function, text, 1, answer < 0 ? 40 : (size_t)answer, answer);
    return answer;
}

/* A verdict or a number of rounds, which write nothing, by what they may be once the text has passed. */
static void check_numbers(const char *table, size_t length, int64_t answer)
{
    uint8_t *text = lend(FIRST, table, length);
    for (int algorithm = 0; algorithm <= 4; algorithm++) {
        int64_t verdict = cudlomer_verdict(text, length, (uint8_t)algorithm);
        int known = algorithm >= 1 && algorithm <= 3;
        count(answer < 0 ? verdict == answer : known ? verdict == 0 || verdict == 1 : verdict == -10, "verdict");
    }
    int64_t rounds = cudlomer_rounds(text, length);
    count(answer < 0 ? rounds == answer : rounds >= 1 && rounds <= CUDLOMER_MAX_JOBS, "rounds");
    count(returned(text, table, length), "the text that is read");
}

static void check_text(const char *table, size_t length)
{
    struct ranges text = { .first = table, .first_size = length };
    memset(before, FILL, ROOM);
    int64_t answer = check_writer("bounds", text_bounds, text);
    int64_t trace = check_writer("trace", text_trace, text);
    count(answer < 0 ? trace == answer : trace >= 0, "a trace where there are bounds");
    int64_t jobs = call_with_room(text_set, text);
    check_sizes("set_read", text_set, text, sizeof(uint64_t), jobs < 0 ? 40 : (size_t)jobs * sizeof(struct cudlomer_job), jobs);
    check_numbers(table, length, answer);
}

#endif
