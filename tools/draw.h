/* Sets, tables, running times and damaged ones, drawn from a fixed seed. */
#ifndef DRAW_H
#define DRAW_H

#include "cudlomer.h"
#include <inttypes.h>
#include <stdio.h>
#include <string.h>

enum { KINDS = 5 };

/* The fewest and most chains, the fewest and most jobs in a chain, and the greatest figures. */
static const struct kind { uint64_t chains[2], jobs[2], release, priority, most, deadline; } kinds[KINDS] = {
    { { 1, 4 }, { 1, 4 }, 20, 3, 6, 60 },                            /* small */
    { { 1, 6 }, { 1, 6 }, 60, 5, 12, 300 },                          /* dense */
    { { 16, 16 }, { 4, 4 }, 40000000, 5, 1000000, 4000000000 },      /* 64 long jobs */
    { { 1, 8 }, { 1, 8 }, 1000000000, 255, 1000000, 4000000000 },    /* extreme */
    { { 16, 16 }, { 4, 4 }, 400, 9, 30, 4000 },                      /* 64 jobs */
};

static uint64_t seed = 2026;

/* A number from low to high, which is high in one draw of four. */
static uint64_t draw(uint64_t low, uint64_t high)
{
    seed = seed * 6364136223846793005 + 1442695040888963407;
    uint64_t drawn = seed >> 31;
    return drawn % 4 == 0 ? high : low + drawn / 4 % (high - low + 1);
}

/* Fills in a set, and answers how many jobs it has. */
static size_t draw_jobs(const struct kind *kind, struct cudlomer_job *jobs)
{
    size_t count = 0;
    uint64_t chains = draw(kind->chains[0], kind->chains[1]);
    for (uint64_t chain = 1; chain <= chains; chain++) {
        uint64_t last = draw(kind->jobs[0], kind->jobs[1]);
        for (uint64_t job = 1; job <= last; job++) {
            uint64_t release = draw(0, kind->release), priority = draw(0, kind->priority);
            uint64_t most = draw(1, kind->most), least = draw(1, most), deadline = draw(0, kind->deadline);
            jobs[count++] = (struct cudlomer_job){ chain, job, release, priority, least, most, deadline };
        }
    }
    return count;
}

/* Writes the text of a set's table, and answers its length. */
static size_t write_table(const struct cudlomer_job *jobs, size_t count, char *table)
{
    int end = sprintf(table, "chain,job,release,priority,least,most,deadline\r\n");
    for (const struct cudlomer_job *j = jobs; j < jobs + count; j++)
        end += sprintf(table + end, "%" PRIu64 ",%" PRIu64 ",%" PRIu64 ",%" PRIu64 ",%" PRIu64 ",%" PRIu64 ",%" PRIu64 "\r\n", j->chain,
                       j->job, j->release, j->priority, j->least, j->most, j->deadline);
    return (size_t)end;
}

/* Cuts the text off, makes it about as long as a text may be, or changes a byte. */
static size_t damage_text(char *table, size_t end)
{
    size_t way = draw(0, 2), at = draw(0, end - 1), longer = draw(4094, 4097);
    if (way == 1)
        memset(table + end, '7', longer - end);
    if (way == 2)
        table[at] = "0123456789,\r\n-a"[draw(0, 15)];
    return way == 0 ? at : way == 1 ? longer : end;
}

/* Cuts numbers off, changes one a little, or makes one huge. */
static size_t damage_numbers(uint64_t *numbers, size_t length)
{
    size_t way = draw(0, 2), at = draw(0, length - 1);
    if (way == 1)
        numbers[at] += draw(0, 2) - 1;
    if (way == 2)
        numbers[at] = UINT64_MAX - draw(0, 1);
    return way == 0 ? at : length;
}

#endif
