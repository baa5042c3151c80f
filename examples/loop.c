/* A maker's loop. Reads a set from a table, asks by ITR whether the jobs of a second table may come aboard as a further chain, and ticks until
 * all jobs are complete, each after its most time. Prints what ran from when to when. */
#include "cudlomer.h"
#include <inttypes.h>
#include <stdio.h>
#include <stdlib.h>

/* The answer of a call; a refusal ends the program. */
static int64_t accepted(const char *what, int64_t answer)
{
    if (answer < 0) {
        fprintf(stderr, "%s: refused with %" PRId64 "\n", what, -answer);
        exit(1);
    }
    return answer;
}

static size_t read_jobs(const char *name, struct cudlomer_job *jobs)
{
    uint8_t text[CUDLOMER_MAX_TEXT + 1]; /* one byte more than a table may have tells one that is too long */
    FILE *file = fopen(name, "rb");
    if (file == NULL) {
        perror(name);
        exit(2);
    }
    size_t length = fread(text, 1, sizeof text, file);
    fclose(file);
    return (size_t)accepted(name, cudlomer_jobs_read(text, length, jobs, CUDLOMER_MAX_JOBS));
}

/* How many jobs the set has once the further chain was admitted or not. */
static size_t admit(struct cudlomer_job *jobs, size_t count, const char *name)
{
    struct cudlomer_job chain[CUDLOMER_MAX_JOBS];
    size_t further = read_jobs(name, chain);
    int64_t joined = accepted(name, cudlomer_jobs_admit(jobs, CUDLOMER_MAX_JOBS, count, chain, further, CUDLOMER_ITR));
    puts(joined > 0 ? "admitted" : "not admitted");
    return joined > 0 ? (size_t)joined : count;
}

static void print_span(uint64_t from, uint64_t to, int64_t ticked)
{
    printf("%" PRIu64 ",%" PRIu64 ",", from, to);
    if (cudlomer_ticked_ran(ticked))
        printf("%" PRIu64 ",%" PRIu64 "\n", cudlomer_ticked_chain(ticked), cudlomer_ticked_job(ticked));
    else
        printf("idle\n");
}

static void run(const struct cudlomer_job *jobs, size_t count)
{
    uint64_t times[CUDLOMER_MAX_JOBS], from = 0;
    struct cudlomer_state state = { 0 };
    int64_t last = CUDLOMER_IDLE;
    for (size_t i = 0; i < count; i++)
        times[i] = jobs[i].most;
    printf("from,to,chain,job\n");
    while (last != CUDLOMER_FINISHED) {
        uint64_t now = state.time;
        int64_t ticked = accepted("tick", cudlomer_jobs_tick(jobs, count, times, count, &state));
        if (ticked == last)
            continue;
        if (from < now)
            print_span(from, now, last);
        from = now;
        last = ticked;
    }
}

int main(int argc, char **argv)
{
    struct cudlomer_job jobs[CUDLOMER_MAX_JOBS];
    if (argc < 2) {
        fprintf(stderr, "usage: %s TABLE [CHAIN]\n", argv[0]);
        return 2;
    }
    size_t count = read_jobs(argv[1], jobs);
    if (argc > 2)
        count = admit(jobs, count, argv[2]);
    run(jobs, count);
    return 0;
}
