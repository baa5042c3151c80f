/* The functions on sets, called with lent memory. */
#ifndef MEMORY_SETS_H
#define MEMORY_SETS_H

#include "cudlomer.h"
#include "draw.h"
#include "lend.h"
#include "memory_recordings.h"

enum { MOST_TICKS = 10 };

static uint64_t algorithm, held;

static int64_t set_write(struct ranges set, void *out, size_t size)
{
    return cudlomer_set_write(set.first, set.first_size / WORD, out, size);
}

static int64_t set_bounds(struct ranges set, void *out, size_t size)
{
    return cudlomer_set_bounds(set.first, set.first_size / WORD, algorithm, out, size / WORD);
}

static int64_t set_blocks(struct ranges set, void *out, size_t size)
{
    return cudlomer_set_blocks(set.first, set.first_size / WORD, algorithm, out, size / WORD);
}

static int64_t set_admit(struct ranges chain, void *jobs, size_t size)
{
    return cudlomer_set_admit(jobs, size / WORD, held, chain.first, chain.first_size / WORD, algorithm);
}

static int64_t set_tick(struct ranges timed, void *state, size_t size)
{
    return cudlomer_set_tick(timed.first, timed.first_size / WORD, timed.second, timed.second_size / WORD, state, size / WORD);
}

static int64_t set_run(struct ranges timed, void *out, size_t size)
{
    return cudlomer_set_run(timed.first, timed.first_size / WORD, timed.second, timed.second_size / WORD, out, size / WORD);
}

static int64_t set_trace(struct ranges timed, void *out, size_t size)
{
    return cudlomer_set_trace(timed.first, timed.first_size / WORD, timed.second, timed.second_size / WORD, out, size / WORD);
}

static int64_t set_waveform(struct ranges timed, void *out, size_t size)
{
    return cudlomer_set_waveform(timed.first, timed.first_size / WORD, timed.second, timed.second_size / WORD, out, size);
}

/* The text, the bounds, the blocks, and the verdict and the rounds, which write nothing. */
static void check_figures(const uint64_t *numbers, size_t length)
{
    struct ranges set = { .first = numbers, .first_size = length * WORD };
    int64_t bytes = call_with_room(set_write, set);
    check_sizes("set_write", set_write, set, 1, bytes < 0 ? 40 : (size_t)bytes, bytes);
    for (algorithm = 0; algorithm <= 4; algorithm++) {
        int64_t bounds = call_with_room(set_bounds, set);
        check_sizes("set_bounds", set_bounds, set, WORD, bounds < 0 ? 40 : (size_t)bounds * WORD, bounds);
        int64_t blocks = call_with_room(set_blocks, set);
        check_sizes("set_blocks", set_blocks, set, WORD, blocks < 0 ? 40 : (size_t)blocks * WORD, blocks);
        uint64_t *jobs = lend(FIRST, numbers, length * WORD);
        int64_t verdict = cudlomer_set_verdict(jobs, length, algorithm), rounds = cudlomer_set_rounds(jobs, length);
        count(bounds < 0 ? verdict == bounds : verdict == 0 || verdict == 1, "set_verdict");
        count(bytes < 0 ? rounds == bytes : rounds >= 1 && rounds <= CUDLOMER_MAX_JOBS, "set_rounds");
        count(returned(jobs, numbers, length * WORD), "the set that is read");
    }
}

/* A chain for the jobs at the start of a set, with room for these alone, and from two numbers too few to two too many. */
static void check_admission(const uint64_t *numbers, size_t length, const uint64_t *chain, size_t chain_length)
{
    struct ranges further = { .first = chain, .first_size = chain_length * WORD };
    size_t exact = (length + chain_length) * WORD;
    held = length / CUDLOMER_NUMBERS(cudlomer_job, 1);
    memcpy(before, numbers, length * WORD);
    for (algorithm = 0; algorithm <= 4; algorithm++) {
        int64_t answer = call_with_room(set_admit, further);
        size_t needed = answer == 0 ? 0 : exact; /* on no the room does not matter */
        check_rest("set_admit", exact);
        check_size("set_admit", set_admit, further, length * WORD, needed, answer);
        for (size_t size = exact < 2 * WORD ? 0 : exact - 2 * WORD; size <= exact + 2 * WORD; size += WORD)
            check_size("set_admit", set_admit, further, size, needed, answer);
    }
}

/* The steps, which write nothing, of a run of so many jobs that ends so or is refused. */
static void check_steps(struct ranges timed, size_t jobs_count, int64_t end)
{
    uint64_t *jobs = lend(FIRST, timed.first, timed.first_size), *times = lend(SECOND, timed.second, timed.second_size);
    int64_t steps = cudlomer_set_steps(jobs, timed.first_size / WORD, times, timed.second_size / WORD);
    count(end < 0 ? steps == end : steps >= 1 && steps <= 2 * (int64_t)jobs_count, "set_steps");
    count(returned(jobs, timed.first, timed.first_size), "the set that is read");
    count(returned(times, timed.second, timed.second_size), "the times that are read");
}

/* The run as a whole, its steps, its trace and its waveform. */
static void check_run(struct ranges timed)
{
    size_t jobs = (timed.first_size + sizeof(struct cudlomer_job) - 1) / sizeof(struct cudlomer_job);
    int64_t end = call_with_room(set_run, timed);
    check_sizes("set_run", set_run, timed, WORD, jobs * WORD, end);
    check_steps(timed, jobs, end);
    check_sizes("set_trace", set_trace, timed, WORD, jobs * 2 * sizeof(struct cudlomer_row), call_with_room(set_trace, timed));
    int64_t bytes = call_with_room(set_waveform, timed);
    check_sizes("set_waveform", set_waveform, timed, 1, bytes < 0 ? 40 : (size_t)bytes, bytes);
}

/* Ticks from a state of so many jobs on; beyond them `before` holds what it did. */
static void check_ticks(struct ranges timed, const struct cudlomer_state *state, size_t jobs_count)
{
    memcpy(before, state, (1 + jobs_count) * WORD);
    memcpy(before + offsetof(struct cudlomer_state, completions), state->completions, jobs_count * WORD);
    for (int ticks = 0; ticks < MOST_TICKS; ticks++) {
        int64_t answer = call_with_room(set_tick, timed);
        check_sizes("set_tick", set_tick, timed, WORD, sizeof(struct cudlomer_state), answer);
        if (answer < 0 || answer == CUDLOMER_FINISHED)
            return;
        memcpy(before, after, ROOM);
    }
}

/* A state in which all jobs are complete but the last, which lacks one tick. */
static struct cudlomer_state last_state(const uint64_t *times, size_t jobs_count)
{
    struct cudlomer_state state = { .time = CUDLOMER_LAST_TIME - MOST_TICKS };
    for (size_t i = 0; i < jobs_count; i++) {
        state.work[i] = times[i];
        state.completions[i] = state.time;
    }
    state.work[jobs_count - 1]--;
    return state;
}

/* The state as it can be, and with a number damaged: the time, a job's work or its completion. */
static void check_state(struct ranges timed, struct cudlomer_state state, size_t jobs_count)
{
    check_ticks(timed, &state, jobs_count);
    if (draw(0, 1) == 0)
        damage_numbers((uint64_t *)&state, 1 + jobs_count);
    else
        damage_numbers(state.completions, jobs_count);
    check_ticks(timed, &state, jobs_count);
}

/* Running times and states of a set, each as they can be and damaged. */
static void check_machine(const uint64_t *numbers, size_t length, const struct cudlomer_job *jobs, size_t jobs_count)
{
    uint64_t times[CUDLOMER_MAX_JOBS];
    struct cudlomer_state start = { 0 };
    for (size_t i = 0; i < jobs_count; i++)
        times[i] = draw(jobs[i].least, jobs[i].most);
    struct ranges timed = { .first = numbers, .second = times, .first_size = length * WORD, .second_size = jobs_count * WORD };
    check_run(timed);
    check_recordings(numbers, length, jobs, jobs_count, times);
    check_state(timed, start, jobs_count);
    check_state(timed, last_state(times, jobs_count), jobs_count);
    timed.second_size = damage_numbers(times, jobs_count) * WORD;
    check_run(timed);
    check_state(timed, start, jobs_count);
}

/* Numbers that are a set, or were one before they were damaged, and the jobs that they were; the last jobs are also tried as a chain. */
static void check_numbers_of(const uint64_t *numbers, size_t length, const struct cudlomer_job *jobs, size_t jobs_count)
{
    size_t chain = CUDLOMER_NUMBERS(cudlomer_job, draw(1, 2));
    memset(before, FILL, ROOM);
    check_figures(numbers, length);
    check_machine(numbers, length, jobs, jobs_count);
    if (length > chain) {
        size_t first = (length - chain) / CUDLOMER_NUMBERS(cudlomer_job, 1) * CUDLOMER_NUMBERS(cudlomer_job, 1);
        check_admission(numbers, first, numbers + first, length - first);
    }
    check_admission(numbers, 0, numbers, length);
}

static void check_set(const struct cudlomer_job *jobs, size_t jobs_count)
{
    uint64_t numbers[CUDLOMER_NUMBERS(cudlomer_job, CUDLOMER_MAX_JOBS)];
    size_t length = CUDLOMER_NUMBERS(cudlomer_job, jobs_count);
    memcpy(numbers, jobs, length * WORD);
    check_numbers_of(numbers, length, jobs, jobs_count);
    check_numbers_of(numbers, damage_numbers(numbers, length), jobs, jobs_count);
}

#endif
