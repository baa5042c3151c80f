/* Runs each function on a stack of its own, filled beforehand, and checks that the table named takes less of it than the header says: 36 KB, 56 KB for
 * admission, where its last chain joins the others, and for what delays its jobs, and 64 KB for a comparison. */
#include "cudlomer.h"
#include <stdio.h>
#include <string.h>
#include <ucontext.h>

enum { STACK = 128 * 1024, LIMIT = 36 * 1024, ADMISSION_LIMIT = 56 * 1024, COMPARISON_LIMIT = 64 * 1024, FILL = 0xa5 };

static uint8_t text[CUDLOMER_MAX_TEXT + 1], out[CUDLOMER_MAX_WAVEFORM], recording[CUDLOMER_MAX_TEXT], stack[STACK];
static struct cudlomer_job jobs[CUDLOMER_MAX_JOBS], held[CUDLOMER_MAX_JOBS];
static struct cudlomer_row rows[CUDLOMER_MAX_ROWS];
static struct cudlomer_comparison comparison;
static struct cudlomer_state state;
static uint64_t times[CUDLOMER_MAX_JOBS], figures[CUDLOMER_MAX_JOBS], blocks[CUDLOMER_MAX_BLOCKS];
static size_t length, count, held_count, recording_length;
static int64_t answer;
static ucontext_t here, there;

static void bounds(void) { answer = cudlomer_bounds(text, length, out, sizeof out); }
static void trace(void) { answer = cudlomer_trace(text, length, out, sizeof out); }
static void verdict(void) { answer = cudlomer_verdict(text, length, CUDLOMER_ITR); }
static void rounds(void) { answer = cudlomer_rounds(text, length); }
static void set_read(void) { answer = cudlomer_jobs_read(text, length, jobs, CUDLOMER_MAX_JOBS); }
static void set_write(void) { answer = cudlomer_jobs_write(jobs, count, out, sizeof out); }
static void set_bounds(void) { answer = cudlomer_jobs_bounds(jobs, count, CUDLOMER_ITR, figures, CUDLOMER_MAX_JOBS); }
static void set_blocks(void) /* by CJA, which takes more here than ERT and ITR */
{
    answer = cudlomer_jobs_blocks(jobs, count, CUDLOMER_CJA, blocks, CUDLOMER_MAX_BLOCKS);
}
static void set_verdict(void) { answer = cudlomer_jobs_verdict(jobs, count, CUDLOMER_ITR); }
static void set_rounds(void) { answer = cudlomer_jobs_rounds(jobs, count); }
static void set_admit(void)
{
    answer = cudlomer_jobs_admit(held, CUDLOMER_MAX_JOBS, held_count, jobs + held_count, count - held_count, CUDLOMER_ITR);
}
static void set_tick(void) { answer = cudlomer_jobs_tick(jobs, count, times, count, &state); }
static void set_run(void) { answer = cudlomer_jobs_run(jobs, count, times, count, figures, CUDLOMER_MAX_JOBS); }
static void set_trace(void) { answer = cudlomer_jobs_trace(jobs, count, times, count, rows, CUDLOMER_MAX_ROWS); }
static void set_steps(void) { answer = cudlomer_jobs_steps(jobs, count, times, count); }
static void set_waveform(void) { answer = cudlomer_jobs_waveform(jobs, count, times, count, out, sizeof out); }
static void set_compare(void) /* of the run's trace text beside itself */
{
    answer = cudlomer_jobs_compare(jobs, count, recording, recording_length, recording, recording_length, &comparison);
}

static const struct function {
    const char *name;
    void (*call)(void);
} functions[] = {
    { "bounds", bounds },           { "trace", trace },           { "verdict", verdict },           { "rounds", rounds },
    { "set_read", set_read },       { "set_write", set_write },   { "set_bounds", set_bounds },     { "set_blocks", set_blocks },
    { "set_verdict", set_verdict }, { "set_rounds", set_rounds }, { "set_admit", set_admit },       { "set_tick", set_tick },
    { "set_run", set_run },         { "set_trace", set_trace },   { "set_steps", set_steps },       { "set_waveform", set_waveform },
    { "set_compare", set_compare },
};

enum { FUNCTIONS = sizeof functions / sizeof functions[0] };

static size_t limit(void (*call)(void))
{
    if (call == set_admit || call == set_blocks)
        return ADMISSION_LIMIT;
    return call == set_compare ? COMPARISON_LIMIT : LIMIT;
}

/* How many bytes of the stack a call changes. */
static size_t taken(void (*call)(void))
{
    size_t left = 0;
    memset(stack, FILL, sizeof stack);
    getcontext(&there);
    there.uc_stack.ss_sp = stack;
    there.uc_stack.ss_size = sizeof stack;
    there.uc_link = &here;
    makecontext(&there, call, 0);
    swapcontext(&here, &there);
    while (left < sizeof stack && stack[left] == FILL)
        left++;
    return sizeof stack - left;
}

/* The set of the text, all but its last chain as the one held, each job's most time, and the recording of the run with these. */
static void read_set(void)
{
    answer = cudlomer_trace(text, length, recording, sizeof recording);
    recording_length = answer < 0 ? 0 : (size_t)answer;
    set_read();
    count = answer < 0 ? 0 : (size_t)answer;
    for (size_t i = 0; i < count; i++) {
        held[i] = jobs[i];
        times[i] = jobs[i].most;
        if (jobs[i].job == 1)
            held_count = i;
    }
}

int main(int argc, char **argv)
{
    int good = 0;
    FILE *file = argc == 2 ? fopen(argv[1], "rb") : NULL;
    if (file == NULL)
        return 2;
    length = fread(text, 1, sizeof text, file);
    fclose(file);
    read_set();
    for (int n = 0; n < FUNCTIONS; n++) {
        size_t bytes = taken(functions[n].call);
        good += answer >= 0 && bytes < limit(functions[n].call);
        printf("stack: %s takes %zu bytes\n", functions[n].name, bytes);
    }
    printf("%d passed, %d failed\n", good, FUNCTIONS - good);
    return good < FUNCTIONS;
}
