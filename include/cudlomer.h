/* Cudlomer: how late each job of a set can be complete and whose jobs delay it, whether all deadlines are met, whether a further chain may come
 * aboard, what runs at each tick, and whether two recordings of a run are legal and show the same.
 *
 * A set is an array of jobs, chain by chain: chains count from 1, jobs from 1 within their chain. It comes from the text of a table, the header
 * line `chain,job,release,priority,least,most,deadline` and then a line for each job, each line ended by CR LF, which the last may lack; or a
 * program fills in the array itself. Times are ticks of 100 microseconds; a greater priority number is more urgent.
 *
 * The functions stand in three groups: on texts (cudlomer_bounds and three more), on sets as plain numbers (cudlomer_set_...), and, for a program
 * in C to call, the same on structs (cudlomer_jobs_...), whose counts are those of array elements.
 *
 * Every function takes anything, and never reads or writes outside the ranges that it is handed. A pointer may be anything where its length is 0.
 * A range that is written must not overlap another. No function keeps a pointer, allocates memory or has state, so that any number of threads may
 * call them. Of the C library they use memcpy and memset. They take less than 36 KB of stack, admission and what delays jobs less than 56 KB and a
 * comparison less than 64 KB, which is measured, not proved.
 *
 * An answer below 0 is the number of a refusal, negated, and the first refusal in the order that a function names decides. A refused call has
 * written nothing. Where nothing is refused, what a buffer holds behind the last byte or number written stays.
 */
#ifndef CUDLOMER_H
#define CUDLOMER_H

#include <stddef.h>
#include <stdint.h>

#ifdef __cplusplus
extern "C" {
#define CUDLOMER_ASSERT static_assert
#else
#define CUDLOMER_ASSERT _Static_assert
#endif

/* The greatest values. A buffer of CUDLOMER_MAX_TEXT bytes is enough for every bounds text, trace text and text of a table, one of
 * CUDLOMER_MAX_WAVEFORM bytes for every waveform, CUDLOMER_MAX_ROWS rows for every trace, and CUDLOMER_MAX_BLOCKS numbers for the blocks of every
 * set. */
#define CUDLOMER_MAX_JOBS 64
#define CUDLOMER_MAX_CHAINS 16
#define CUDLOMER_MAX_TEXT 4096
#define CUDLOMER_MAX_WAVEFORM (128 * CUDLOMER_MAX_JOBS)
#define CUDLOMER_MAX_ROWS (2 * CUDLOMER_MAX_JOBS)
#define CUDLOMER_MAX_BLOCKS (CUDLOMER_MAX_JOBS * (2 * CUDLOMER_MAX_CHAINS + 1))
#define CUDLOMER_MAX_RECORDED_ROWS 256 /* of a recording */
#define CUDLOMER_MAX_RELEASE UINT64_C(1000000000)
#define CUDLOMER_MAX_PRIORITY UINT64_C(255)
#define CUDLOMER_MAX_TIME UINT64_C(1000000) /* of least and most */
#define CUDLOMER_MAX_DEADLINE UINT64_C(4000000000)
#define CUDLOMER_LAST_TIME UINT64_C(2000000000) /* of a state; no run from time 0 reaches it */

/* The algorithms of Sun and Liu; a bound by ITR is at most that by CJA, which is at most that by ERT. */
enum cudlomer_algorithm {
    CUDLOMER_ERT = 1,
    CUDLOMER_CJA = 2,
    CUDLOMER_ITR = 3
};

/* What a tick answers where no job ran. */
enum cudlomer_ticked {
    CUDLOMER_IDLE = 0,
    CUDLOMER_FINISHED = 1
};

/* The numbers of refusals. Of a bad set the first bad job decides, which is checked for 4, 5, 6, 12, 13 and 14 in this order; 7 comes last. Of a bad
 * text 1 and 2 come first; then the first bad line decides, which is checked for 3, then as a job; 7 comes last. Of a bad recording the first bad
 * line decides: 16 for any line behind 256 rows, whatever it holds, else 15. */
enum cudlomer_refusal {
    CUDLOMER_TEXT_TOO_LONG = 1,                /* the text is longer than 4,096 bytes */
    CUDLOMER_NOT_HEADER = 2,                   /* the first line is not the header */
    CUDLOMER_MALFORMED_LINE = 3,               /* a line is not seven decimal numbers with single commas */
    CUDLOMER_TOO_MANY_RECORDS = 4,             /* there are more than 64 records */
    CUDLOMER_OUT_OF_ORDER = 5,                 /* a chain or job is not next in order */
    CUDLOMER_OUT_OF_LIMITS = 6,                /* a chain number, release or deadline is beyond its limit */
    CUDLOMER_NO_RECORD = 7,                    /* there is no record */
    CUDLOMER_RUNNING_TIMES = 8,                /* the running times are not one for each job, from its least to its most */
    CUDLOMER_SHORT_BUFFER = 9,                 /* the buffer is too short */
    CUDLOMER_UNKNOWN_ALGORITHM = 10,           /* the algorithm is not 1, 2 or 3 */
    CUDLOMER_IMPOSSIBLE_STATE = 11,            /* the state cannot be */
    CUDLOMER_PRIORITY_OUT_OF_LIMITS = 12,      /* a priority is beyond 255 */
    CUDLOMER_LEAST_OR_MOST_OUT_OF_LIMITS = 13, /* a least or a most is not from 1 to 1,000,000 */
    CUDLOMER_LEAST_ABOVE_MOST = 14,            /* a least is above its most */
    CUDLOMER_MALFORMED_RECORDING = 15,         /* a recording's header, line or field is wrong, or a row is out of order */
    CUDLOMER_TOO_MANY_ROWS = 16                /* a recording has more than 256 rows */
};

/* A job. Least is from 1 to most; release, priority and deadline may be 0. A later job of a chain counts as released no earlier than its
 * predecessor's release and least together. */
struct cudlomer_job {
    uint64_t chain, job, release, priority, least, most, deadline;
};

/* The machine's state, all 0 at the start: the time, the ticks of work done of each job, and when each complete job was completed. The completion
 * of a job that is not complete is not read, and stays until the tick that completes the job; what stands beyond the jobs is neither read nor
 * changed. */
struct cudlomer_state {
    uint64_t time, work[CUDLOMER_MAX_JOBS], completions[CUDLOMER_MAX_JOBS];
};

/* A row of a trace or recording: the job runs from one time to another without a break. */
struct cudlomer_row {
    uint64_t chain, job, from, to;
};

/* A block of a chain by the numbers of its first and its last job, both 0 where there is none: consecutive jobs, each urgent enough to delay another
 * job, and no longer run of such jobs has them. */
struct cudlomer_block {
    uint64_t first, last;
};

/* How two recordings compare: whether each is legal and whether they differ, 1 for yes and 0 for no, and the first tick at which they do, 0 where
 * they do not. */
struct cudlomer_comparison {
    uint64_t first_legal, second_legal, differ, tick;
};

/* How many numbers so many structs are. */
#define CUDLOMER_NUMBERS(type, count) ((count) * (sizeof(struct type) / sizeof(uint64_t)))

/* In memory the structs are the numbers that the functions take, in this order. */
#define CUDLOMER_PLACE(type, member, place) \
    CUDLOMER_ASSERT(offsetof(struct type, member) == (place) * sizeof(uint64_t), #type " has " #member " at another place")
#define CUDLOMER_SIZE(type, numbers) CUDLOMER_ASSERT(sizeof(struct type) == (numbers) * sizeof(uint64_t), #type " has another size")
CUDLOMER_PLACE(cudlomer_job, chain, 0);
CUDLOMER_PLACE(cudlomer_job, job, 1);
CUDLOMER_PLACE(cudlomer_job, release, 2);
CUDLOMER_PLACE(cudlomer_job, priority, 3);
CUDLOMER_PLACE(cudlomer_job, least, 4);
CUDLOMER_PLACE(cudlomer_job, most, 5);
CUDLOMER_PLACE(cudlomer_job, deadline, 6);
CUDLOMER_SIZE(cudlomer_job, 7);
CUDLOMER_PLACE(cudlomer_state, time, 0);
CUDLOMER_PLACE(cudlomer_state, work, 1);
CUDLOMER_PLACE(cudlomer_state, completions, 1 + CUDLOMER_MAX_JOBS);
CUDLOMER_SIZE(cudlomer_state, 1 + 2 * CUDLOMER_MAX_JOBS);
CUDLOMER_PLACE(cudlomer_row, chain, 0);
CUDLOMER_PLACE(cudlomer_row, job, 1);
CUDLOMER_PLACE(cudlomer_row, from, 2);
CUDLOMER_PLACE(cudlomer_row, to, 3);
CUDLOMER_SIZE(cudlomer_row, 4);
CUDLOMER_PLACE(cudlomer_comparison, first_legal, 0);
CUDLOMER_PLACE(cudlomer_comparison, second_legal, 1);
CUDLOMER_PLACE(cudlomer_comparison, differ, 2);
CUDLOMER_PLACE(cudlomer_comparison, tick, 3);
CUDLOMER_SIZE(cudlomer_comparison, 4);

/* ---- On texts ---- */

/* Writes `chain,job,ert,cja,itr,slack` and a row for each job, with CR LF, into the buffer: the latest moment at which the job can be complete,
 * by the algorithms ERT, CJA and ITR, and its deadline less the ITR bound. Answers how many bytes were written. Refuses a bad text, then with 9. */
int64_t cudlomer_bounds(const uint8_t *text, size_t text_length, uint8_t *out, size_t out_length);

/* Writes `chain,job,from,to` and a row for each longest run of one job, the earliest first, with CR LF, into the buffer: when the machine runs
 * the jobs from time 0, each for its most time. Answers how many bytes were written. Refuses a bad text, then with 9. A run goes from one release or
 * completion to the next, in at most twice as many steps as there are jobs, however long it is, and each step scans the jobs. */
int64_t cudlomer_trace(const uint8_t *text, size_t text_length, uint8_t *out, size_t out_length);

/* Answers 1 where each job's bound by the algorithm is at or before its deadline, and 0 where one is not. Refuses a bad text, then with 10. */
int64_t cudlomer_verdict(const uint8_t *text, size_t text_length, uint8_t algorithm);

/* Answers how many rounds ITR takes: at most as many as there are jobs. Refuses a bad text. */
int64_t cudlomer_rounds(const uint8_t *text, size_t text_length);

/* ---- On sets, as plain numbers ----
 *
 * Each does what the function on structs of the same name does, which is told there. A job is seven numbers in the order of the columns, a row
 * four, a state 129: the time, 64 numbers of work and 64 of completions; a tick refuses a shorter one with 9, before 11. A comparison is four
 * numbers, and is refused with 9, last of all, where there is not room for them. A length counts numbers, or the bytes of a text. Where
 * jobs_length is no multiple of seven, the last job's missing numbers are 0. */
int64_t cudlomer_set_read(const uint8_t *text, size_t text_length, uint64_t *jobs, size_t jobs_length);
int64_t cudlomer_set_write(const uint64_t *jobs, size_t jobs_length, uint8_t *out, size_t out_length);
int64_t cudlomer_set_bounds(const uint64_t *jobs, size_t jobs_length, uint64_t algorithm, uint64_t *out, size_t out_length);
int64_t cudlomer_set_blocks(const uint64_t *jobs, size_t jobs_length, uint64_t algorithm, uint64_t *out, size_t out_length);
int64_t cudlomer_set_verdict(const uint64_t *jobs, size_t jobs_length, uint64_t algorithm);
int64_t cudlomer_set_rounds(const uint64_t *jobs, size_t jobs_length);
int64_t cudlomer_set_admit(uint64_t *jobs, size_t jobs_length, uint64_t count, const uint64_t *chain, size_t chain_length, uint64_t algorithm);
int64_t cudlomer_set_tick(const uint64_t *jobs, size_t jobs_length, const uint64_t *times, size_t times_length, uint64_t *state,
                          size_t state_length);
int64_t cudlomer_set_run(const uint64_t *jobs, size_t jobs_length, const uint64_t *times, size_t times_length, uint64_t *out, size_t out_length);
int64_t cudlomer_set_trace(const uint64_t *jobs, size_t jobs_length, const uint64_t *times, size_t times_length, uint64_t *out,
                           size_t out_length);
int64_t cudlomer_set_steps(const uint64_t *jobs, size_t jobs_length, const uint64_t *times, size_t times_length);
int64_t cudlomer_set_waveform(const uint64_t *jobs, size_t jobs_length, const uint64_t *times, size_t times_length, uint8_t *out,
                              size_t out_length);
int64_t cudlomer_set_compare(const uint64_t *jobs, size_t jobs_length, const uint8_t *first, size_t first_length, const uint8_t *second,
                             size_t second_length, uint64_t *out, size_t out_length);

/* ---- On sets, as structs ----
 *
 * `count` is how many jobs the set has, `room` how many elements a buffer has. Each function checks its set anew. */

/* Reads the text of a table into `jobs`. Answers how many jobs it has. Refuses a bad text, then with 9 where there is not room for them. */
static inline int64_t cudlomer_jobs_read(const uint8_t *text, size_t text_length, struct cudlomer_job *jobs, size_t room)
{
    return cudlomer_set_read(text, text_length, (uint64_t *)jobs, CUDLOMER_NUMBERS(cudlomer_job, room));
}

/* Writes the text of the set's table into the buffer, each line ended by CR LF. Answers how many bytes were written. Refuses a bad set,
 * then with 9. */
static inline int64_t cudlomer_jobs_write(const struct cudlomer_job *jobs, size_t count, uint8_t *out, size_t out_length)
{
    return cudlomer_set_write((const uint64_t *)jobs, CUDLOMER_NUMBERS(cudlomer_job, count), out, out_length);
}

/* Writes a bound by the algorithm for each job: by that time it is complete in every run. Answers how many were written. Refuses a bad set,
 * then with 10, then with 9 where there is not room for all. */
static inline int64_t cudlomer_jobs_bounds(const struct cudlomer_job *jobs, size_t count, uint64_t algorithm, uint64_t *bounds, size_t room)
{
    return cudlomer_set_bounds((const uint64_t *)jobs, CUDLOMER_NUMBERS(cudlomer_job, count), algorithm, bounds, room);
}

/* Writes what the bound of each job by the algorithm comes from, for the two functions below: the number of the job from which its sum begins, by
 * ERT the job itself; then for each chain, from 1 on, the first and the last job of the block that delays it, of those with the largest sum the
 * earliest, 0 and 0 where the chain has none and for its own. By ITR a block is named whole, though only the jobs are added whose spans overlap.
 * Answers how many numbers were written: for each job one, and two for each chain. Refuses a bad set, then with 10, then with 9 where there is not
 * room for all. */
static inline int64_t cudlomer_jobs_blocks(const struct cudlomer_job *jobs, size_t count, uint64_t algorithm, uint64_t *blocks, size_t room)
{
    return cudlomer_set_blocks((const uint64_t *)jobs, CUDLOMER_NUMBERS(cudlomer_job, count), algorithm, blocks, room);
}

/* The number of the job from which the sum of a bound begins, of the job at a place from 0 on, where so many numbers were written for `count`
 * jobs; 0 where there is no such place. */
static inline uint64_t cudlomer_blocks_from(const uint64_t *blocks, size_t written, size_t count, size_t place)
{
    size_t each = count == 0 ? 0 : written / count;
    return place < count && each > 0 ? blocks[place * each] : 0;
}

/* The block of a chain that delays the job at a place from 0 on, where so many numbers were written for `count` jobs; none where there is no such
 * place or chain. */
static inline struct cudlomer_block cudlomer_blocks_of(const uint64_t *blocks, size_t written, size_t count, size_t place, uint64_t chain)
{
    struct cudlomer_block block = { 0, 0 };
    size_t each = count == 0 ? 0 : written / count;
    if (place < count && chain > 0 && chain <= each / 2) {
        block.first = blocks[place * each + 2 * chain - 1];
        block.last = blocks[place * each + 2 * chain];
    }
    return block;
}

/* Answers 1 where each job's bound by the algorithm is at or before its deadline, and 0 where one is not. Refuses a bad set, then with 10. */
static inline int64_t cudlomer_jobs_verdict(const struct cudlomer_job *jobs, size_t count, uint64_t algorithm)
{
    return cudlomer_set_verdict((const uint64_t *)jobs, CUDLOMER_NUMBERS(cudlomer_job, count), algorithm);
}

/* Answers how many rounds ITR takes: at most as many as there are jobs. Refuses a bad set. */
static inline int64_t cudlomer_jobs_rounds(const struct cudlomer_job *jobs, size_t count)
{
    return cudlomer_set_rounds((const uint64_t *)jobs, CUDLOMER_NUMBERS(cudlomer_job, count));
}

/* Asks whether a further chain may come aboard: whether all deadlines are met by the algorithm once it has joined the first `count` jobs, which
 * may be none. On yes the chain stands behind them, as the highest-numbered one with its jobs counted from 1, whatever chain and job numbers it
 * had, and the answer is how many jobs the set has now. On no the answer is 0, and nothing is written. Refuses the first bad one of the joined
 * jobs, then with 7 where the chain has none, with 10, then on yes with 9 where there is not room for all. */
static inline int64_t cudlomer_jobs_admit(struct cudlomer_job *jobs, size_t room, size_t count, const struct cudlomer_job *chain,
                                          size_t chain_count, uint64_t algorithm)
{
    return cudlomer_set_admit((uint64_t *)jobs, CUDLOMER_NUMBERS(cudlomer_job, room), count, (const uint64_t *)chain,
                              CUDLOMER_NUMBERS(cudlomer_job, chain_count), algorithm);
}

/* Applies one tick to the state: of the jobs released by its time whose predecessor is complete, the most urgent runs, among equals the one ready
 * since the earliest time, then that of the lowest chain. A job is ready since its release or its predecessor's completion, whichever is later,
 * also where a more urgent job interrupts it. `times` is how long each job takes in this run, from its least to its most. Answers CUDLOMER_IDLE
 * where none is ready; CUDLOMER_FINISHED where all were complete before, and the state then stays; else which job ran, for the three functions
 * below. Refuses a bad set, then with 8, then with 11 where the state has a time beyond CUDLOMER_LAST_TIME; or a job with more work than its time, or
 * with work though its predecessor is not complete or the time is not after its release; or a complete job whose completion is later than the
 * time or not after its release. */
static inline int64_t cudlomer_jobs_tick(const struct cudlomer_job *jobs, size_t count, const uint64_t *times, size_t times_count,
                                         struct cudlomer_state *state)
{
    return cudlomer_set_tick((const uint64_t *)jobs, CUDLOMER_NUMBERS(cudlomer_job, count), times, times_count, (uint64_t *)state,
                             CUDLOMER_NUMBERS(cudlomer_state, 1));
}

/* Whether a tick that answered this ran a job. */
static inline int cudlomer_ticked_ran(int64_t ticked)
{
    return ticked > CUDLOMER_FINISHED;
}

/* The chain of the job that a tick ran. */
static inline uint64_t cudlomer_ticked_chain(int64_t ticked)
{
    return (uint64_t)ticked / 65536;
}

/* The number of the job that a tick ran, within its chain. */
static inline uint64_t cudlomer_ticked_job(int64_t ticked)
{
    return (uint64_t)ticked % 65536;
}

/* Runs the set from time 0, with a running time for each job, and writes when each is complete. Answers the end of the run. Refuses a bad set,
 * then with 8, then with 9 where there is not room for a completion for each job. It takes as long as cudlomer_trace. */
static inline int64_t cudlomer_jobs_run(const struct cudlomer_job *jobs, size_t count, const uint64_t *times, size_t times_count,
                                        uint64_t *completions, size_t room)
{
    return cudlomer_set_run((const uint64_t *)jobs, CUDLOMER_NUMBERS(cudlomer_job, count), times, times_count, completions, room);
}

/* Runs the set from time 0, with a running time for each job, and writes a row for each longest run of one job, the earliest first. Answers how
 * many rows were written. Refuses a bad set, then with 8, then with 9 where there is not room for two rows for each job. */
static inline int64_t cudlomer_jobs_trace(const struct cudlomer_job *jobs, size_t count, const uint64_t *times, size_t times_count,
                                          struct cudlomer_row *rows, size_t room)
{
    return cudlomer_set_trace((const uint64_t *)jobs, CUDLOMER_NUMBERS(cudlomer_job, count), times, times_count, (uint64_t *)rows,
                              CUDLOMER_NUMBERS(cudlomer_row, room));
}

/* Runs the set from time 0, with a running time for each job. Answers how many steps that takes: one for each different time after 0 at which a
 * job is released, also where it cannot run yet, or is complete; at most twice as many as there are jobs. Refuses a bad set, then with 8. To go
 * through the same run tick by tick there is cudlomer_jobs_tick. */
static inline int64_t cudlomer_jobs_steps(const struct cudlomer_job *jobs, size_t count, const uint64_t *times, size_t times_count)
{
    return cudlomer_set_steps((const uint64_t *)jobs, CUDLOMER_NUMBERS(cudlomer_job, count), times, times_count);
}

/* Runs the set from time 0, with a running time for each job, and writes the run into the buffer as a value change dump of IEEE 1364, each line
 * ended by LF: a wire for each job, such as c1j1 for job 1 of chain 1, is 1 while the job runs. Answers how many bytes were written. Refuses
 * a bad set, then with 8, then with 9 where the dump does not fit. It takes as long as cudlomer_trace. */
static inline int64_t cudlomer_jobs_waveform(const struct cudlomer_job *jobs, size_t count, const uint64_t *times, size_t times_count,
                                             uint8_t *out, size_t out_length)
{
    return cudlomer_set_waveform((const uint64_t *)jobs, CUDLOMER_NUMBERS(cudlomer_job, count), times, times_count, out, out_length);
}

/* Compares two recordings of the set's jobs, whoever wrote them. A recording is a text of any length: the header line `chain,job,from,to`, then a
 * row for each time that a job runs without a break, the earliest first, with lines and numbers as in a table. It is legal where each job runs to
 * its end, for some time from its least to its most, and at each tick one of the most urgent ready jobs runs, equals in any order, or none where
 * none is ready. Recordings differ at a tick at which they show different jobs, or one of them a job and the other none, as each does behind its
 * last row; those that are not legal are compared too. Writes the comparison, and answers how many numbers it is, 4. Refuses a bad set, then the
 * first recording, then the second: with 15 where the header or a line is wrong, or a row names no job of the set, does not begin before it ends,
 * begins before the end of the row before it, or goes on with the job of that row without a gap; with 16 where anything stands behind 256 rows. */
static inline int64_t cudlomer_jobs_compare(const struct cudlomer_job *jobs, size_t count, const uint8_t *first, size_t first_length,
                                            const uint8_t *second, size_t second_length, struct cudlomer_comparison *comparison)
{
    return cudlomer_set_compare((const uint64_t *)jobs, CUDLOMER_NUMBERS(cudlomer_job, count), first, first_length, second, second_length,
                                (uint64_t *)comparison, CUDLOMER_NUMBERS(cudlomer_comparison, 1));
}

#ifdef __cplusplus
}
#endif

#endif
