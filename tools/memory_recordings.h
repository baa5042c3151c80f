/* The comparison of two recordings, called with lent memory. */
#ifndef MEMORY_RECORDINGS_H
#define MEMORY_RECORDINGS_H

#include "cudlomer.h"
#include "draw.h"
#include "lend.h"

enum { WORD = sizeof(uint64_t) };

static int64_t set_compare(struct ranges read, void *out, size_t size)
{
    return cudlomer_set_compare(read.first, read.first_size / WORD, read.second, read.second_size, read.third, read.third_size, out, size / WORD);
}

/* Writes the text of a recording with these rows, and answers its length. */
static size_t write_recording(const struct cudlomer_row *rows, size_t rows_count, char *text)
{
    int end = sprintf(text, "chain,job,from,to\r\n");
    for (const struct cudlomer_row *row = rows; row < rows + rows_count; row++)
        end += sprintf(text + end, "%" PRIu64 ",%" PRIu64 ",%" PRIu64 ",%" PRIu64 "\r\n", row->chain, row->job, row->from, row->to);
    return (size_t)end;
}

/* Two recordings of numbers that are a set or not, and answers what the call with room did. */
static int64_t check_pair(const uint64_t *numbers, size_t length, const char *first, size_t first_length, const char *second, size_t second_length)
{
    struct ranges read = { numbers, first, second, length * WORD, first_length, second_length };
    int64_t answer = call_with_room(set_compare, read);
    check_sizes("set_compare", set_compare, read, WORD, sizeof(struct cudlomer_comparison), answer);
    return answer;
}

/* The recording of a run of jobs beside itself and a damaged one; the numbers are these jobs or damaged ones. */
static void check_recordings(const uint64_t *numbers, size_t length, const struct cudlomer_job *jobs, size_t jobs_count, const uint64_t *times)
{
    char text[ROOM], damaged[ROOM];
    struct cudlomer_row rows[CUDLOMER_MAX_ROWS];
    int64_t rows_count = cudlomer_jobs_trace(jobs, jobs_count, times, jobs_count, rows, CUDLOMER_MAX_ROWS);
    size_t end = write_recording(rows, rows_count < 0 ? 0 : (size_t)rows_count, text);
    memcpy(damaged, text, end);
    size_t damaged_end = damage_text(damaged, end);
    check_pair(numbers, length, text, end, text, end);
    check_pair(numbers, length, text, end - 2, damaged, damaged_end);
    check_pair(numbers, length, damaged, damaged_end, text, end);
    check_pair(numbers, length, text, 0, text, end);
}

/* Two equals by turns with about as many rows as there may be, the last row ended or not, and with a byte behind it. */
static void check_many_rows(void)
{
    char text[ROOM];
    struct cudlomer_row rows[CUDLOMER_MAX_RECORDED_ROWS + 1];
    struct cudlomer_job jobs[] = { { 1, 1, 0, 1, 1, 1000, 9999 }, { 2, 1, 0, 1, 1, 1000, 9999 } };
    size_t length = CUDLOMER_NUMBERS(cudlomer_job, 2);
    for (uint64_t tick = 0; tick <= CUDLOMER_MAX_RECORDED_ROWS; tick++)
        rows[tick] = (struct cudlomer_row){ 1 + tick % 2, 1, tick, tick + 1 };
    memset(before, FILL, ROOM);
    for (size_t few = 0; few <= 2; few++) {
        size_t rows_count = CUDLOMER_MAX_RECORDED_ROWS + 1 - few, end = write_recording(rows, rows_count, text);
        int64_t answer = check_pair((const uint64_t *)jobs, length, text, end, text, end - 2);
        count(answer == (few == 0 ? -CUDLOMER_TOO_MANY_ROWS : 4), "many rows");
        text[end] = 'a';
        answer = check_pair((const uint64_t *)jobs, length, text, end, text, end + 1);
        count(answer == (few == 2 ? -CUDLOMER_MALFORMED_RECORDING : -CUDLOMER_TOO_MANY_ROWS), "a byte behind many rows");
    }
}

#endif
