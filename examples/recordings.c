/* Compares two recordings of the jobs of a table, each in a file: prints whether each is legal, and the first tick at which they differ. */
#include "cudlomer.h"
#include <inttypes.h>
#include <stdio.h>
#include <stdlib.h>

/* A row takes at most 45 bytes, and the header fewer than this leaves: a file that is longer is refused for what stands before its end here. */
enum { ROW = 64, MAX_RECORDING = (CUDLOMER_MAX_RECORDED_ROWS + 1) * ROW };

static size_t read_file(const char *name, uint8_t *text, size_t room)
{
    FILE *file = fopen(name, "rb");
    if (file == NULL) {
        perror(name);
        exit(2);
    }
    size_t length = fread(text, 1, room, file);
    fclose(file);
    return length;
}

static void print_comparison(const struct cudlomer_comparison *comparison)
{
    printf("first,%s\r\n", comparison->first_legal ? "legal" : "illegal");
    printf("second,%s\r\n", comparison->second_legal ? "legal" : "illegal");
    if (comparison->differ)
        printf("difference,%" PRIu64 "\r\n", comparison->tick);
    else
        printf("difference,none\r\n");
}

int main(int argc, char **argv)
{
    uint8_t table[CUDLOMER_MAX_TEXT + 1]; /* one byte more than a table may have tells one that is too long */
    static uint8_t first[MAX_RECORDING], second[MAX_RECORDING];
    struct cudlomer_job jobs[CUDLOMER_MAX_JOBS];
    struct cudlomer_comparison comparison;
    if (argc != 4) {
        fprintf(stderr, "usage: %s TABLE FIRST SECOND\n", argv[0]);
        return 2;
    }
    size_t length = read_file(argv[1], table, sizeof table);
    size_t first_length = read_file(argv[2], first, sizeof first), second_length = read_file(argv[3], second, sizeof second);

    int64_t count = cudlomer_jobs_read(table, length, jobs, CUDLOMER_MAX_JOBS);
    int64_t answer = count < 0 ? count : cudlomer_jobs_compare(jobs, (size_t)count, first, first_length, second, second_length, &comparison);
    if (answer < 0) {
        fprintf(stderr, "refused with %" PRId64 "\n", -answer);
        return 1;
    }
    print_comparison(&comparison);
    return 0;
}
