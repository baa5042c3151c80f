/* Prints whose jobs delay which job of the table in a file, by ITR: a row for each job and each other chain. */
#include "cudlomer.h"
#include <inttypes.h>
#include <stdio.h>

static void print_blocks(const struct cudlomer_job *jobs, size_t count, const uint64_t *blocks, size_t written)
{
    printf("chain,job,from,other,first,last\r\n");
    for (size_t place = 0; place < count; place++) {
        uint64_t from = cudlomer_blocks_from(blocks, written, count, place);
        for (uint64_t other = 1; other <= jobs[count - 1].chain; other++) {
            struct cudlomer_block block = cudlomer_blocks_of(blocks, written, count, place, other);
            if (other != jobs[place].chain)
                printf("%" PRIu64 ",%" PRIu64 ",%" PRIu64 ",%" PRIu64 ",%" PRIu64 ",%" PRIu64 "\r\n", jobs[place].chain, jobs[place].job,
                       from, other, block.first, block.last);
        }
    }
}

int main(int argc, char **argv)
{
    uint8_t text[CUDLOMER_MAX_TEXT + 1]; /* one byte more than a table may have tells one that is too long */
    struct cudlomer_job jobs[CUDLOMER_MAX_JOBS];
    uint64_t blocks[CUDLOMER_MAX_BLOCKS];
    FILE *file = argc == 2 ? fopen(argv[1], "rb") : NULL;
    if (file == NULL) {
        fprintf(stderr, "usage: %s TABLE\n", argv[0]);
        return 2;
    }
    size_t length = fread(text, 1, sizeof text, file);
    fclose(file);

    int64_t count = cudlomer_jobs_read(text, length, jobs, CUDLOMER_MAX_JOBS);
    int64_t written = count < 0 ? count : cudlomer_jobs_blocks(jobs, (size_t)count, CUDLOMER_ITR, blocks, CUDLOMER_MAX_BLOCKS);
    if (written < 0) {
        fprintf(stderr, "%s: refused with %" PRId64 "\n", argv[1], -written);
        return 1;
    }
    print_blocks(jobs, (size_t)count, blocks, (size_t)written);
    return 0;
}
