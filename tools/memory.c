/* Calls the functions on drawn and damaged tables, sets and recordings, with lent memory at the edges of its blocks. The library is not built with
 * the sanitizers, which watch this program only: a byte that the library reads or writes outside is caught by the page, and on the heap by
 * valgrind. */
#include "cudlomer.h"
#include "draw.h"
#include "lend.h"
#include "memory_recordings.h"
#include "memory_sets.h"
#include "memory_texts.h"

/* Ranges of no length, whose pointers name nothing. */
static void check_nothing(void)
{
    count(cudlomer_bounds(NULL, 0, NULL, 0) == -2 && cudlomer_trace(NULL, 0, NULL, 0) == -2, "no text and no buffer");
    count(cudlomer_set_read(NULL, 0, NULL, 0) == -2 && cudlomer_set_write(NULL, 0, NULL, 0) == -7, "no text and no set");
    count(cudlomer_set_bounds(NULL, 0, 3, NULL, 0) == -7 && cudlomer_set_verdict(NULL, 0, 3) == -7, "bounds and verdict of no set");
    count(cudlomer_set_blocks(NULL, 0, 3, NULL, 0) == -7, "blocks of no set");
    count(cudlomer_set_rounds(NULL, 0) == -7 && cudlomer_set_admit(NULL, 0, 0, NULL, 0, 3) == -7, "rounds of no set, and no chain");
    count(cudlomer_set_tick(NULL, 0, NULL, 0, NULL, 0) == -7 && cudlomer_set_run(NULL, 0, NULL, 0, NULL, 0) == -7, "a run of no set");
    count(cudlomer_set_trace(NULL, 0, NULL, 0, NULL, 0) == -7 && cudlomer_set_waveform(NULL, 0, NULL, 0, NULL, 0) == -7, "a trace of no set");
    count(cudlomer_set_steps(NULL, 0, NULL, 0) == -7, "steps of no set");
    count(cudlomer_set_compare(NULL, 0, NULL, 0, NULL, 0, NULL, 0) == -7, "recordings of no set");
}

int main(int argc, char **argv)
{
    char table[ROOM];
    struct cudlomer_job jobs[CUDLOMER_MAX_JOBS];
    int tables = argc > 1 ? atoi(argv[1]) : KINDS;
    make_rooms();
    check_nothing();
    for (place = ON_THE_HEAP; place < PLACES; place++)
        check_many_rows();
    for (int n = 0; n < tables; n++) {
        size_t jobs_count = draw_jobs(&kinds[n % KINDS], jobs), end = write_table(jobs, jobs_count, table);
        place = (enum place)(n / KINDS % PLACES);
        check_text(table, end);
        check_text(table, damage_text(table, end));
        check_set(jobs, jobs_count);
    }
    printf("%lu passed, %lu failed\n", passed, failed);
    return failed > 0;
}
