/* Prints the bounds of the job table in a file, or, with the word `trace` after it, when each job runs. */
#include "cudlomer.h"
#include <inttypes.h>
#include <stdio.h>

int main(int argc, char **argv)
{
    uint8_t text[CUDLOMER_MAX_TEXT + 1]; /* one byte more than a table may have tells one that is too long */
    uint8_t out[CUDLOMER_MAX_TEXT];      /* enough for the bounds text and the trace text of every table */
    if (argc < 2) {
        fprintf(stderr, "usage: %s TABLE [trace]\n", argv[0]);
        return 2;
    }
    FILE *file = fopen(argv[1], "rb");
    if (file == NULL) {
        perror(argv[1]);
        return 2;
    }
    size_t length = fread(text, 1, sizeof text, file);
    fclose(file);

    int64_t written = argc > 2 ? cudlomer_trace(text, length, out, sizeof out) : cudlomer_bounds(text, length, out, sizeof out);
    if (written < 0) {
        fprintf(stderr, "%s: refused with %" PRId64 "\n", argv[1], -written);
        return 1;
    }
    fwrite(out, 1, (size_t)written, stdout);
    return 0;
}
