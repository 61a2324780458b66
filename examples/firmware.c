/* How a firmware uses Jurengate: a card's two files are read into fixed buffers, the child is born, and each month is made by its
 * own call; then the same by the run in one go. Prints a line per month and a last one with the refusal (0 if none) and the months
 * done; fails if the two differ. In the repository's root:
 *
 *   ./build jurengate
 *   cc -I include examples/firmware.c target/staticlib/libjurengate.a -o target/firmware
 *   target/firmware samples/default/site.lkb samples/default/book.lkb */
#include <stdint.h>
#include <stdio.h>
#include <string.h>

#include "jurengate.h"

/* One byte more than the format, so that a longer file has a length that is refused. */
static uint8_t site[JURENGATE_SITE_BYTES + 1];
static uint8_t book[JURENGATE_BOOK_BYTES + 1];

static size_t read_card(const char *name, uint8_t *buffer, size_t size) {
    FILE *file = fopen(name, "rb");
    if (file == NULL) {
        return 0;
    }
    size_t length = fread(buffer, 1, size, file);
    fclose(file);
    return length;
}

int main(int argc, char **argv) {
    if (argc != 3) {
        fprintf(stderr, "usage: firmware SITE BOOK\n");
        return 2;
    }
    size_t site_len = read_card(argv[1], site, sizeof site);
    size_t book_len = read_card(argv[2], book, sizeof book);

    uint64_t state[JURENGATE_STATE_WORDS];
    uint32_t figures[JURENGATE_MONTHS];
    uint32_t done = 0;
    uint32_t refusal = jurengate_birth(site, site_len, book, book_len, state);
    while (refusal == JURENGATE_ACCEPTED && done < JURENGATE_MONTHS) {
        uint32_t blood;
        refusal = jurengate_month(site, site_len, book, book_len, state, &blood);
        if (refusal == JURENGATE_ACCEPTED) {
            figures[done] = blood;
            done++;
            printf("%u %u\n", (unsigned)done, (unsigned)blood);
        }
    }
    printf("refusal %u after %u\n", (unsigned)refusal, (unsigned)done);

    uint64_t run_state[JURENGATE_STATE_WORDS];
    uint32_t run_figures[JURENGATE_MONTHS];
    uint32_t run_done;
    uint32_t run_refusal =
        jurengate_run(site, site_len, book, book_len, run_figures, JURENGATE_MONTHS, run_state, &run_done);
    if (run_refusal != refusal || run_done != done || memcmp(run_figures, figures, done * sizeof figures[0]) != 0
        || memcmp(run_state, state, sizeof state) != 0) {
        fprintf(stderr, "the run differs from the month calls\n");
        return 1;
    }
    return 0;
}
