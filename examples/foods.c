/* How a firmware runs a card with a foods block: its shares are read for the receipt, the child is born, and each month is made by
 * its own call; then the same by the run in one go. Prints the shares, and month, blood and mark as leadline does; fails if the two
 * differ. In the repository's root:
 *
 *   ./build jurengate
 *   cc -I include examples/foods.c target/staticlib/libjurengate.a -o target/foods
 *   target/foods samples/foods/site.lkb samples/foods/foods.lkb samples/foods/book.lkb */
#include <stdint.h>
#include <stdio.h>
#include <string.h>

#include "jurengate.h"

/* One byte more than the format, so that a longer file has a length that is refused. */
static uint8_t site[JURENGATE_SITE_BYTES + 1];
static uint8_t foods[JURENGATE_FOODS_BYTES + 1];
static uint8_t book[JURENGATE_BOOK_BYTES + 1];

static size_t read_card(const char *name, uint8_t *buffer, size_t size) {
    FILE *file = fopen(name, "rb");
    if (file == NULL) {
        return 0;
    }
    size_t length = fread(buffer, 1, size, file);
    fclose(file);
    return length;
}

/* A refused block's shares are not printed: birth says its number, or an earlier one. */
static void print_shares(size_t foods_len) {
    uint32_t read[JURENGATE_FOODS_FIGURES];
    if (jurengate_read_foods(foods, foods_len, read) == JURENGATE_ACCEPTED) {
        printf("of vegetable %u %% and of fruit %u %% home-grown, of meat %u %% fish and %u %% game\n",
               (unsigned)read[JURENGATE_FOODS_HOME_VEGETABLE_SHARE], (unsigned)read[JURENGATE_FOODS_HOME_FRUIT_SHARE],
               (unsigned)read[JURENGATE_FOODS_FISH_SHARE], (unsigned)read[JURENGATE_FOODS_GAME_SHARE]);
    }
}

/* Blood in ug/dL, rounded half up to one decimal, and a mark if it is over 30. */
static void print_month(uint32_t month, uint32_t blood) {
    uint32_t tenths = (blood + 50) / 100;
    printf("%u %u.%u %c\n", (unsigned)month, (unsigned)(tenths / 10), (unsigned)(tenths % 10), blood > 30000 ? 'W' : '-');
}

int main(int argc, char **argv) {
    if (argc != 4) {
        fprintf(stderr, "usage: foods SITE FOODS BOOK\n");
        return 2;
    }
    size_t site_len = read_card(argv[1], site, sizeof site);
    size_t foods_len = read_card(argv[2], foods, sizeof foods);
    size_t book_len = read_card(argv[3], book, sizeof book);
    print_shares(foods_len);

    uint64_t state[JURENGATE_STATE_WORDS];
    uint32_t figures[JURENGATE_MONTHS];
    uint32_t done = 0;
    uint32_t refusal = jurengate_birth_foods(site, site_len, foods, foods_len, book, book_len, state);
    while (refusal == JURENGATE_ACCEPTED && done < JURENGATE_MONTHS) {
        uint32_t blood;
        refusal = jurengate_month_foods(site, site_len, foods, foods_len, book, book_len, state, &blood);
        if (refusal == JURENGATE_ACCEPTED) {
            figures[done] = blood;
            done++;
            print_month(done, blood);
        }
    }
    if (refusal != JURENGATE_ACCEPTED) {
        printf("refused %u after %u\n", (unsigned)refusal, (unsigned)done);
    }

    uint64_t run_state[JURENGATE_STATE_WORDS];
    uint32_t run_figures[JURENGATE_MONTHS];
    uint32_t run_done;
    uint32_t run_refusal = jurengate_run_foods(site, site_len, foods, foods_len, book, book_len,
                                               run_figures, JURENGATE_MONTHS, run_state, &run_done);
    if (run_refusal != refusal || run_done != done || memcmp(run_figures, figures, done * sizeof figures[0]) != 0
        || memcmp(run_state, state, sizeof state) != 0) {
        fprintf(stderr, "the run differs from the month calls\n");
        return 1;
    }
    return 0;
}
