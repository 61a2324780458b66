/* How a firmware takes a site file of either edition: its places are read for the receipt, and the file is written again in the
 * other edition. A file of edition 2 in which a place has a share cannot become one of edition 1 (refusal 14), and that is told.
 * The last blood figure is the same before and after. In the repository's root:
 *
 *   ./build jurengate
 *   cc -I include examples/editions.c target/staticlib/libjurengate.a -o target/editions
 *   target/editions samples/default/site.lkb samples/default/book.lkb target/site-2.lkb */
#include <stdint.h>
#include <stdio.h>

#include "jurengate.h"

enum { EDITION_AT = 2 };

/* One byte more than the format, so that a longer file has a length that is refused. */
static uint8_t site[JURENGATE_SITE_BYTES + 1];
static uint8_t book[JURENGATE_BOOK_BYTES + 1];
static uint8_t converted[JURENGATE_SITE_BYTES];

static size_t read_card(const char *name, uint8_t *buffer, size_t size) {
    FILE *file = fopen(name, "rb");
    if (file == NULL) {
        return 0;
    }
    size_t length = fread(buffer, 1, size, file);
    fclose(file);
    return length;
}

static int write_file(const char *name, const uint8_t *bytes, size_t size) {
    FILE *file = fopen(name, "wb");
    int wrote = file != NULL && fwrite(bytes, 1, size, file) == size;
    return file != NULL && fclose(file) == 0 && wrote;
}

/* Share and dust of each place that has a share, and what is left to the house. */
static void print_places(const uint32_t places[JURENGATE_SITE_PLACES]) {
    static const char *const names[] = {"work", "school", "daycare", "second home", "other"};
    uint32_t house = 100;
    for (uint32_t place = 0; place < JURENGATE_SITE_PLACES / 2; place++) {
        uint32_t share = places[2 * place], dust = places[2 * place + 1];
        if (share > 0) {
            printf("%s: %u %% of the dust, %u.%03u ug/g\n", names[place], (unsigned)share, (unsigned)(dust / 1000),
                   (unsigned)(dust % 1000));
        }
        house -= share;
    }
    printf("house: %u %% of the dust\n", (unsigned)house);
}

/* The last blood figure of a run and its refusal. */
static uint32_t last_blood(const uint8_t *file, size_t file_len, size_t book_len, uint32_t *refusal) {
    uint64_t state[JURENGATE_STATE_WORDS];
    uint32_t figures[JURENGATE_MONTHS], months;
    *refusal = jurengate_run(file, file_len, book, book_len, figures, JURENGATE_MONTHS, state, &months);
    return months > 0 ? figures[months - 1] : 0;
}

int main(int argc, char **argv) {
    if (argc != 4) {
        fprintf(stderr, "usage: editions SITE BOOK CONVERTED\n");
        return 2;
    }
    size_t site_len = read_card(argv[1], site, sizeof site);
    size_t book_len = read_card(argv[2], book, sizeof book);
    uint32_t places[JURENGATE_SITE_PLACES];
    uint32_t refusal = jurengate_read_places(site, site_len, places);
    if (refusal != JURENGATE_ACCEPTED) {
        printf("refused %u\n", (unsigned)refusal);
        return 0;
    }
    print_places(places);

    /* An accepted file is of edition 1 or 2. */
    uint32_t edition = site[EDITION_AT], other = edition == JURENGATE_EDITION ? JURENGATE_PLACES_EDITION : JURENGATE_EDITION;
    refusal = other == JURENGATE_EDITION ? jurengate_site_to_edition_1(site, site_len, converted, sizeof converted)
                                         : jurengate_site_to_edition_2(site, site_len, converted, sizeof converted);
    if (refusal != JURENGATE_ACCEPTED) {
        printf("edition %u to %u: refused %u\n", (unsigned)edition, (unsigned)other, (unsigned)refusal);
        return 0;
    }
    uint32_t before_refusal, after_refusal;
    uint32_t before = last_blood(site, site_len, book_len, &before_refusal);
    uint32_t after = last_blood(converted, sizeof converted, book_len, &after_refusal);
    if (before != after || before_refusal != after_refusal) {
        fprintf(stderr, "the blood lead has changed\n");
        return 1;
    }
    if (!write_file(argv[3], converted, sizeof converted)) {
        fprintf(stderr, "cannot write %s\n", argv[3]);
        return 2;
    }
    printf("edition %u to %u: blood %u before and after\n", (unsigned)edition, (unsigned)other, (unsigned)before);
    return 0;
}
