/* How a program runs the rows of a batch card: the text is cut at its line feeds, the three headings are passed over, and each row
 * is run by a call of its own. Prints a line a row: its ID, and its blood in ug/dL, or --- if it is skipped, or the refusal. A file
 * that cannot be read counts as empty, and is told. In the repository's root:
 *
 *   ./build jurengate_cards
 *   cc -I include examples/cards.c target/staticlib/libjurengate_cards.a -o target/cards
 *   target/cards samples/survey/site.lkb samples/survey/book.lkb samples/survey/card.txt
 *
 * A foods block may follow as a fourth file. */
#include <stdbool.h>
#include <stdint.h>
#include <stdio.h>
#include <stdlib.h>

#include "jurengate_cards.h"

/* One byte more than the format, so that a longer file has a length that is refused. */
static uint8_t site[JURENGATE_SITE_BYTES + 1];
static uint8_t foods[JURENGATE_FOODS_BYTES + 1];
static uint8_t book[JURENGATE_BOOK_BYTES + 1];

static size_t site_len;
static size_t foods_len;
static size_t book_len;
static bool has_foods;

/* A row's bytes, which grow as they come; a row may have any length. */
static uint8_t *row;
static size_t row_len;
static size_t row_room;

static FILE *open_file(const char *name) {
    FILE *file = fopen(name, "rb");
    if (file == NULL) {
        fprintf(stderr, "cards: %s cannot be read, and counts as empty\n", name);
    }
    return file;
}

static size_t read_file(const char *name, uint8_t *buffer, size_t size) {
    FILE *file = open_file(name);
    if (file == NULL) {
        return 0;
    }
    size_t length = fread(buffer, 1, size, file);
    fclose(file);
    return length;
}

static void put_byte(uint8_t byte) {
    if (row_len == row_room) {
        row_room = 2 * row_room + 256;
        row = realloc(row, row_room);
        if (row == NULL) {
            fprintf(stderr, "cards: no memory for a row\n");
            exit(1);
        }
    }
    row[row_len] = byte;
    row_len++;
}

/* The row's first field, up to the bytes that an ID may have; - if there is none. A byte that a terminal might obey is a ?. */
static void print_id(void) {
    size_t start = 0;
    while (start < row_len && row[start] == ' ') {
        start++;
    }
    if (start == row_len) {
        putchar('-');
    }
    for (size_t i = start; i < row_len && i < start + JURENGATE_CARD_FIELD_BYTES && row[i] != ' '; i++) {
        putchar(row[i] > ' ' && row[i] < 127 ? row[i] : '?');
    }
}

static void print_row(void) {
    static const uint8_t no_bytes[1];
    uint32_t blood;
    bool skipped = false;
    uint32_t refusal = jurengate_card_row(site, site_len, has_foods, foods, foods_len, book, book_len,
                                          row == NULL ? no_bytes : row, row_len, &blood, &skipped);
    print_id();
    if (refusal != JURENGATE_ACCEPTED) {
        printf(" refused %u\n", (unsigned)refusal);
    } else if (skipped) {
        printf(" ---\n");
    } else {
        uint32_t tenths = (blood + 50) / 100;
        printf(" %u.%u\n", (unsigned)(tenths / 10), (unsigned)(tenths % 10));
    }
}

/* Cuts the text at its line feeds; what follows the last one is a line if it is not empty. */
static void print_rows(FILE *text) {
    unsigned headings = 0;
    int byte;
    do {
        byte = getc(text);
        if (byte != '\n' && byte != EOF) {
            put_byte((uint8_t)byte);
        } else if (byte == '\n' || row_len > 0) {
            if (headings < JURENGATE_CARD_HEADINGS) {
                headings++;
            } else {
                print_row();
            }
            row_len = 0;
        }
    } while (byte != EOF);
}

int main(int argc, char **argv) {
    if (argc != 4 && argc != 5) {
        fprintf(stderr, "usage: cards SITE BOOK CARD [FOODS]\n");
        return 2;
    }
    site_len = read_file(argv[1], site, sizeof site);
    book_len = read_file(argv[2], book, sizeof book);
    has_foods = argc == 5;
    if (has_foods) {
        foods_len = read_file(argv[4], foods, sizeof foods);
    }
    FILE *text = open_file(argv[3]);
    if (text != NULL) {
        print_rows(text);
        fclose(text);
    }
    free(row);
    return 0;
}
