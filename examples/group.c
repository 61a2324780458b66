/* How a program runs a survey in groups: the whole text is read, the three headings are passed over, and each call takes up to 64
 * rows over one reading of the files. Prints a line a row, as examples/cards.c does: its ID, and its blood in ug/dL, or --- if it is
 * skipped, or the refusal; and on standard error, for each group, how many blocks of the book were decoded. A file that cannot be
 * read counts as empty, and is told. In the repository's root:
 *
 *   ./build jurengate_cards
 *   cc -I include examples/group.c target/staticlib/libjurengate_cards.a -o target/group
 *   target/group samples/survey/site.lkb samples/survey/book.lkb samples/survey/card.txt
 *
 * A foods block may follow as a fourth file. */
#include <stdbool.h>
#include <stdint.h>
#include <stdio.h>
#include <stdlib.h>

#include "jurengate_cards.h"

/* One byte more than the format, so that a longer file has a length that is refused. */
static uint8_t site[JURENGATE_SITE_BYTES + 1];
static uint8_t foods[JURENGATE_FOODS_BYTES + 1];
static uint8_t book[JURENGATE_BOOK_BYTES + 1];

static size_t site_len;
static size_t foods_len;
static size_t book_len;
static bool has_foods;

static FILE *open_file(const char *name) {
    FILE *file = fopen(name, "rb");
    if (file == NULL) {
        fprintf(stderr, "group: %s cannot be read, and counts as empty\n", name);
    }
    return file;
}

static size_t read_file(const char *name, uint8_t *buffer, size_t size) {
    FILE *file = open_file(name);
    if (file == NULL) {
        return 0;
    }
    size_t length = fread(buffer, 1, size, file);
    fclose(file);
    return length;
}

/* The whole text, in memory that grows as it comes; its length goes to *length. */
static uint8_t *read_text(const char *name, size_t *length) {
    FILE *file = open_file(name);
    uint8_t *text = NULL;
    size_t room = 0, got;
    *length = 0;
    do {
        if (*length == room) {
            room = 2 * room + 4096;
            text = realloc(text, room);
            if (text == NULL) {
                fprintf(stderr, "group: no memory for the text\n");
                exit(1);
            }
        }
        got = file == NULL ? 0 : fread(text + *length, 1, room - *length, file);
        *length += got;
    } while (got > 0);
    if (file != NULL) {
        fclose(file);
    }
    return text;
}

/* Where the line ends that begins at a place: at its line feed, or at the text's end. */
static size_t end_of_line(const uint8_t *text, size_t length, size_t from) {
    while (from < length && text[from] != '\n') {
        from++;
    }
    return from;
}

/* Where the first row begins: behind the headings. */
static size_t first_row(const uint8_t *text, size_t length) {
    size_t at = 0;
    for (int heading = 0; heading < JURENGATE_CARD_HEADINGS; heading++) {
        at = end_of_line(text, length, at);
        if (at < length) {
            at++;
        }
    }
    return at;
}

/* The row's first field, up to the bytes that an ID may have; - if there is none. A byte that a terminal might obey is a ?. */
static void print_id(const uint8_t *row, size_t row_len) {
    size_t start = 0;
    while (start < row_len && row[start] == ' ') {
        start++;
    }
    if (start == row_len) {
        putchar('-');
    }
    for (size_t i = start; i < row_len && i < start + JURENGATE_CARD_FIELD_BYTES && row[i] != ' '; i++) {
        putchar(row[i] > ' ' && row[i] < 127 ? row[i] : '?');
    }
}

static void print_answer(uint32_t kind, uint32_t number) {
    switch (kind) {
    case JURENGATE_GROUP_REFUSED: printf(" refused %u\n", (unsigned)number); break;
    case JURENGATE_GROUP_SKIPPED: printf(" ---\n"); break;
    default: {
        uint32_t tenths = (number + 50) / 100;
        printf(" %u.%u\n", (unsigned)(tenths / 10), (unsigned)(tenths % 10));
    }
    }
}

/* One group of the text's rows; answers where the next one begins. */
static size_t print_group(const uint8_t *text, size_t length) {
    uint32_t answers[JURENGATE_GROUP_ANSWERS], decodes;
    size_t next, at = 0;
    uint32_t taken = jurengate_card_group(site, site_len, has_foods, foods, foods_len, book, book_len, text, length, answers,
                                          &decodes, &next);
    for (uint32_t row = 0; row < taken; row++) {
        size_t end = end_of_line(text, length, at);
        print_id(text + at, end - at);
        print_answer(answers[2 * row], answers[2 * row + 1]);
        at = end + 1;
    }
    fprintf(stderr, "group: rows %u, blocks of the book decoded %u\n", (unsigned)taken, (unsigned)decodes);
    return next;
}

int main(int argc, char **argv) {
    if (argc != 4 && argc != 5) {
        fprintf(stderr, "usage: group SITE BOOK CARD [FOODS]\n");
        return 2;
    }
    site_len = read_file(argv[1], site, sizeof site);
    book_len = read_file(argv[2], book, sizeof book);
    has_foods = argc == 5;
    if (has_foods) {
        foods_len = read_file(argv[4], foods, sizeof foods);
    }
    size_t length;
    uint8_t *text = read_text(argv[3], &length);
    size_t at = first_row(text, length);
    while (at < length) {
        at += print_group(text + at, length - at);
    }
    free(text);
    return 0;
}
