/* What the Rust side of the fuzz harness offers: an input read as a call, and the model behind the engine's signatures. */
#ifndef JURENGATE_FUZZ_CASE_H
#define JURENGATE_FUZZ_CASE_H

#include "jurengate.h"
#include "jurengate_cards.h"

enum call {
    READ_SITE, READ_BOOK, WRITE_BLOCK, BIRTH, MONTH, RUN, READ_FOODS, BIRTH_FOODS, MONTH_FOODS, RUN_FOODS, CARD_ROW, CARD_GROUP,
    READ_PLACES, SITE_TO_EDITION_2, SITE_TO_EDITION_1, CALLS
};

/* Room for files longer than they should be. */
enum {
    SITE_ROOM = 2 * JURENGATE_BLOCK_BYTES,
    FOODS_ROOM = 2 * JURENGATE_BLOCK_BYTES,
    BOOK_ROOM = (JURENGATE_BOOK_BLOCKS + 2) * JURENGATE_BLOCK_BYTES,
    ROW_ROOM = 1024,
    TEXT_ROOM = 8192
};

struct fuzz_case {
    uint32_t call;
    uint32_t sides;  /* a bit for each lent memory: it begins behind a closed page, else it ends before one */
    bool has_foods;  /* for a card's row or group */
    size_t site_len; /* for the writer: of its body */
    size_t foods_len;
    size_t book_len;
    size_t text_len;
    size_t list_len; /* of the run's list, in figures; of the writer's or a converter's target, in bytes */
    uint64_t state[JURENGATE_STATE_WORDS];
    uint8_t site[SITE_ROOM];
    uint8_t foods[FOODS_ROOM];
    uint8_t book[BOOK_ROOM];
    uint8_t text[TEXT_ROOM]; /* a row, of ROW_ROOM at most, or the rows of a group */
};

void fuzz_case_of(const uint8_t *input, size_t size, struct fuzz_case *asked);

uint32_t model_read_site(const uint8_t *site, size_t site_len, uint32_t fields[JURENGATE_SITE_FIELDS]);
uint32_t model_read_places(const uint8_t *site, size_t site_len, uint32_t places[JURENGATE_SITE_PLACES]);
uint32_t model_site_to_edition_2(const uint8_t *site, size_t site_len, uint8_t *target, size_t target_len);
uint32_t model_site_to_edition_1(const uint8_t *site, size_t site_len, uint8_t *target, size_t target_len);
uint32_t model_read_book(const uint8_t *book, size_t book_len, uint32_t table[JURENGATE_TABLE_NUMBERS]);
uint32_t model_write_block(const uint8_t *body, size_t body_len, uint8_t *target, size_t target_len);
uint32_t model_birth(const uint8_t *site, size_t site_len, const uint8_t *book, size_t book_len,
                     uint64_t state[JURENGATE_STATE_WORDS]);
uint32_t model_month(const uint8_t *site, size_t site_len, const uint8_t *book, size_t book_len,
                     uint64_t state[JURENGATE_STATE_WORDS], uint32_t *blood);
uint32_t model_run(const uint8_t *site, size_t site_len, const uint8_t *book, size_t book_len, uint32_t *blood, size_t blood_len,
                   uint64_t state[JURENGATE_STATE_WORDS], uint32_t *months);
uint32_t model_read_foods(const uint8_t *foods, size_t foods_len, uint32_t figures[JURENGATE_FOODS_FIGURES]);
uint32_t model_birth_foods(const uint8_t *site, size_t site_len, const uint8_t *foods, size_t foods_len, const uint8_t *book,
                           size_t book_len, uint64_t state[JURENGATE_STATE_WORDS]);
uint32_t model_month_foods(const uint8_t *site, size_t site_len, const uint8_t *foods, size_t foods_len, const uint8_t *book,
                           size_t book_len, uint64_t state[JURENGATE_STATE_WORDS], uint32_t *blood);
uint32_t model_run_foods(const uint8_t *site, size_t site_len, const uint8_t *foods, size_t foods_len, const uint8_t *book,
                         size_t book_len, uint32_t *blood, size_t blood_len, uint64_t state[JURENGATE_STATE_WORDS],
                         uint32_t *months);
uint32_t model_card_row(const uint8_t *site, size_t site_len, bool has_foods, const uint8_t *foods, size_t foods_len,
                        const uint8_t *book, size_t book_len, const uint8_t *row, size_t row_len, uint32_t *blood,
                        bool *skipped);
uint32_t model_card_group(const uint8_t *site, size_t site_len, bool has_foods, const uint8_t *foods, size_t foods_len,
                          const uint8_t *book, size_t book_len, const uint8_t *rows, size_t rows_len,
                          uint32_t answers[JURENGATE_GROUP_ANSWERS], uint32_t *decodes, size_t *next);

#endif
