/* Broken stand-ins for the self-check: linked with --wrap, each call goes through here, and the variable FAULT says what is done wrong.
 * Each fault shows on few inputs only; the harness must find every one. */
#include <stdlib.h>
#include <string.h>

#include "case.h"

/* Like the engine's own object code, these give the fuzzer no coverage to go by. */
#pragma clang attribute push(__attribute__((no_sanitize("coverage"))), apply_to = function)

uint32_t __real_jurengate_read_site(const uint8_t *, size_t, uint32_t *);
uint32_t __real_jurengate_read_book(const uint8_t *, size_t, uint32_t *);
uint32_t __real_jurengate_write_block(const uint8_t *, size_t, uint8_t *, size_t);
uint32_t __real_jurengate_birth(const uint8_t *, size_t, const uint8_t *, size_t, uint64_t *);
uint32_t __real_jurengate_month(const uint8_t *, size_t, const uint8_t *, size_t, uint64_t *, uint32_t *);
uint32_t __real_jurengate_run(const uint8_t *, size_t, const uint8_t *, size_t, uint32_t *, size_t, uint64_t *, uint32_t *);

uint32_t __real_jurengate_read_places(const uint8_t *, size_t, uint32_t *);
uint32_t __real_jurengate_site_to_edition_2(const uint8_t *, size_t, uint8_t *, size_t);
uint32_t __real_jurengate_site_to_edition_1(const uint8_t *, size_t, uint8_t *, size_t);

uint32_t __real_jurengate_read_foods(const uint8_t *, size_t, uint32_t *);
uint32_t __real_jurengate_birth_foods(const uint8_t *, size_t, const uint8_t *, size_t, const uint8_t *, size_t, uint64_t *);
uint32_t __real_jurengate_month_foods(const uint8_t *, size_t, const uint8_t *, size_t, const uint8_t *, size_t, uint64_t *,
                                      uint32_t *);
uint32_t __real_jurengate_run_foods(const uint8_t *, size_t, const uint8_t *, size_t, const uint8_t *, size_t, uint32_t *, size_t,
                                    uint64_t *, uint32_t *);

uint32_t __real_jurengate_card_row(const uint8_t *, size_t, bool, const uint8_t *, size_t, const uint8_t *, size_t, const uint8_t *,
                                   size_t, uint32_t *, bool *);
uint32_t __real_jurengate_card_group(const uint8_t *, size_t, bool, const uint8_t *, size_t, const uint8_t *, size_t, const uint8_t *,
                                     size_t, uint32_t *, uint32_t *, size_t *);

/* Where a foods block has the lead of candy and the share of fish, whose neighbour is that of game. */
enum { CANDY_LEAD_AT = 230, FISH_SHARE_AT = 282, FIELD_BYTES = 4 };

static int fault_is(int fault) {
    static int asked = -1;
    if (asked < 0) {
        const char *text = getenv("FAULT");
        asked = text == NULL ? 0 : atoi(text);
    }
    return asked == fault;
}

static volatile uint8_t sink;

/* Where a site file of edition 2 has its places, and where they end. */
enum { PLACES_AT = 380, PLACES_END = 420, CHECK_AT = JURENGATE_BODY_BYTES };

/* The five shares of a site file together, 0 of one that is refused. */
static uint32_t shares_of(const uint8_t *site, size_t site_len) {
    uint32_t places[JURENGATE_SITE_PLACES], sum = 0;
    __real_jurengate_read_places(site, site_len, places);
    for (int place = 0; place < JURENGATE_SITE_PLACES; place += 2) {
        sum += places[place];
    }
    return sum;
}

uint32_t __wrap_jurengate_read_site(const uint8_t *site, size_t site_len, uint32_t *fields) {
    uint32_t number = __real_jurengate_read_site(site, site_len, fields);
    if (fault_is(1) && number == JURENGATE_WRONG_LENGTH) {
        sink = site[site_len]; /* reads one byte past a file of a wrong length */
    }
    if (fault_is(2) && number == JURENGATE_FIELD_OUTSIDE_LIMITS) {
        fields[JURENGATE_SITE_MOTHER] = 1; /* leaves a field of a refused file */
    }
    if (fault_is(26) && shares_of(site, site_len) == 100) {
        memset(fields, 0, JURENGATE_SITE_FIELDS * sizeof *fields);
        return JURENGATE_PLACES_OVER_100; /* refuses shares of exactly 100 */
    }
    return number;
}

uint32_t __wrap_jurengate_read_places(const uint8_t *site, size_t site_len, uint32_t *places) {
    uint32_t number = __real_jurengate_read_places(site, site_len, places);
    if (fault_is(27) && number == JURENGATE_PLACES_OVER_100) {
        memcpy(places, site + PLACES_AT, JURENGATE_SITE_PLACES * sizeof *places); /* the places of a refused file */
    }
    return number;
}

uint32_t __wrap_jurengate_site_to_edition_2(const uint8_t *site, size_t site_len, uint8_t *target, size_t target_len) {
    uint32_t number = __real_jurengate_site_to_edition_2(site, site_len, target, target_len);
    if (fault_is(28) && number == JURENGATE_FIELD_OUTSIDE_LIMITS) {
        memcpy(target, site, JURENGATE_SITE_BYTES); /* fills the target of a refused file */
    }
    return number;
}

uint32_t __wrap_jurengate_site_to_edition_1(const uint8_t *site, size_t site_len, uint8_t *target, size_t target_len) {
    uint32_t number = __real_jurengate_site_to_edition_1(site, site_len, target, target_len);
    if (fault_is(29) && number == JURENGATE_PLACES_OVER_100) {
        return JURENGATE_SHARE_ABOVE_0; /* 14 before 13 */
    }
    if (fault_is(30) && number == JURENGATE_ACCEPTED && site[PLACES_END - 1] != 0) {
        memcpy(target + CHECK_AT, site + CHECK_AT, JURENGATE_BLOCK_BYTES - CHECK_AT); /* the source's check, with the dropped figures */
    }
    return number;
}

uint32_t __wrap_jurengate_read_book(const uint8_t *book, size_t book_len, uint32_t *table) {
    uint32_t number = __real_jurengate_read_book(book, book_len, table);
    uint32_t *last_volume = &table[JURENGATE_MONTHS * JURENGATE_ROW_NUMBERS + JURENGATE_ROW_BLOOD_VOLUME];
    if (fault_is(3) && number == JURENGATE_ACCEPTED && *last_volume == 60000) {
        --*last_volume; /* the last month's blood volume, at its limit */
    }
    return number;
}

uint32_t __wrap_jurengate_write_block(const uint8_t *body, size_t body_len, uint8_t *target, size_t target_len) {
    uint32_t number = __real_jurengate_write_block(body, body_len, target, target_len);
    if (fault_is(4) && number == JURENGATE_WRONG_LENGTH && body_len == JURENGATE_BODY_BYTES) {
        target[target_len] = 0; /* writes one byte past a target of a wrong length */
    }
    return number;
}

uint32_t __wrap_jurengate_birth(const uint8_t *site, size_t site_len, const uint8_t *book, size_t book_len, uint64_t *state) {
    uint32_t number = __real_jurengate_birth(site, site_len, book, book_len, state);
    if (fault_is(5) && number == JURENGATE_BURDEN_TOO_LARGE) {
        state[-1] = state[JURENGATE_STATE_MONTH]; /* writes before the state of a refused birth */
    }
    return number;
}

uint32_t __wrap_jurengate_month(const uint8_t *site, size_t site_len, const uint8_t *book, size_t book_len, uint64_t *state,
                                uint32_t *blood) {
    uint64_t month = state[JURENGATE_STATE_MONTH];
    uint8_t body[JURENGATE_BODY_BYTES], without[JURENGATE_BLOCK_BYTES];
    uint32_t fields[JURENGATE_SITE_FIELDS];
    if (fault_is(31) && shares_of(site, site_len) > 0 &&
        __real_jurengate_read_site(site, site_len, fields) == JURENGATE_ACCEPTED && fields[JURENGATE_SITE_DUST_MODE] == 0) {
        memcpy(body, site, sizeof body);
        memset(body + PLACES_AT, 0, PLACES_END - PLACES_AT);
        __real_jurengate_write_block(body, sizeof body, without, sizeof without);
        site = without; /* the places are left out in dust mode 0 */
    }
    uint32_t number = __real_jurengate_month(site, site_len, book, book_len, state, blood);
    if (fault_is(6) && number == JURENGATE_ACCEPTED && month == JURENGATE_MONTHS - 1) {
        state[JURENGATE_STATE_TRABECULAR]++; /* one pg of trabecular lead from nowhere, in the last month alone */
    }
    if (fault_is(7) && number == JURENGATE_NO_STATE && month == JURENGATE_MONTHS) {
        return JURENGATE_LAST_MONTH_DONE; /* the order of 20 and 21 */
    }
    return number;
}

uint32_t __wrap_jurengate_run(const uint8_t *site, size_t site_len, const uint8_t *book, size_t book_len, uint32_t *blood,
                              size_t blood_len, uint64_t *state, uint32_t *months) {
    uint32_t number = __real_jurengate_run(site, site_len, book, book_len, blood, blood_len, state, months);
    if (fault_is(8) && number == JURENGATE_INTAKE_TOO_LARGE && *months > 0) {
        blood[*months] = 0; /* the figure of the refused month */
    }
    return number;
}

uint32_t __wrap_jurengate_read_foods(const uint8_t *foods, size_t foods_len, uint32_t *figures) {
    uint32_t number = __real_jurengate_read_foods(foods, foods_len, figures);
    uint32_t shares[2];
    if (fault_is(9) && number == JURENGATE_SHARES_TOO_LARGE) {
        memcpy(shares, foods + FISH_SHARE_AT, sizeof shares);
        if (shares[0] > UINT32_MAX - shares[1] && shares[0] + shares[1] <= 100) {
            return JURENGATE_FOOD_OUTSIDE_LIMITS; /* fish and game added in 32 bits */
        }
    }
    return number;
}

uint32_t __wrap_jurengate_birth_foods(const uint8_t *site, size_t site_len, const uint8_t *foods, size_t foods_len,
                                      const uint8_t *book, size_t book_len, uint64_t *state) {
    uint32_t number = __real_jurengate_birth_foods(site, site_len, foods, foods_len, book, book_len, state);
    if (fault_is(10) && number == JURENGATE_FIELD_OUTSIDE_LIMITS && foods_len != JURENGATE_FOODS_BYTES) {
        return JURENGATE_WRONG_LENGTH; /* the foods block's length before the site's 7 */
    }
    return number;
}

uint32_t __wrap_jurengate_month_foods(const uint8_t *site, size_t site_len, const uint8_t *foods, size_t foods_len,
                                      const uint8_t *book, size_t book_len, uint64_t *state, uint32_t *blood) {
    uint8_t body[JURENGATE_BODY_BYTES], without[JURENGATE_BLOCK_BYTES];
    if (fault_is(11) && foods_len == JURENGATE_FOODS_BYTES &&
        __real_jurengate_read_foods(foods, foods_len, (uint32_t[JURENGATE_FOODS_FIGURES]){0}) == JURENGATE_ACCEPTED) {
        memcpy(body, foods, sizeof body);
        memset(body + CANDY_LEAD_AT, 0, FIELD_BYTES);
        __real_jurengate_write_block(body, sizeof body, without, sizeof without);
        foods = without; /* the diet without candy */
    }
    return __real_jurengate_month_foods(site, site_len, foods, foods_len, book, book_len, state, blood);
}

uint32_t __wrap_jurengate_run_foods(const uint8_t *site, size_t site_len, const uint8_t *foods, size_t foods_len,
                                    const uint8_t *book, size_t book_len, uint32_t *blood, size_t blood_len, uint64_t *state,
                                    uint32_t *months) {
    uint32_t number = __real_jurengate_run_foods(site, site_len, foods, foods_len, book, book_len, blood, blood_len, state, months);
    if (fault_is(12) && number == JURENGATE_FOOD_OUTSIDE_LIMITS) {
        *months = 1; /* a month that was never run */
    }
    return number;
}

/* Writes a row again with its tabs as spaces, or with its age as 1, and answers its new length. */
static size_t rewritten(const uint8_t *row, size_t row_len, bool tabs, bool age, uint8_t *copy) {
    size_t length = 0;
    int field = -1;
    for (size_t i = 0; i < row_len; i++) {
        uint8_t byte = tabs && row[i] == '\t' ? ' ' : row[i];
        bool begins = byte != ' ' && (i == 0 || row[i - 1] == ' ');
        field += begins;
        if (!age || field != JURENGATE_CARD_AGE || byte == ' ') {
            copy[length++] = byte;
        } else if (begins) {
            copy[length++] = '1';
        }
    }
    return length;
}

uint32_t __wrap_jurengate_card_row(const uint8_t *site, size_t site_len, bool has_foods, const uint8_t *foods, size_t foods_len,
                                   const uint8_t *book, size_t book_len, const uint8_t *row, size_t row_len, uint32_t *blood,
                                   bool *skipped) {
    uint32_t number = __real_jurengate_card_row(site, site_len, has_foods, foods, foods_len, book, book_len, row, row_len, blood, skipped);
    uint8_t copy[ROW_ROOM];
    if (fault_is(13) && number == JURENGATE_CARD_TEXT_WRONG && row_len > 0 && row[row_len - 1] == ' ') {
        sink = row[row_len]; /* reads one byte past a row that ends in a space */
    }
    if (fault_is(14) && *skipped) {
        uint32_t figure = 0;
        bool other = false;
        size_t length = rewritten(row, row_len, false, true, copy);
        if (__real_jurengate_card_row(site, site_len, has_foods, foods, foods_len, book, book_len, copy, length, &figure, &other) ==
            JURENGATE_FIELD_OUTSIDE_LIMITS) {
            *skipped = false;
            return JURENGATE_FIELD_OUTSIDE_LIMITS; /* the row's 7 before the skip for its age */
        }
    }
    if (fault_is(15) && number == JURENGATE_CARD_TEXT_WRONG) {
        size_t length = rewritten(row, row_len, true, false, copy); /* a tab taken for a space */
        return __real_jurengate_card_row(site, site_len, has_foods, foods, foods_len, book, book_len, copy, length, blood, skipped);
    }
    if (fault_is(16) && number == JURENGATE_BURDEN_TOO_LARGE) {
        *blood = 1; /* a figure beside a refusal */
    }
    if (fault_is(17) && number == JURENGATE_ACCEPTED && has_foods && !*skipped) {
        return __real_jurengate_card_row(site, site_len, false, foods, foods_len, book, book_len, row, row_len, blood,
                                         skipped); /* the site file's diet in spite of the foods */
    }
    return number;
}

uint32_t __wrap_jurengate_card_group(const uint8_t *site, size_t site_len, bool has_foods, const uint8_t *foods, size_t foods_len,
                                     const uint8_t *book, size_t book_len, const uint8_t *rows, size_t rows_len, uint32_t *answers,
                                     uint32_t *decodes, size_t *next) {
    uint32_t taken = __real_jurengate_card_group(site, site_len, has_foods, foods, foods_len, book, book_len, rows, rows_len, answers,
                                                 decodes, next);
    if (fault_is(18) && *next < rows_len) {
        ++*next; /* the 65th row one byte too far */
    }
    if (fault_is(19) && taken > 1 && answers[2 * taken - 2] == JURENGATE_GROUP_BLOOD) {
        memcpy(&answers[2 * taken - 2], &answers[2 * taken - 4], 2 * sizeof *answers); /* the answer of the row before */
    }
    if (fault_is(20) && *decodes > 0) {
        *decodes = JURENGATE_BOOK_BLOCKS; /* as if a refused book had been read to its end */
    }
    if (fault_is(21) && taken == JURENGATE_GROUP_ROWS - 1) {
        answers[2 * taken] = 0; /* a place behind the last row */
    }
    if (fault_is(22) && rows_len > 0 && rows[rows_len - 1] == '\n' && taken < JURENGATE_GROUP_ROWS) {
        sink = rows[rows_len]; /* reads one byte past a text that ends in a line feed */
    }
    if (fault_is(23) && *decodes > 0 && *decodes < JURENGATE_BOOK_BLOCKS) {
        --*decodes; /* the refused block is not counted */
    }
    if (fault_is(24) && book_len != JURENGATE_BOOK_BYTES) {
        *decodes = 1; /* a book of a wrong length counts */
    }
    if (fault_is(25) && *decodes == 1) {
        *decodes = 2; /* block 0 counts twice */
    }
    return taken;
}

#pragma clang attribute pop
