/* The engine against the model, one call for each fuzz input.
 *
 * Every memory lent to the engine lies flush against a page that nobody may touch, and what is around it is painted. After the
 * call the number, each lent memory and the paint must be as the model leaves them. */
#include <stdio.h>
#include <stdlib.h>
#include <string.h>
#include <sys/mman.h>

#include "case.h"
#include "engine_code.h"
#include "jurengate.h"
#include "jurengate_cards.h"

enum memory { SITE, FOODS, BOOK, STATE, LIST, FIGURE, TEXT, FLAG, NEXT, MEMORIES };

enum { PAGE = 4096, OPEN_BYTES = 3 * PAGE, PAINT = 0xA5, FILLER = 0x5A };

/* The refusal numbers, 0 to the highest. */
enum { NUMBERS = JURENGATE_BURDEN_TOO_LARGE + 1 };

struct lent {
    uint8_t *open; /* OPEN_BYTES between two closed pages */
    uint8_t *at;
    size_t size;
    _Alignas(8) uint8_t due[OPEN_BYTES]; /* the model's copy */
};

static struct lent lent[MEMORIES];
static uint8_t paint[OPEN_BYTES];
static struct fuzz_case asked;

static const char *const call_names[CALLS] = {"read_site",  "read_book",   "write_block", "birth",     "month",    "run",
                                              "read_foods", "birth_foods", "month_foods", "run_foods", "card_row", "card_group",
                                              "read_places", "site_to_edition_2", "site_to_edition_1"};
static const char *const memory_names[MEMORIES] = {"site", "foods", "book", "state", "list", "figure", "text", "flag", "next"};

/* The numbers that each call, or a row of a group, can answer, a bit for each. */
#define BIT(number) (1u << JURENGATE_##number)
#define LENGTH_NUMBERS (BIT(ACCEPTED) | BIT(WRONG_LENGTH))
#define BLOCK_NUMBERS \
    (LENGTH_NUMBERS | BIT(CHECK_WRONG) | BIT(EDITION_WRONG) | BIT(NUMBER_WRONG) | BIT(RESERVED_NOT_ZERO))
#define SITE_NUMBERS (BLOCK_NUMBERS | BIT(FIELD_OUTSIDE_LIMITS) | BIT(PLACES_OVER_100))
#define FILE_NUMBERS (SITE_NUMBERS | BIT(ROW_OUTSIDE_LIMITS))
#define FOODS_NUMBERS (BIT(SHARES_TOO_LARGE) | BIT(FOOD_OUTSIDE_LIMITS))
#define BIRTH_NUMBERS (FILE_NUMBERS | BIT(BURDEN_TOO_LARGE))
#define MONTH_NUMBERS (BIRTH_NUMBERS | BIT(INTAKE_TOO_LARGE) | BIT(NO_STATE) | BIT(LAST_MONTH_DONE))
#define RUN_NUMBERS (BIRTH_NUMBERS | BIT(WRONG_LIST_LENGTH) | BIT(INTAKE_TOO_LARGE))
#define ROW_NUMBERS (BIRTH_NUMBERS | FOODS_NUMBERS | BIT(INTAKE_TOO_LARGE) | BIT(CARD_TEXT_WRONG))
static const uint32_t answerable[CALLS] = {
    [READ_SITE] = SITE_NUMBERS,
    [READ_BOOK] = BLOCK_NUMBERS | BIT(ROW_OUTSIDE_LIMITS),
    [WRITE_BLOCK] = LENGTH_NUMBERS,
    [BIRTH] = BIRTH_NUMBERS,
    [MONTH] = MONTH_NUMBERS,
    [RUN] = RUN_NUMBERS,
    [READ_FOODS] = BLOCK_NUMBERS | FOODS_NUMBERS,
    [BIRTH_FOODS] = BIRTH_NUMBERS | FOODS_NUMBERS,
    [MONTH_FOODS] = MONTH_NUMBERS | FOODS_NUMBERS,
    [RUN_FOODS] = RUN_NUMBERS | FOODS_NUMBERS,
    [CARD_ROW] = ROW_NUMBERS,
    [CARD_GROUP] = ROW_NUMBERS,
    [READ_PLACES] = SITE_NUMBERS,
    [SITE_TO_EDITION_2] = BLOCK_NUMBERS | BIT(FIELD_OUTSIDE_LIMITS),
    [SITE_TO_EDITION_1] = SITE_NUMBERS | BIT(SHARE_ABOVE_0),
};

static uint64_t compared, met[CALLS][NUMBERS], skipped[CALLS], groups[JURENGATE_GROUP_ROWS + 1], decoded[JURENGATE_BOOK_BLOCKS + 1];

/* What the engine answers guides the fuzzer too. */
__attribute__((section("__libfuzzer_extra_counters"))) static uint8_t seen[CALLS][NUMBERS][JURENGATE_MONTHS + 1];
__attribute__((section("__libfuzzer_extra_counters"))) static uint8_t seen_groups[JURENGATE_GROUP_ROWS + 1];
__attribute__((section("__libfuzzer_extra_counters"))) static uint8_t seen_decodes[JURENGATE_BOOK_BLOCKS + 1];

struct calls {
    uint32_t (*read_site)(const uint8_t *, size_t, uint32_t *);
    uint32_t (*read_book)(const uint8_t *, size_t, uint32_t *);
    uint32_t (*write_block)(const uint8_t *, size_t, uint8_t *, size_t);
    uint32_t (*birth)(const uint8_t *, size_t, const uint8_t *, size_t, uint64_t *);
    uint32_t (*month)(const uint8_t *, size_t, const uint8_t *, size_t, uint64_t *, uint32_t *);
    uint32_t (*run)(const uint8_t *, size_t, const uint8_t *, size_t, uint32_t *, size_t, uint64_t *, uint32_t *);
    uint32_t (*read_foods)(const uint8_t *, size_t, uint32_t *);
    uint32_t (*birth_foods)(const uint8_t *, size_t, const uint8_t *, size_t, const uint8_t *, size_t, uint64_t *);
    uint32_t (*month_foods)(const uint8_t *, size_t, const uint8_t *, size_t, const uint8_t *, size_t, uint64_t *, uint32_t *);
    uint32_t (*run_foods)(const uint8_t *, size_t, const uint8_t *, size_t, const uint8_t *, size_t, uint32_t *, size_t, uint64_t *,
                          uint32_t *);
    uint32_t (*card_row)(const uint8_t *, size_t, bool, const uint8_t *, size_t, const uint8_t *, size_t, const uint8_t *, size_t,
                         uint32_t *, bool *);
    uint32_t (*card_group)(const uint8_t *, size_t, bool, const uint8_t *, size_t, const uint8_t *, size_t, const uint8_t *, size_t,
                           uint32_t *, uint32_t *, size_t *);
    uint32_t (*read_places)(const uint8_t *, size_t, uint32_t *);
    uint32_t (*site_to_edition_2)(const uint8_t *, size_t, uint8_t *, size_t);
    uint32_t (*site_to_edition_1)(const uint8_t *, size_t, uint8_t *, size_t);
};

static const struct calls engine = {jurengate_read_site,   jurengate_read_book,   jurengate_write_block, jurengate_birth,
                                    jurengate_month,       jurengate_run,         jurengate_read_foods,  jurengate_birth_foods,
                                    jurengate_month_foods, jurengate_run_foods,   jurengate_card_row,    jurengate_card_group,
                                    jurengate_read_places, jurengate_site_to_edition_2, jurengate_site_to_edition_1};
static const struct calls model = {model_read_site, model_read_book,  model_write_block, model_birth,       model_month,
                                   model_run,       model_read_foods, model_birth_foods, model_month_foods, model_run_foods,
                                   model_card_row,  model_card_group, model_read_places, model_site_to_edition_2,
                                   model_site_to_edition_1};

static uint32_t answer(const struct calls *by, uint8_t *const at[MEMORIES]) {
    const uint8_t *site = at[SITE], *foods = at[FOODS], *book = at[BOOK];
    size_t site_len = asked.site_len, foods_len = asked.foods_len, book_len = asked.book_len;
    uint64_t *state = (uint64_t *)at[STATE];
    uint32_t *list = (uint32_t *)at[LIST], *figure = (uint32_t *)at[FIGURE];
    switch (asked.call) {
    case READ_SITE: return by->read_site(site, site_len, list);
    case READ_BOOK: return by->read_book(book, book_len, list);
    case WRITE_BLOCK: return by->write_block(site, site_len, at[LIST], asked.list_len);
    case BIRTH: return by->birth(site, site_len, book, book_len, state);
    case MONTH: return by->month(site, site_len, book, book_len, state, figure);
    case RUN: return by->run(site, site_len, book, book_len, list, asked.list_len, state, figure);
    case READ_FOODS: return by->read_foods(foods, foods_len, list);
    case BIRTH_FOODS: return by->birth_foods(site, site_len, foods, foods_len, book, book_len, state);
    case MONTH_FOODS: return by->month_foods(site, site_len, foods, foods_len, book, book_len, state, figure);
    case RUN_FOODS:
        return by->run_foods(site, site_len, foods, foods_len, book, book_len, list, asked.list_len, state, figure);
    case CARD_ROW:
        return by->card_row(site, site_len, asked.has_foods, foods, foods_len, book, book_len, at[TEXT], asked.text_len, figure,
                            (bool *)at[FLAG]);
    case CARD_GROUP:
        return by->card_group(site, site_len, asked.has_foods, foods, foods_len, book, book_len, at[TEXT], asked.text_len, list,
                              figure, (size_t *)at[NEXT]);
    case READ_PLACES: return by->read_places(site, site_len, list);
    case SITE_TO_EDITION_2: return by->site_to_edition_2(site, site_len, at[LIST], asked.list_len);
    case SITE_TO_EDITION_1: return by->site_to_edition_1(site, site_len, at[LIST], asked.list_len);
    }
    abort();
}

static int is_month(void) { return asked.call == MONTH || asked.call == MONTH_FOODS; }

static int is_run(void) { return asked.call == RUN || asked.call == RUN_FOODS; }

static size_t list_bytes(void) {
    switch (asked.call) {
    case READ_SITE: return JURENGATE_SITE_FIELDS * sizeof(uint32_t);
    case READ_BOOK: return JURENGATE_TABLE_NUMBERS * sizeof(uint32_t);
    case READ_FOODS: return JURENGATE_FOODS_FIGURES * sizeof(uint32_t);
    case READ_PLACES: return JURENGATE_SITE_PLACES * sizeof(uint32_t);
    case CARD_GROUP: return JURENGATE_GROUP_ANSWERS * sizeof(uint32_t);
    default: return is_run() ? asked.list_len * sizeof(uint32_t) : asked.list_len;
    }
}

/* Lends a memory with this content, or full of rubbish without one. */
static void lend(enum memory which, const void *content, size_t size) {
    struct lent *memory = &lent[which];
    memset(memory->open, PAINT, OPEN_BYTES);
    memory->size = size;
    memory->at = asked.sides >> which & 1 ? memory->open : memory->open + OPEN_BYTES - size;
    if (content != NULL) {
        memcpy(memory->at, content, size);
    } else {
        memset(memory->at, FILLER, size);
    }
    memcpy(memory->due, memory->at, size);
}

static void lend_all(void) {
    lend(SITE, asked.site, asked.site_len);
    lend(FOODS, asked.foods, asked.foods_len);
    lend(BOOK, asked.book, asked.book_len);
    lend(STATE, is_month() ? asked.state : NULL, sizeof asked.state);
    lend(LIST, NULL, list_bytes());
    lend(FIGURE, NULL, sizeof(uint32_t));
    lend(TEXT, asked.text, asked.text_len);
    lend(FLAG, NULL, sizeof(bool));
    lend(NEXT, NULL, sizeof(size_t));
}

static void fail(const char *what, const char *where) {
    fprintf(stderr, "MISMATCH: %s: %s %s\n", call_names[asked.call], where, what);
    abort();
}

static void hold(enum memory which) {
    const struct lent *memory = &lent[which];
    size_t before = (size_t)(memory->at - memory->open);
    size_t after = OPEN_BYTES - before - memory->size;
    if (memcmp(memory->at, memory->due, memory->size) != 0) {
        fail("is not as the model leaves it", memory_names[which]);
    }
    if (memcmp(memory->open, paint, before) != 0 || memcmp(memory->at + memory->size, paint, after) != 0) {
        fail("has other bytes around it than before the call", memory_names[which]);
    }
}

/* Whether a call, or a row of a group, can answer this number. */
static void hold_number(uint32_t number) {
    if (number >= NUMBERS || !(answerable[asked.call] >> number & 1)) {
        fail("is none that the call can answer", "the refusal number");
    }
}

/* The numbers of a group's rows are looked at one by one. */
static void count_group(uint32_t taken) {
    uint32_t answers[JURENGATE_GROUP_ANSWERS], decodes;
    memcpy(answers, lent[LIST].due, sizeof answers);
    memcpy(&decodes, lent[FIGURE].due, sizeof decodes);
    if (taken > JURENGATE_GROUP_ROWS || decodes > JURENGATE_BOOK_BLOCKS) {
        fail("is none that the call can answer", "a count");
    }
    groups[taken]++;
    decoded[decodes]++;
    seen_groups[taken]++;
    seen_decodes[decodes]++;
    for (uint32_t row = 0; row < taken; row++) {
        uint32_t kind = answers[2 * row], number = kind == JURENGATE_GROUP_REFUSED ? answers[2 * row + 1] : JURENGATE_ACCEPTED;
        hold_number(number);
        skipped[CARD_GROUP] += kind == JURENGATE_GROUP_SKIPPED;
        met[CARD_GROUP][number]++;
        seen[CARD_GROUP][number][kind]++;
    }
}

static void count(uint32_t number) {
    uint32_t months = 0;
    compared++;
    if (asked.call == CARD_GROUP) {
        count_group(number);
        return;
    }
    hold_number(number);
    if (is_run()) {
        memcpy(&months, lent[FIGURE].due, sizeof months);
    } else if (is_month() && number != JURENGATE_NO_STATE) {
        months = (uint32_t)asked.state[JURENGATE_STATE_MONTH] % (JURENGATE_MONTHS + 1);
    } else if (asked.call == CARD_ROW) {
        months = lent[FLAG].due[0]; /* skipped or not */
        skipped[CARD_ROW] += months;
    }
    met[asked.call][number]++;
    seen[asked.call][number][months]++;
}

static void print_count(uint64_t times) { printf(" %llu%s", (unsigned long long)times, times ? "" : " NOT MET"); }

static void print_counts(void) {
    for (int call = 0; call < CALLS; call++) {
        printf(call == CARD_GROUP ? "%s, by rows:" : "%s:", call_names[call]);
        for (int number = 0; number < NUMBERS; number++) {
            if (answerable[call] >> number & 1) {
                printf(" %d:", number);
                print_count(met[call][number]);
            }
        }
        printf("\n");
    }
    for (int call = CARD_ROW; call <= CARD_GROUP; call++) {
        printf("%s skipped:", call_names[call]);
        print_count(skipped[call]);
        printf("\n");
    }
    printf("card_group, blocks decoded:");
    for (int blocks = 0; blocks <= JURENGATE_BOOK_BLOCKS; blocks++) {
        printf(" %d:", blocks);
        print_count(decoded[blocks]);
    }
    printf("\ncard_group without rows:");
    print_count(groups[0]);
    printf(", of 64 rows:");
    print_count(groups[JURENGATE_GROUP_ROWS]);
    printf("\n%llu calls compared\n", (unsigned long long)compared);
    print_engine_code();
}

int LLVMFuzzerInitialize(int *argc, char ***argv) {
    (void)argc, (void)argv;
    memset(paint, PAINT, sizeof paint);
    for (int which = 0; which < MEMORIES; which++) {
        uint8_t *pages = mmap(NULL, OPEN_BYTES + 2 * PAGE, PROT_NONE, MAP_PRIVATE | MAP_ANONYMOUS, -1, 0);
        if (pages == MAP_FAILED || mprotect(pages + PAGE, OPEN_BYTES, PROT_READ | PROT_WRITE) != 0) {
            perror("fuzz: no memory to lend");
            exit(2);
        }
        lent[which].open = pages + PAGE;
    }
    watch_engine_code();
    atexit(print_counts);
    return 0;
}

int LLVMFuzzerTestOneInput(const uint8_t *input, size_t size) {
    fuzz_case_of(input, size, &asked);
    lend_all();
    uint8_t *at[MEMORIES], *due[MEMORIES];
    for (int which = 0; which < MEMORIES; which++) {
        at[which] = lent[which].at;
        due[which] = lent[which].due;
    }
    uint32_t number = answer(&engine, at);
    if (number != answer(&model, due)) {
        fail("is not the model's", asked.call == CARD_GROUP ? "the number of rows" : "the refusal number");
    }
    for (int which = 0; which < MEMORIES; which++) {
        hold(which);
    }
    count(number);
    return 0;
}
