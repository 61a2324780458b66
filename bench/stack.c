/* Peak stack of each call: it runs in a thread whose stack was painted, and the spoilt paint below the thread's frame is counted. */
#define _POSIX_C_SOURCE 200809L
#include <pthread.h>
#include <stdint.h>
#include <stdio.h>
#include <stdlib.h>
#include <string.h>

#include "jurengate.h"
#include "jurengate_cards.h"

enum { STACK_BYTES = 1 << 20, PAGE_BYTES = 4096, PAINT = 0xA5 };

static uint8_t site[JURENGATE_SITE_BYTES], foods[JURENGATE_FOODS_BYTES], book[JURENGATE_BOOK_BYTES];
static uint8_t target[JURENGATE_BLOCK_BYTES], second_edition[JURENGATE_SITE_BYTES];
static uint64_t state[JURENGATE_STATE_WORDS];
static uint32_t fields[JURENGATE_SITE_FIELDS], places[JURENGATE_SITE_PLACES];
static uint32_t eaten[JURENGATE_FOODS_FIGURES], table[JURENGATE_TABLE_NUMBERS];
static uint32_t figures[JURENGATE_MONTHS], blood, months, refusal;

static void nothing(void) {}
static void read_site(void) { refusal = jurengate_read_site(site, sizeof site, fields); }
static void read_book(void) { refusal = jurengate_read_book(book, sizeof book, table); }
static void write_block(void) { refusal = jurengate_write_block(site, JURENGATE_BODY_BYTES, target, sizeof target); }
static void birth(void) { refusal = jurengate_birth(site, sizeof site, book, sizeof book, state); }
static void month(void) { refusal = jurengate_month(site, sizeof site, book, sizeof book, state, &blood); }
static void run(void) {
    refusal = jurengate_run(site, sizeof site, book, sizeof book, figures, JURENGATE_MONTHS, state, &months);
}
static void read_foods(void) { refusal = jurengate_read_foods(foods, sizeof foods, eaten); }
static void birth_foods(void) {
    refusal = jurengate_birth_foods(site, sizeof site, foods, sizeof foods, book, sizeof book, state);
}
static void month_foods(void) {
    refusal = jurengate_month_foods(site, sizeof site, foods, sizeof foods, book, sizeof book, state, &blood);
}
static void run_foods(void) {
    refusal = jurengate_run_foods(site, sizeof site, foods, sizeof foods, book, sizeof book, figures, JURENGATE_MONTHS,
                                  state, &months);
}
static void read_places(void) { refusal = jurengate_read_places(second_edition, sizeof second_edition, places); }
static void site_to_edition_2(void) { refusal = jurengate_site_to_edition_2(site, sizeof site, target, sizeof target); }
static void site_to_edition_1(void) {
    refusal = jurengate_site_to_edition_1(second_edition, sizeof second_edition, target, sizeof target);
}

/* A row with every figure, run to the last month, without foods and with them. */
static void card_row(void) {
    static const uint8_t row[] = "A1 7 8 84 200.5 150.25 4.125 0.1 1.5 3.2 30 30";
    bool skipped = false;
    refusal = jurengate_card_row(site, sizeof site, false, foods, 0, book, sizeof book, row, sizeof row - 1, &blood, &skipped);
    if (refusal == JURENGATE_ACCEPTED) {
        refusal = jurengate_card_row(site, sizeof site, true, foods, sizeof foods, book, sizeof book, row, sizeof row - 1, &blood,
                                     &skipped);
    }
}

/* A full group of such rows, without foods and with them; a row that is not run is told as its refusal. */
static void card_group(void) {
    static const char row[] = "A1 7 8 84 200.5 150.25 4.125 0.1 1.5 3.2 30 30\n";
    static uint8_t text[JURENGATE_GROUP_ROWS * (sizeof row - 1)];
    static uint32_t answers[JURENGATE_GROUP_ANSWERS], decodes;
    static size_t next;
    for (size_t i = 0; i < JURENGATE_GROUP_ROWS; i++) {
        memcpy(text + i * (sizeof row - 1), row, sizeof row - 1);
    }
    refusal = JURENGATE_ACCEPTED;
    for (int has_foods = 0; has_foods < 2; has_foods++) {
        jurengate_card_group(site, sizeof site, has_foods, foods, sizeof foods, book, sizeof book, text, sizeof text, answers,
                             &decodes, &next);
        for (size_t i = 0; i < JURENGATE_GROUP_ROWS; i++) {
            if (answers[2 * i] != JURENGATE_GROUP_BLOOD) {
                refusal = answers[2 * i + 1];
            }
        }
    }
}

static uint8_t *stack;

/* Answers how far below this frame the call has written. */
static void *in_thread(void *call) {
    static size_t used;
    volatile uint8_t frame = 0;
    ((void (*)(void))call)();
    uint8_t *lowest = stack;
    while (*lowest == PAINT) {
        lowest++;
    }
    used = (size_t)((uintptr_t)&frame - (uintptr_t)lowest);
    return &used;
}

static size_t peak(void (*call)(void)) {
    if (stack == NULL && posix_memalign((void **)&stack, PAGE_BYTES, STACK_BYTES) != 0) {
        exit(2);
    }
    call(); /* once beforehand: the loader's search for memcpy and memset is not the call's */
    memset(stack, PAINT, STACK_BYTES);
    pthread_attr_t attributes;
    pthread_attr_init(&attributes);
    pthread_attr_setstack(&attributes, stack, STACK_BYTES);
    pthread_t thread;
    void *used;
    if (pthread_create(&thread, &attributes, in_thread, (void *)call) != 0 || pthread_join(thread, &used) != 0) {
        exit(2);
    }
    return *(size_t *)used;
}

static void fill(const char *name, uint8_t *bytes, size_t size) {
    FILE *file = fopen(name, "rb");
    if (file == NULL || fread(bytes, 1, size, file) != size) {
        fprintf(stderr, "stack: cannot read %s\n", name);
        exit(2);
    }
    fclose(file);
}

int main(int argc, char **argv) {
    if (argc != 4) {
        fprintf(stderr, "usage: stack SITE FOODS BOOK\n");
        return 2;
    }
    fill(argv[1], site, sizeof site);
    fill(argv[2], foods, sizeof foods);
    fill(argv[3], book, sizeof book);
    if (jurengate_site_to_edition_2(site, sizeof site, second_edition, sizeof second_edition) != JURENGATE_ACCEPTED) {
        fprintf(stderr, "stack: %s is not of edition 1\n", argv[1]);
        return 2;
    }
    size_t thread = peak(nothing);
    struct { const char *name; void (*call)(void); } calls[] = {
        {"read_site", read_site}, {"read_book", read_book}, {"write_block", write_block},
        {"birth", birth}, {"month", month}, {"run", run},
        {"read_foods", read_foods}, {"birth_foods", birth_foods}, {"month_foods", month_foods}, {"run_foods", run_foods},
        {"read_places", read_places}, {"site_to_edition_2", site_to_edition_2}, {"site_to_edition_1", site_to_edition_1},
        {"card_row", card_row}, {"card_group", card_group},
    };
    for (size_t i = 0; i < sizeof calls / sizeof calls[0]; i++) {
        printf("%s: %zu bytes of stack", calls[i].name, peak(calls[i].call) - thread);
        printf(", refusal %u\n", (unsigned)refusal);
    }
    return 0;
}
