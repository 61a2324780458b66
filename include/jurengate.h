/* Jurengate: the IEUBK lead model in whole numbers, for firmware. Link libjurengate.a.
 *
 * A site file and a rate book go in; a child's blood lead at the end of months 1 to 84 comes out. The calls that end in _foods take
 * a foods block too, and reckon the diet from it and not from the site file's diet figures. docs/FORMAT.md has all three byte by
 * byte. Lead is in pg, blood lead in thousandths of ug/dL. C99, and C++ from C++11 on. The rows of a survey's text have a library
 * of their own: jurengate_cards.h.
 *
 * CALLS. Nothing has to be checked before a call: it takes bytes of any length and content, and any numbers as a state, and answers
 * JURENGATE_ACCEPTED or the first refusal that holds. They are tried in this order:
 *
 *   read_site     1, 3, 4, 5, 6, 7, 13; read_places the same
 *   read_foods    1, 3, 4, 5, 6, 10, 11
 *   read_book     1, then 3, 4, 5, 6, 8 of block 0, of block 1, .. of block 16
 *   write_block   1
 *   birth         1 of either file, the site file's 3 to 7 and 13, the book's 3 to 6 and 8, 22
 *   month         1 of either file, the site file's 3 to 7 and 13, the book's 3 to 6 and 8, 20, 21, 9, 22
 *   run           1 of either file, 2, the site file's 3 to 7 and 13, the book's 3 to 6 and 8, birth's 22, then 9 and 22 month by
 *                 month
 *
 * birth_foods, month_foods and run_foods try 1 of site file or book first, and the foods block's 1, 3 to 6, 10 and 11 between the
 * site file's 13 and the book's 3; all else is in the order of birth, month and run.
 *
 *   site_to_edition_2   1 of site file or target, 3, 4, 5, 6, 7
 *   site_to_edition_1   1 of site file or target, 3, 4, 5, 6, 7, 13, 14
 *
 * EDITIONS. A site file is of edition 1 or 2, and every call but the two converters takes either. Edition 2 has five places away
 * from home as well: work, school, daycare, second home and other, each with its share of the dust that the child eats and its own
 * dust figure; the house has what is left of 100. The house's figure is that of edition 1, by the dust mode; the places count in
 * both modes. A file of edition 1 has five places without share and dust: what birth, month and run answer for it, they answer for
 * the same file converted to edition 2. Foods block and book have edition 1.
 *
 * MONTH BY MONTH. Nothing is kept between calls: the state is all that goes from one month to the next. Each month call may have
 * another site file and another book (a yard cleaned, a family moved), and a foods block of its own or none; the run has the same
 * files for all its months. After an accepted birth, month calls with the same files, up to the first that is refused, answer what
 * the run answers; so do those with foods and the run with foods. A state may be stored and handed in again; a changed one is
 * refused with 20 only if it is no state at all. The all-zero state that a refused birth leaves is one: month 0, no lead. So look
 * at birth's answer before the first month.
 *
 * MEMORY. No pointer may be null, not even that of an empty file or list: with length 0 it may be any other address that its type
 * allows, and nothing is read or written there. Bytes may lie anywhere; the uint32_t and uint64_t memory must be aligned as its
 * type is. Memory that a call fills may not overlap any other that it is handed; the files are only read, and may. Nothing
 * outside the lent memory is written. The calls use no heap and have no static data, so that calls with memory of their own may
 * run at the same time, in threads or interrupts; they may share their files.
 *
 * STACK. Each call stays within its JURENGATE_STACK_ bytes: that is tested, not proved. They are what was measured
 * (docs/MEASURED.md) and a tenth of it, 256 bytes at least. Every call returns, and none calls back.
 *
 * LINKING. The library needs memcpy and memset from the C library, and nothing else. It is x86-64 Linux object code today; the
 * stack figures are of it.
 */
#ifndef JURENGATE_H
#define JURENGATE_H

#include <stddef.h>
#include <stdint.h>

/* The version of this interface. MAJOR rises if a firmware has to change: a declaration, the meaning of a name, or an answer of
 * a call; while it is 0, MINOR does. MINOR rises if something is added, PATCH if neither is so. Files have an edition. */
#define JURENGATE_VERSION_MAJOR 0
#define JURENGATE_VERSION_MINOR 3
#define JURENGATE_VERSION_PATCH 0

/* The files. */
#define JURENGATE_BLOCK_BYTES 512    /* a block */
#define JURENGATE_BODY_BYTES 508     /* a block without its check: what the writer takes */
#define JURENGATE_EDITION 1          /* the edition of every block but a site file that has places */
#define JURENGATE_PLACES_EDITION 2   /* the edition of a site file that has places */
#define JURENGATE_SITE_BYTES 512     /* a site file: one block */
#define JURENGATE_SITE_FIELDS 94     /* its fields, in both editions */
#define JURENGATE_SITE_PLACES 10     /* the figures of its five places: a share and a dust figure each */
#define JURENGATE_AGES 7             /* ages 0 to 6, for which a site file has ten fields each */
#define JURENGATE_FOODS_BYTES 512    /* a foods block */
#define JURENGATE_FOODS 15           /* its foods, for each of which it has grams at each age, and a lead figure */
#define JURENGATE_FOODS_FIGURES 128  /* its figures: 105 grams, 15 leads, and shares and leads of four local foods */
#define JURENGATE_BOOK_BYTES 8704    /* a rate book */
#define JURENGATE_BOOK_BLOCKS 17     /* its blocks */
#define JURENGATE_BLOCK_ROWS 5       /* rows of a block */
#define JURENGATE_ROWS 85            /* rows of a book: months 0 to 84 */
#define JURENGATE_ROW_NUMBERS 23     /* numbers of a row */
#define JURENGATE_TABLE_NUMBERS 1955 /* numbers of a book: row m's from JURENGATE_ROW_NUMBERS * m on */

/* The child. */
#define JURENGATE_MONTHS 84      /* months of a run, and blood figures of its list */
#define JURENGATE_STATE_WORDS 11 /* words of a state */

/* Limits. */
#define JURENGATE_RATE_UNIT 100000000                      /* D: a book's rates are in units of 1/D a step */
#define JURENGATE_INTAKE_MOST 1000000000                   /* pg a day of air, water, soil, dust or foods */
#define JURENGATE_BURDEN_MOST UINT64_C(50000000000)        /* pg in the seven compartments, a step's uptake included */
#define JURENGATE_MONTH_UPTAKE_MOST UINT64_C(180000000000) /* pg that a month can bring */
#define JURENGATE_BLOOD_MOST 50000000                      /* the largest blood figure, thousandths of ug/dL */

/* Bytes of stack that suffice for each call, memcpy and memset included. */
#define JURENGATE_STACK_READ_SITE 2384
#define JURENGATE_STACK_READ_BOOK 360
#define JURENGATE_STACK_WRITE_BLOCK 272
#define JURENGATE_STACK_BIRTH 14820
#define JURENGATE_STACK_MONTH 15160
#define JURENGATE_STACK_RUN 15120
#define JURENGATE_STACK_READ_FOODS 384
#define JURENGATE_STACK_BIRTH_FOODS 14840
#define JURENGATE_STACK_MONTH_FOODS 15180
#define JURENGATE_STACK_RUN_FOODS 15160
#define JURENGATE_STACK_READ_PLACES 1650
#define JURENGATE_STACK_SITE_TO_EDITION_2 2200
#define JURENGATE_STACK_SITE_TO_EDITION_1 2080

/* What a call answers. JURENGATE_NO_STATE: the month is over 84, the compartments are together over JURENGATE_BURDEN_MOST, or these
 * and the ledgers together over JURENGATE_BURDEN_MOST + month * JURENGATE_MONTH_UPTAKE_MOST. */
enum jurengate_refusal {
    JURENGATE_ACCEPTED = 0,
    JURENGATE_WRONG_LENGTH = 1,         /* site file, foods block, book, writer's body, or a target */
    JURENGATE_WRONG_LIST_LENGTH = 2,    /* the run's list is not 84 long */
    JURENGATE_CHECK_WRONG = 3,          /* of a block */
    JURENGATE_EDITION_WRONG = 4,        /* of a block, not 1; of a site file, neither 1 nor 2, or not the one to be converted */
    JURENGATE_NUMBER_WRONG = 5,         /* of a block, not the one due there */
    JURENGATE_RESERVED_NOT_ZERO = 6,    /* a byte behind a block's fields, and behind the places of edition 2 */
    JURENGATE_FIELD_OUTSIDE_LIMITS = 7, /* a site field, used or not, the sum of the two water shares, or a figure of a place */
    JURENGATE_ROW_OUTSIDE_LIMITS = 8,   /* a row of the book */
    JURENGATE_INTAKE_TOO_LARGE = 9,     /* air, water, soil, dust or diet by foods over JURENGATE_INTAKE_MOST at the month's age */
    JURENGATE_SHARES_TOO_LARGE = 10,    /* of a foods block: fish and game over 100 together, or another share over 100 */
    JURENGATE_FOOD_OUTSIDE_LIMITS = 11, /* grams or a lead figure of a foods block */
    JURENGATE_PLACES_OVER_100 = 13,     /* the shares of a site file's five places together */
    JURENGATE_SHARE_ABOVE_0 = 14,       /* of a place, in a file to be converted to edition 1 */
    JURENGATE_NO_STATE = 20,            /* what was handed in is none */
    JURENGATE_LAST_MONTH_DONE = 21,     /* the state's month is 84 */
    JURENGATE_BURDEN_TOO_LARGE = 22     /* compartments plus uptake over JURENGATE_BURDEN_MOST, at birth or at some step */
};

/* Places of a site file's fields. The first ten are for age 0; the same for another age stands at the place plus the age. */
enum jurengate_site_place {
    JURENGATE_SITE_AIR = 0,                 /* lead in outdoor air, pg/m3; at most 100,000,000 */
    JURENGATE_SITE_HOURS_OUT = 7,           /* hours out of doors a day; at most 24 */
    JURENGATE_SITE_BREATHING = 14,          /* air breathed, litres a day; at most 100,000 */
    JURENGATE_SITE_AIR_ABSORBED = 21,       /* of breathed lead, %; at most 100 */
    JURENGATE_SITE_DIET = 28,               /* lead eaten in food, pg a day; at most 1,000,000,000 */
    JURENGATE_SITE_WATER_AMOUNT = 35,       /* water drunk, mL a day; at most 10,000 */
    JURENGATE_SITE_SOIL = 42,               /* lead in soil, thousandths of ug/g; at most 50,000,000 */
    JURENGATE_SITE_DUST = 49,               /* lead in house dust if the dust mode is 0, thousandths of ug/g; at most 50,000,000 */
    JURENGATE_SITE_EATEN = 56,              /* soil and dust eaten, mg a day; at most 1,000 */
    JURENGATE_SITE_ALTERNATE = 63,          /* lead eaten otherwise, pg a day; at most 1,000,000,000 */
    JURENGATE_SITE_INDOOR = 70,             /* indoor air lead, % of outdoor; at most 100 */
    JURENGATE_SITE_WEIGHT_SOIL = 71,        /* soil in soil and dust eaten, %; at most 100 */
    JURENGATE_SITE_CONTRIBUTION = 72,       /* of soil to dust, hundredths; at most 100 */
    JURENGATE_SITE_AIR_TO_DUST = 73,        /* ug/g of dust for each ug/m3 of air; at most 10,000 */
    JURENGATE_SITE_DUST_MODE = 74,          /* 0 dust as given, 1 from soil and air; at most 1 */
    JURENGATE_SITE_WATER_MODE = 75,         /* 0 constant, 1 flushed, first draw and fountain; at most 1 */
    JURENGATE_SITE_WATER = 76,              /* lead in constant water, pg/mL; at most 10,000,000 */
    JURENGATE_SITE_FLUSHED = 77,            /* lead in flushed water, pg/mL; at most 10,000,000 */
    JURENGATE_SITE_FIRST_DRAW = 78,         /* lead in first-draw water, pg/mL; at most 10,000,000 */
    JURENGATE_SITE_FOUNTAIN = 79,           /* lead in fountain water, pg/mL; at most 10,000,000 */
    JURENGATE_SITE_FIRST_DRAW_SHARE = 80,   /* hundredths; at most 100, with the fountain's too */
    JURENGATE_SITE_FOUNTAIN_SHARE = 81,     /* hundredths; at most 100, with the first draw's too */
    JURENGATE_SITE_ABSORBED_DIET = 82,      /* %; at most 100 */
    JURENGATE_SITE_ABSORBED_WATER = 83,     /* %; at most 100 */
    JURENGATE_SITE_ABSORBED_DUST = 84,      /* %; at most 100 */
    JURENGATE_SITE_ABSORBED_SOIL = 85,      /* %; at most 100 */
    JURENGATE_SITE_ABSORBED_ALTERNATE = 86, /* %; at most 100 */
    JURENGATE_SITE_PASSIVE_DIET = 87,       /* %; at most 100 */
    JURENGATE_SITE_PASSIVE_WATER = 88,      /* %; at most 100 */
    JURENGATE_SITE_PASSIVE_DUST = 89,       /* %; at most 100 */
    JURENGATE_SITE_PASSIVE_SOIL = 90,       /* %; at most 100 */
    JURENGATE_SITE_PASSIVE_ALTERNATE = 91,  /* %; at most 100 */
    JURENGATE_SITE_SATURATION = 92,         /* of the gut at 24 months, pg a day; at least 1,000,000, at most 500,000,000 */
    JURENGATE_SITE_MOTHER = 93              /* mother's blood lead, thousandths of ug/dL; at most 100,000 */
};

/* Where the figures of a site file's five places stand in what read_places fills; all are 0 in edition 1. The five shares are at
 * most 100 together. */
enum jurengate_place_figure {
    JURENGATE_PLACE_WORK_SHARE = 0,        /* of the dust eaten, hundredths; at most 100 */
    JURENGATE_PLACE_WORK_DUST = 1,         /* lead in its dust, thousandths of ug/g; at most 50,000,000 */
    JURENGATE_PLACE_SCHOOL_SHARE = 2,      /* of the dust eaten, hundredths; at most 100 */
    JURENGATE_PLACE_SCHOOL_DUST = 3,       /* lead in its dust, thousandths of ug/g; at most 50,000,000 */
    JURENGATE_PLACE_DAYCARE_SHARE = 4,     /* of the dust eaten, hundredths; at most 100 */
    JURENGATE_PLACE_DAYCARE_DUST = 5,      /* lead in its dust, thousandths of ug/g; at most 50,000,000 */
    JURENGATE_PLACE_SECOND_HOME_SHARE = 6, /* of the dust eaten, hundredths; at most 100 */
    JURENGATE_PLACE_SECOND_HOME_DUST = 7,  /* lead in its dust, thousandths of ug/g; at most 50,000,000 */
    JURENGATE_PLACE_OTHER_SHARE = 8,       /* of the dust eaten, hundredths; at most 100 */
    JURENGATE_PLACE_OTHER_DUST = 9         /* lead in its dust, thousandths of ug/g; at most 50,000,000 */
};

/* Places of a foods block's figures; the fifteen foods are in the order of equations E-4d to E-4r. Their grams are those of age 0;
 * the same for another age stands at the place plus JURENGATE_FOODS * age. */
enum jurengate_foods_place {
    JURENGATE_FOODS_BEVERAGE_GRAMS = 0,          /* g a day; at most 10,000 */
    JURENGATE_FOODS_BREAD_GRAMS = 1,             /* g a day; at most 10,000 */
    JURENGATE_FOODS_CANNED_FRUIT_GRAMS = 2,      /* g a day; at most 10,000 */
    JURENGATE_FOODS_CANNED_VEGETABLE_GRAMS = 3,  /* g a day; at most 10,000 */
    JURENGATE_FOODS_CANDY_GRAMS = 4,             /* g a day; at most 10,000 */
    JURENGATE_FOODS_DAIRY_GRAMS = 5,             /* g a day; at most 10,000 */
    JURENGATE_FOODS_FRESH_FRUIT_GRAMS = 6,       /* g a day; at most 10,000 */
    JURENGATE_FOODS_FRESH_VEGETABLE_GRAMS = 7,   /* g a day; at most 10,000 */
    JURENGATE_FOODS_FORMULA_GRAMS = 8,           /* g a day; at most 10,000 */
    JURENGATE_FOODS_INFANT_FOOD_GRAMS = 9,       /* g a day; at most 10,000 */
    JURENGATE_FOODS_JUICE_GRAMS = 10,            /* g a day; at most 10,000 */
    JURENGATE_FOODS_MEAT_GRAMS = 11,             /* g a day; at most 10,000 */
    JURENGATE_FOODS_NUTS_GRAMS = 12,             /* g a day; at most 10,000 */
    JURENGATE_FOODS_PASTA_GRAMS = 13,            /* g a day; at most 10,000 */
    JURENGATE_FOODS_SAUCE_GRAMS = 14,            /* g a day; at most 10,000 */
    JURENGATE_FOODS_BEVERAGE_LEAD = 105,         /* pg/g; at most 1,000,000 */
    JURENGATE_FOODS_BREAD_LEAD = 106,            /* pg/g; at most 1,000,000 */
    JURENGATE_FOODS_CANNED_FRUIT_LEAD = 107,     /* pg/g; at most 1,000,000 */
    JURENGATE_FOODS_CANNED_VEGETABLE_LEAD = 108, /* pg/g; at most 1,000,000 */
    JURENGATE_FOODS_CANDY_LEAD = 109,            /* pg/g; at most 1,000,000 */
    JURENGATE_FOODS_DAIRY_LEAD = 110,            /* pg/g; at most 1,000,000 */
    JURENGATE_FOODS_FRESH_FRUIT_LEAD = 111,      /* pg/g; at most 1,000,000 */
    JURENGATE_FOODS_FRESH_VEGETABLE_LEAD = 112,  /* pg/g; at most 1,000,000 */
    JURENGATE_FOODS_FORMULA_LEAD = 113,          /* pg/g; at most 1,000,000 */
    JURENGATE_FOODS_INFANT_FOOD_LEAD = 114,      /* pg/g; at most 1,000,000 */
    JURENGATE_FOODS_JUICE_LEAD = 115,            /* pg/g; at most 1,000,000 */
    JURENGATE_FOODS_MEAT_LEAD = 116,             /* pg/g; at most 1,000,000 */
    JURENGATE_FOODS_NUTS_LEAD = 117,             /* pg/g; at most 1,000,000 */
    JURENGATE_FOODS_PASTA_LEAD = 118,            /* pg/g; at most 1,000,000 */
    JURENGATE_FOODS_SAUCE_LEAD = 119,            /* pg/g; at most 1,000,000 */
    JURENGATE_FOODS_HOME_VEGETABLE_SHARE = 120,  /* of the canned and fresh vegetable together, %; at most 100 */
    JURENGATE_FOODS_HOME_FRUIT_SHARE = 121,      /* of the canned and fresh fruit together, %; at most 100 */
    JURENGATE_FOODS_FISH_SHARE = 122,            /* of the meat, %; with game's at most 100 */
    JURENGATE_FOODS_GAME_SHARE = 123,            /* of the meat, %; with fish's at most 100 */
    JURENGATE_FOODS_HOME_VEGETABLE_LEAD = 124,   /* pg/g; at most 1,000,000 */
    JURENGATE_FOODS_HOME_FRUIT_LEAD = 125,       /* pg/g; at most 1,000,000 */
    JURENGATE_FOODS_FISH_LEAD = 126,             /* pg/g; at most 1,000,000 */
    JURENGATE_FOODS_GAME_LEAD = 127              /* pg/g; at most 1,000,000 */
};

/* Places of a row's numbers. Rates are in units of 1/D a step. The six a and au are together at most 64 D; each b, with the c of
 * the same tissue, is at most D. */
enum jurengate_row_place {
    JURENGATE_ROW_BLOOD_VOLUME = 0,     /* VB, thousandths of dL; at least 1,000, at most 60,000 */
    JURENGATE_ROW_PLASMA_VOLUME = 1,    /* VP, thousandths of dL; at least 1, at most VB - 1 */
    JURENGATE_ROW_BODY_WEIGHT = 2,      /* W, g; at least 2,000, at most 50,000 */
    JURENGATE_ROW_KIDNEY = 3,           /* g; at most 50,000 */
    JURENGATE_ROW_LIVER = 4,            /* g; at most 50,000 */
    JURENGATE_ROW_OTHER = 5,            /* other soft tissue, g; at most 50,000 */
    JURENGATE_ROW_TRABECULAR = 6,       /* trabecular bone, g; at most 50,000 */
    JURENGATE_ROW_CORTICAL = 7,         /* cortical bone, g; at most 50,000 */
    JURENGATE_ROW_TO_RED_CELLS = 8,     /* a1, out of plasma; at least 1 */
    JURENGATE_ROW_TO_LIVER = 9,         /* a2 */
    JURENGATE_ROW_TO_KIDNEY = 10,       /* a3 */
    JURENGATE_ROW_TO_OTHER = 11,        /* a4 */
    JURENGATE_ROW_TO_TRABECULAR = 12,   /* a5 */
    JURENGATE_ROW_TO_CORTICAL = 13,     /* a6 */
    JURENGATE_ROW_TO_URINE = 14,        /* au */
    JURENGATE_ROW_FROM_RED_CELLS = 15,  /* b1, back to plasma; at most 100,000,000 */
    JURENGATE_ROW_FROM_LIVER = 16,      /* b2; at most 100,000,000, with c2 too */
    JURENGATE_ROW_FROM_KIDNEY = 17,     /* b3; at most 100,000,000 */
    JURENGATE_ROW_FROM_OTHER = 18,      /* b4; at most 100,000,000, with c4 too */
    JURENGATE_ROW_FROM_TRABECULAR = 19, /* b5; at most 100,000,000 */
    JURENGATE_ROW_FROM_CORTICAL = 20,   /* b6; at most 100,000,000 */
    JURENGATE_ROW_FAECES = 21,          /* c2, liver to faeces; at most 50,000,000 */
    JURENGATE_ROW_SKIN = 22             /* c4, other to skin, hair and nails; at most 50,000,000 */
};

/* Places of a state's words: month, seven compartments, three ledgers. JURENGATE_NO_STATE has the limits of their sums. */
enum jurengate_state_place {
    JURENGATE_STATE_MONTH = 0,      /* months since birth; at most 84 */
    JURENGATE_STATE_PLASMA = 1,     /* with extra-cellular fluid, pg */
    JURENGATE_STATE_RED_CELLS = 2,  /* pg */
    JURENGATE_STATE_LIVER = 3,      /* pg */
    JURENGATE_STATE_KIDNEY = 4,     /* pg */
    JURENGATE_STATE_OTHER = 5,      /* other soft tissue, pg */
    JURENGATE_STATE_TRABECULAR = 6, /* trabecular bone, pg */
    JURENGATE_STATE_CORTICAL = 7,   /* cortical bone, pg */
    JURENGATE_STATE_URINE = 8,      /* pg that has left since birth */
    JURENGATE_STATE_FAECES = 9,     /* pg that has left since birth */
    JURENGATE_STATE_SKIN = 10       /* skin, hair and nails, pg that has left since birth */
};

#ifdef __cplusplus
extern "C" {
#endif

/* Reads a site file of either edition into its fields; zeros if it is refused (1, 3 to 7, 13). */
uint32_t jurengate_read_site(const uint8_t *site, size_t site_len, uint32_t fields[JURENGATE_SITE_FIELDS]);

/* Reads a site file of either edition into the figures of its places, share and dust of each; zeros in edition 1, and if it is
 * refused (1, 3 to 7, 13). */
uint32_t jurengate_read_places(const uint8_t *site, size_t site_len, uint32_t places[JURENGATE_SITE_PLACES]);

/* Reads a foods block into its figures; zeros if it is refused (1, 3 to 6, 10, 11). */
uint32_t jurengate_read_foods(const uint8_t *foods, size_t foods_len, uint32_t figures[JURENGATE_FOODS_FIGURES]);

/* Reads a rate book into its 85 rows of 23 numbers; zeros if it is refused (1, 3 to 6, 8). */
uint32_t jurengate_read_book(const uint8_t *book, size_t book_len, uint32_t table[JURENGATE_TABLE_NUMBERS]);

/* Writes a body of JURENGATE_BODY_BYTES and its check into a target of JURENGATE_BLOCK_BYTES. It looks at the two lengths alone:
 * if one is wrong (1) the target keeps its content. */
uint32_t jurengate_write_block(const uint8_t *body, size_t body_len, uint8_t *target, size_t target_len);

/* Converts a site file of edition 1 into one of edition 2, whose places have no share and no dust, in a target of
 * JURENGATE_SITE_BYTES. The fields stay. If it is refused (1, 3 to 7) the target keeps its content. */
uint32_t jurengate_site_to_edition_2(const uint8_t *site, size_t site_len, uint8_t *target, size_t target_len);

/* Converts a site file of edition 2 into one of edition 1, in a target of JURENGATE_SITE_BYTES. The fields stay; dust figures of
 * places are dropped, and a share above 0 is refused (14). If it is refused (1, 3 to 7, 13, 14) the target keeps its content. */
uint32_t jurengate_site_to_edition_1(const uint8_t *site, size_t site_len, uint8_t *target, size_t target_len);

/* The child at birth, month 0; all zeros if it is refused (1, 3 to 8, 13, 22). */
uint32_t jurengate_birth(const uint8_t *site, size_t site_len, const uint8_t *book, size_t book_len,
                         uint64_t state[JURENGATE_STATE_WORDS]);

/* The month after state's: the state at its end, and its blood figure. If it is refused (1, 3 to 9, 13, 20 to 22) the state
 * keeps its content and the blood figure is 0. */
uint32_t jurengate_month(const uint8_t *site, size_t site_len, const uint8_t *book, size_t book_len,
                         uint64_t state[JURENGATE_STATE_WORDS], uint32_t *blood);

/* Birth and 84 months; blood_len counts figures. As many blood figures are written as months were done; the rest of the list keeps
 * its content. The state is the last month end: month 0 after birth, all zeros without one. If it is refused (1 to 9, 13, 22)
 * months says how many were done before; it is 84 if it is accepted. What state and months held before does not matter. */
uint32_t jurengate_run(const uint8_t *site, size_t site_len, const uint8_t *book, size_t book_len,
                       uint32_t *blood, size_t blood_len, uint64_t state[JURENGATE_STATE_WORDS], uint32_t *months);

/* The same three with a foods block: they answer and fill what those above do, with the diet of the foods in place of the site
 * file's diet figures, which are checked all the same. Birth takes nothing from the foods but their refusals. Birth is refused with
 * 1, 3 to 8, 10, 11, 13, 22; a month with 1, 3 to 11, 13, 20 to 22; the run with 1 to 11, 13, 22. An empty foods block has a
 * wrong length (1): without one, the three calls above are due. */
uint32_t jurengate_birth_foods(const uint8_t *site, size_t site_len, const uint8_t *foods, size_t foods_len,
                               const uint8_t *book, size_t book_len, uint64_t state[JURENGATE_STATE_WORDS]);

uint32_t jurengate_month_foods(const uint8_t *site, size_t site_len, const uint8_t *foods, size_t foods_len,
                               const uint8_t *book, size_t book_len, uint64_t state[JURENGATE_STATE_WORDS], uint32_t *blood);

uint32_t jurengate_run_foods(const uint8_t *site, size_t site_len, const uint8_t *foods, size_t foods_len,
                             const uint8_t *book, size_t book_len, uint32_t *blood, size_t blood_len,
                             uint64_t state[JURENGATE_STATE_WORDS], uint32_t *months);

#ifdef __cplusplus
}
#endif

#endif
