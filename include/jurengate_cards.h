/* Jurengate: the rows of a batch card, the text of a community survey. Link libjurengate_cards.a, alone or beside libjurengate.a.
 *
 * A site file, a rate book and rows of the text go in; the blood lead of each row's child at its age comes out. card_row takes one
 * row; card_group takes up to 64 rows of a text and reads the files once for them all. A row's figures take the place of the site
 * file's at all ages; what the row leaves out is the site file's own. docs/FORMAT.md has the text and the files; the names of
 * refusals and the sizes of files are those of jurengate.h, which this header includes. Blood lead is in thousandths of ug/dL.
 * C99, and C++ from C++11 on.
 *
 * THE TEXT. JURENGATE_CARD_HEADINGS heading lines of any content, then rows. A row ends at a line feed (byte 10) or at the end of
 * the text; nothing after the last line feed is no row, and an empty line is one. A row is JURENGATE_CARD_FIELDS fields of at most
 * JURENGATE_CARD_FIELD_BYTES bytes each, parted by spaces (byte 32) alone; a tab or a carriage return belongs to a field. There
 * may be any number of spaces, before the first field and behind the last too, so that a row may have any length.
 *
 * For card_row the caller cuts the text: a row is handed in without its line feed, and one that is handed in is a byte like the
 * others. card_group cuts it itself; the caller passes over the headings, and hands in what is behind them.
 *
 * A figure is digits, then at most a point and one to three digits; a whole figure has no point. No sign, no comma, no `.5`, no
 * `5.`. An asterisk alone stands for a missing figure, in any field but ID, where it is text.
 *
 * CALLS. Nothing has to be checked before a call: it takes bytes of any length and content. A row is accepted or has the first
 * refusal that holds. They are tried in this order:
 *
 *   the files     1 of site file or book, the site file's 3 to 7 and 13, with foods the block's 1, 3 to 6, 10 and 11, the book's
 *                 3 to 6 and 8
 *   the text      12: not twelve fields, a field over 8 bytes, or no figure where one is due
 *   skipped       AGE missing or outside 1 to 84, or SOIL and DUST both missing: accepted, without a blood figure
 *   the figures   7: one of the row's own over its limit
 *   the child     birth's 22, then 9 and 22 month by month up to AGE; what a later month would be refused with does not matter
 *
 * THE CHILD has the site file's figures, changed so. Soil, dust, air and alternate lead are the row's at all seven ages; constant
 * water and the absorptions of soil and dust are the row's. Dust mode and water mode are 0, whatever the site file says and even
 * if the row has no figure there. If one of SOIL and DUST is missing, it is the other's figure. If WATER, AIR, OTHER, ABSSOIL or
 * ABSDUST is missing, the site file's own stays, age by age. FAM, BLOCK and PBB must be figures or asterisks, and change nothing.
 * The places of a site file of edition 2 stay with their shares and figures: DUST is the house's.
 *
 * A GROUP is the first JURENGATE_GROUP_ROWS rows of a text, or all of them if they are fewer; rows that are skipped or refused
 * count among them. Each row has the answer that card_row gives for it alone, in every case: a refused row stops no other, and a
 * refusal of the files is every row's. A longer text goes in groups, each from where the last one has ended:
 *
 *   for (size_t from = 0; from < length; from += next) {
 *       uint32_t taken = jurengate_card_group(.., text + from, length - from, answers, &decodes, &next);
 *       for (uint32_t row = 0; row < taken; row++) {
 *           .. answers[2 * row] says what answers[2 * row + 1] is
 *       }
 *   }
 *
 * What a group costs in reads of the card is told, so that the card's wear can be reckoned: the count of blocks of the book that
 * were decoded, to check them and to run by them. Only decoding a block raises it, each time by one. It is exactly
 * JURENGATE_BOOK_BLOCKS if the book is accepted, whatever the rows say and if there are none; n + 1 if block n is refused, the
 * first that does not pass; and 0 on a refusal before the book's blocks: a wrong length of site file or book, the site file's 3 to
 * 7 and 13, the foods block's own. Each group of a longer text reads the book anew, so a text costs the sum of its groups' counts.
 *
 * MEMORY. No pointer may be null, not even that of an empty file, row or text, or of foods that are not there: with length 0 it
 * may be any other address that its type allows, and nothing is read there. Bytes may lie anywhere; *blood, answers, *decodes and
 * *next must be aligned as their types are. The memory that a call fills (blood and skipped; answers, decodes and next) may not
 * overlap each other or anything else that is handed in; files, row and text are only read, and may. Nothing outside the lent
 * memory is written. The calls keep nothing, use no heap and have no static data, so that calls with memory of their own may run
 * at the same time, in threads or interrupts; they may share their files and their text.
 *
 * STACK. Each call stays within its JURENGATE_STACK_ bytes: that is tested, not proved. They are what was measured
 * (docs/MEASURED.md) and a tenth of it. A group has all its children on the stack at once: it is a desktop's job first, but it
 * fits the box, and leaves half of its memory for the files and the text. Every call returns, and none calls back.
 *
 * LINKING. The library needs memcpy and memset from the C library, and nothing else; beside libjurengate.a it may stand before or
 * behind it. It is x86-64 Linux object code today; the stack figures are of it.
 */
#ifndef JURENGATE_CARDS_H
#define JURENGATE_CARDS_H

#include <stdbool.h>
#include <stddef.h>
#include <stdint.h>

#include "jurengate.h"

/* The version of this interface; its parts rise as those of jurengate.h do. */
#define JURENGATE_CARDS_VERSION_MAJOR 0
#define JURENGATE_CARDS_VERSION_MINOR 3
#define JURENGATE_CARDS_VERSION_PATCH 0

/* The text. */
#define JURENGATE_CARD_HEADINGS 3    /* lines before the first row */
#define JURENGATE_CARD_FIELDS 12     /* fields of a row */
#define JURENGATE_CARD_FIELD_BYTES 8 /* the longest field, ID too */

/* A group. */
#define JURENGATE_GROUP_ROWS 64     /* its rows at most */
#define JURENGATE_GROUP_ANSWERS 128 /* the numbers that it fills at most: two a row */

/* Bytes of stack that suffice for each call, memcpy and memset included. */
#define JURENGATE_STACK_CARD_ROW 15250
#define JURENGATE_STACK_CARD_GROUP 31020

/* What a row answers beside the refusals of jurengate.h. JURENGATE_FIELD_OUTSIDE_LIMITS is the site file's, or a figure of the
 * row over the limit that stands below. */
enum jurengate_card_refusal {
    JURENGATE_CARD_TEXT_WRONG = 12 /* not twelve fields, a field over 8 bytes, or no figure where one is due */
};

/* The first number of a row's two in a group's answers: it says what the second is. */
enum jurengate_group_kind {
    JURENGATE_GROUP_BLOOD = 0,   /* the blood at AGE */
    JURENGATE_GROUP_SKIPPED = 1, /* 0: the row is skipped */
    JURENGATE_GROUP_REFUSED = 2  /* the number of the row's refusal: 1, 3 to 13 or 22 */
};

/* Places of a row's fields. */
enum jurengate_card_place {
    JURENGATE_CARD_ID = 0,       /* any text without a space */
    JURENGATE_CARD_FAM = 1,      /* family; changes nothing */
    JURENGATE_CARD_BLOCK = 2,    /* neighbourhood; changes nothing */
    JURENGATE_CARD_AGE = 3,      /* months, whole; skipped outside 1 to 84 */
    JURENGATE_CARD_SOIL = 4,     /* lead in soil, ug/g; at most 50,000 */
    JURENGATE_CARD_DUST = 5,     /* lead in house dust, ug/g; at most 50,000 */
    JURENGATE_CARD_WATER = 6,    /* lead in water, ug/L; at most 10,000 */
    JURENGATE_CARD_AIR = 7,      /* lead in outdoor air, ug/m3; at most 100 */
    JURENGATE_CARD_OTHER = 8,    /* lead eaten otherwise, ug a day; at most 1,000 */
    JURENGATE_CARD_PBB = 9,      /* blood lead as it was measured; changes nothing */
    JURENGATE_CARD_ABSSOIL = 10, /* of soil lead absorbed, %, whole; at most 100 */
    JURENGATE_CARD_ABSDUST = 11  /* of dust lead absorbed, %, whole; at most 100 */
};

#ifdef __cplusplus
extern "C" {
#endif

/* One row of a card over a site file, a rate book and, if has_foods, a foods block, whose diet takes the place of the site file's;
 * without has_foods its bytes are not looked at, and with it an empty one has a wrong length (1). An accepted row gives its blood
 * at AGE and skipped false; a skipped one answers JURENGATE_ACCEPTED with blood 0 and skipped true; a refused one (1, 3 to 13, 22)
 * leaves blood 0 and skipped false. What blood held before does not matter; skipped has to hold false or true. */
uint32_t jurengate_card_row(const uint8_t *site, size_t site_len, bool has_foods, const uint8_t *foods, size_t foods_len,
                            const uint8_t *book, size_t book_len, const uint8_t *row, size_t row_len,
                            uint32_t *blood, bool *skipped);

/* A group of rows over the same files as above: the first JURENGATE_GROUP_ROWS of a text without headings. It answers how many rows
 * it took, 0 to 64; no number of its answer is a refusal. The first two numbers of answers are those of the text's first row, the
 * next two those of its second, and so on; those behind the last row that was taken are kept as they were. *decodes is how many
 * blocks of the book were decoded, and *next where in the text the first row that was not taken starts, or the text's length if
 * there is none; both are filled in every case. What the memory held before does not matter. */
uint32_t jurengate_card_group(const uint8_t *site, size_t site_len, bool has_foods, const uint8_t *foods, size_t foods_len,
                              const uint8_t *book, size_t book_len, const uint8_t *rows, size_t rows_len,
                              uint32_t answers[JURENGATE_GROUP_ANSWERS], uint32_t *decodes, size_t *next);

#ifdef __cplusplus
}
#endif

#endif
