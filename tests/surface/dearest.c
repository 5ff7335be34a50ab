/*
 * The dearest panel, through the header alone: what it needs, for sizes and blurs about every bound; that the block
 * shown is a panel with the very bits of that blur, which is forecast and played with just that much and joins a show
 * under another priority; and that the call writes those 512 bytes and no byte beside them, and nothing where it is
 * refused.
 */
#include <stdio.h>
#include <stdlib.h>

#include "tiglostrema.h"

enum { SIDE = TIGLOSTREMA_MAX_SIDE, PIXELS = SIDE * SIDE, SCRATCH = 3 * PIXELS, GUARD = 64 };

/* Blurs by their bits. At 2.5 and at 9 the cells become larger. */
#define MINUS_ZERO 0x80000000u
#define LEAST 0x00000001u /* the least float above 0 */
#define TWO_AND_A_HALF 0x40200000u
#define NINE 0x41100000u
#define MOST 0x42800000u /* 64 */
#define ENDLESS 0x7F800000u
#define NOT_A_NUMBER 0x7FC00000u

/* The block that is lent, between guards. */
struct lent {
    uint8_t below[GUARD], block[TIGLOSTREMA_BLOCK_LEN], above[GUARD];
};

static struct lent lent, old;
static uint32_t canvas[PIXELS];
static uint8_t a[SCRATCH], b[SCRATCH];

static void fail(const char *words) {
    printf(": %s\n", words);
    exit(1);
}

static float of_bits(uint32_t bits) {
    float f;
    memcpy(&f, &bits, sizeof f);
    return f;
}

/* Asks for the panel. What the call may not write is as it was. */
static uint64_t ask(uint32_t width, uint32_t height, uint32_t blur) {
    memset(&lent, 0xA5, sizeof lent);
    memcpy(&old, &lent, sizeof lent);
    uint64_t answer = tiglostrema_dearest(width, height, of_bits(blur), lent.block);
    if (tiglostrema_cause_of(answer) == TIGLOSTREMA_DONE) memcpy(old.block, lent.block, sizeof old.block);
    if (memcmp(&old, &lent, sizeof lent) != 0) fail("something was written that may not be");
    return answer;
}

/* The block is what the header's writer makes of the same fields, with its check, and has the very bits of the blur. */
static void is_written_alike(uint32_t blur) {
    uint8_t body[TIGLOSTREMA_BODY_LEN], block[TIGLOSTREMA_BLOCK_LEN], bits[sizeof blur];
    struct tiglostrema_glass glass = tiglostrema_default_glass();
    glass.rect.w = glass.rect.h = SIDE;
    glass.blur = of_bits(blur);
    glass.clip.x0 = glass.clip.y0 = 0;
    glass.clip.x1 = glass.clip.y1 = SIDE;
    tiglostrema_write_glass(body, &glass);
    if (tiglostrema_add(block, sizeof block, 0, body) != 1) fail("the writer's block is refused");
    if (memcmp(lent.block, block, sizeof block) != 0) fail("the writer's block is another one");
    tiglostrema_put32_(bits, blur);
    if (memcmp(lent.block + TIGLOSTREMA_AT_BLUR, bits, sizeof bits) != 0) fail("the blur has other bits");
}

/* The panel's forecast is the need, three bytes a cell, and a box that is the whole canvas. */
static void is_forecast(uint32_t width, uint32_t height, uint32_t need) {
    int32_t boxes[TIGLOSTREMA_BOXES_LEN];
    uint64_t totals[TIGLOSTREMA_TOTALS_LEN];
    uint64_t answer = tiglostrema_forecast(lent.block, sizeof lent.block, width, height, NULL, 0, boxes, totals);
    if (answer != 1) fail("its forecast is refused");
    if (totals[TIGLOSTREMA_TOTAL_SCRATCH] != need) fail("its forecast needs something else");
    if (3 * totals[TIGLOSTREMA_TOTAL_CELLS] != need) fail("its cells are no third of the need");
    if (boxes[0] != 0 || boxes[1] != 0 || boxes[2] != (int32_t)width || boxes[3] != (int32_t)height)
        fail("its box is not the canvas");
}

static uint64_t play(uint32_t width, uint32_t height, size_t a_len, size_t b_len) {
    return tiglostrema_play(lent.block, sizeof lent.block, width, height, canvas, (size_t)width * height, NULL, 0,
        NULL, 0, a, a_len, b, b_len);
}

/* The panel is played with so many bytes, and with one less in either slice it is refused by cause 11. */
static void is_played(uint32_t width, uint32_t height, uint32_t need) {
    uint64_t too_short = (uint64_t)TIGLOSTREMA_SHORT_SCRATCH << 32;
    if (play(width, height, need, need) != 1) fail("it is not played");
    if (play(width, height, need - 1, need) != too_short) fail("it is played with a byte less in the first slice");
    if (play(width, height, need, need - 1) != too_short) fail("it is played with a byte less in the second slice");
}

/* What the panel needs; all that is promised of it holds. */
static void needs(uint32_t width, uint32_t height, uint32_t blur) {
    printf("blur %.9g on %ux%u", (double)of_bits(blur), (unsigned)width, (unsigned)height);
    uint64_t answer = ask(width, height, blur);
    if (tiglostrema_cause_of(answer) != TIGLOSTREMA_DONE) fail("refused");
    uint32_t need = tiglostrema_value_of(answer);
    printf(": %u bytes", (unsigned)need);
    is_written_alike(blur);
    is_forecast(width, height, need);
    is_played(width, height, need);
    puts("");
}

/* The call is refused, and 0 stands beside the cause. */
static void refused(uint32_t width, uint32_t height, uint32_t blur) {
    printf("blur %08X on %ux%u", (unsigned)blur, (unsigned)width, (unsigned)height);
    uint64_t answer = ask(width, height, blur);
    if (tiglostrema_cause_of(answer) == TIGLOSTREMA_DONE) fail("taken");
    if (tiglostrema_value_of(answer) != 0) fail("something stands beside the cause");
    printf(": refused by %u\n", (unsigned)tiglostrema_cause_of(answer));
}

static void worked(void) {
    needs(1, 1, 0);
    needs(5, 5, TWO_AND_A_HALF);
    needs(5, 5, TWO_AND_A_HALF - 1);
    needs(5, 5, NINE);
    needs(5, 5, NINE - 1);
    needs(SIDE, SIDE, 0);
    needs(1920, 1080, NINE);
}

/* The narrowest canvases, on which a panel with the canvas's own sides would not be painted, for cells of each size. */
static void sizes(void) {
    static const uint32_t sides[] = {2, 3, 4, 5, SIDE - 1, SIDE}, blurs[] = {0, TWO_AND_A_HALF, NINE};
    for (int k = 0; k < 3; k++) {
        needs(1, 1, blurs[k]);
        for (int i = 0; i < 6; i++) {
            needs(1, sides[i], blurs[k]);
            needs(sides[i], 1, blurs[k]);
        }
    }
}

static void blurs(void) {
    static const uint32_t bits[] = {0, MINUS_ZERO, LEAST, TWO_AND_A_HALF + 1, NINE + 1, MOST - 1, MOST};
    for (int i = 0; i < 7; i++) needs(5, 3, bits[i]);
}

static void wrong_sizes(void) {
    static const uint32_t wrong[] = {0, SIDE + 1, 65536, UINT32_MAX};
    for (int i = 0; i < 4; i++) {
        refused(wrong[i], 1, 0);
        refused(1, wrong[i], 0);
        refused(wrong[i], wrong[i], 0);
    }
}

/* Out of its range on both sides, and no number, of either sign; and where the size is wrong as well. */
static void wrong_blurs(void) {
    static const uint32_t wrong[] = {MOST + 1, ENDLESS - 1, ENDLESS, ENDLESS + 1, NOT_A_NUMBER, UINT32_MAX,
        MINUS_ZERO + LEAST, MINUS_ZERO + MOST, MINUS_ZERO + ENDLESS, MINUS_ZERO + NOT_A_NUMBER};
    for (int i = 0; i < 10; i++) refused(5, 5, wrong[i]);
    refused(5, SIDE + 1, NOT_A_NUMBER);
    refused(0, 5, MOST + 1);
}

static void told(const char *name, uint64_t answer) {
    uint32_t cause = tiglostrema_cause_of(answer), value = tiglostrema_value_of(answer);
    if (cause == TIGLOSTREMA_DONE) printf("%s: %u layers\n", name, (unsigned)value);
    else printf("%s: refused by %u, block %u\n", name, (unsigned)cause, (unsigned)value);
}

/* The panel joins a show that holds its own priority, under another one. */
static void added(void) {
    static const uint32_t table[TIGLOSTREMA_SOURCE_WORDS] = {2, 1};
    uint8_t show[2 * TIGLOSTREMA_BLOCK_LEN], body[TIGLOSTREMA_BODY_LEN];
    int32_t boxes[TIGLOSTREMA_BOXES_LEN];
    uint64_t totals[TIGLOSTREMA_TOTALS_LEN];
    struct tiglostrema_straight copy = tiglostrema_default_straight();
    tiglostrema_write_straight(body, &copy);
    told("a copy", tiglostrema_add(show, sizeof show, 0, body));
    ask(5, 5, NINE);
    told("the panel, with the copy's priority", tiglostrema_add(show, sizeof show, 1, lent.block));
    memcpy(body, lent.block, sizeof body);
    tiglostrema_put16_(body + TIGLOSTREMA_AT_PRIORITY, 40);
    told("the panel, with another one", tiglostrema_add(show, sizeof show, 1, body));
    told("the show's forecast", tiglostrema_forecast(show, sizeof show, 5, 5, table, sizeof table / sizeof *table,
        boxes, totals));
    printf("it needs %u bytes\n", (unsigned)totals[TIGLOSTREMA_TOTAL_SCRATCH]);
}

int main(void) {
    worked();
    sizes();
    blurs();
    wrong_sizes();
    wrong_blurs();
    added();
    return 0;
}
