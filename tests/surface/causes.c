/*
 * A refusal of each cause, through the header alone: the right number and the right value beside it, the cause's words
 * (printed, and held to causes.out), and not a byte of what was lent changed.
 */
#include <math.h>
#include <stdio.h>
#include <stdlib.h>

#include "tiglostrema.h"

enum { WIDTH = 4, HEIGHT = 2, PIXELS = WIDTH * HEIGHT, SCRATCH = 3 * PIXELS, BLOCKS = 2 };

/* All that calls are lent, in one piece, so that a changed byte is found wherever it is. */
struct lent {
    uint32_t canvas[PIXELS], table[TIGLOSTREMA_SOURCE_WORDS], pool[2];
    uint8_t rundown[BLOCKS * TIGLOSTREMA_BLOCK_LEN], block[TIGLOSTREMA_BODY_LEN];
    uint8_t a[SCRATCH], b[SCRATCH], map[PIXELS];
    int32_t boxes[TIGLOSTREMA_BOXES_LEN];
    uint64_t totals[TIGLOSTREMA_TOTALS_LEN];
    size_t count; /* blocks at the rundown's front */
};

static struct lent lent, before;

static void fail(const char *words, uint64_t answer) {
    printf("%s: cause %u, value %u\n", words, (unsigned)tiglostrema_cause_of(answer),
        (unsigned)tiglostrema_value_of(answer));
    exit(1);
}

/* Adds the block that was written last. */
static uint64_t add(void) { return tiglostrema_add(lent.rundown, sizeof lent.rundown, lent.count, lent.block); }

static void must_add(void) {
    uint64_t answer = add();
    if (tiglostrema_cause_of(answer) != TIGLOSTREMA_DONE) fail("an add was refused", answer);
    lent.count = tiglostrema_value_of(answer);
}

/* A straight copy of source 0 that nothing refuses. */
static struct tiglostrema_straight copy(uint16_t priority) {
    struct tiglostrema_straight layer = tiglostrema_default_straight();
    layer.priority = priority;
    return layer;
}

/* One exact copy of a source of two pixels; what calls write holds no zeros, so that a change would show. */
static void start(void) {
    memset(&lent, 0xA5, sizeof lent);
    lent.table[0] = 2;
    lent.table[1] = 1;
    lent.count = 0;
    struct tiglostrema_straight layer = copy(7);
    tiglostrema_write_straight(lent.block, &layer);
    must_add();
}

/* Plays the blocks that are held, with lengths that fit. */
static uint64_t play_with(uint32_t width, size_t table_len, size_t rundown_len, size_t b_len) {
    return tiglostrema_play(lent.rundown, rundown_len, width, HEIGHT, lent.canvas, PIXELS, lent.table, table_len,
        lent.pool, 2, lent.a, SCRATCH, lent.b, b_len);
}

static uint64_t begin_with(uint32_t width, size_t table_len, size_t rundown_len, size_t b_len) {
    return tiglostrema_begin(lent.rundown, rundown_len, width, HEIGHT, lent.canvas, PIXELS, lent.table, table_len,
        lent.pool, 2, lent.a, SCRATCH, lent.b, b_len);
}

static uint64_t step_with(uint32_t width, size_t table_len, size_t rundown_len, size_t b_len, uint32_t last) {
    return tiglostrema_step(lent.rundown, rundown_len, width, HEIGHT, lent.canvas, PIXELS, lent.table, table_len,
        lent.pool, 2, lent.a, SCRATCH, lent.b, b_len, last);
}

static uint64_t play(void) {
    return play_with(WIDTH, TIGLOSTREMA_SOURCE_WORDS, lent.count * TIGLOSTREMA_BLOCK_LEN, SCRATCH);
}

static uint64_t step(uint32_t last) {
    return step_with(WIDTH, TIGLOSTREMA_SOURCE_WORDS, lent.count * TIGLOSTREMA_BLOCK_LEN, SCRATCH, last);
}

/* The forecast of the blocks that are held, with lengths that fit. */
static uint64_t forecast_with(uint32_t width, size_t table_len, size_t rundown_len) {
    return tiglostrema_forecast(
        lent.rundown, rundown_len, width, HEIGHT, lent.table, table_len, lent.boxes, lent.totals);
}

static uint64_t forecast(void) {
    return forecast_with(WIDTH, TIGLOSTREMA_SOURCE_WORDS, lent.count * TIGLOSTREMA_BLOCK_LEN);
}

/* What is lent to the call that comes next. */
static void keep(void) { memcpy(&before, &lent, sizeof lent); }

/* The call was refused by this cause, with this value, and has changed nothing. */
static void is_refused(uint64_t answer, uint32_t cause, uint32_t value) {
    if (answer != ((uint64_t)cause << 32 | value)) fail("another answer", answer);
    if (memcmp(&before, &lent, sizeof lent) != 0) fail("refused, but something has changed", answer);
}

/* The same, and it is said. */
static void refused(uint64_t answer, uint32_t cause, uint32_t value) {
    is_refused(answer, cause, value);
    printf("%u: ", (unsigned)cause);
    if (tiglostrema_cause_has_block(cause)) printf("block %u: ", (unsigned)value);
    printf("%s\n", tiglostrema_cause_words(cause));
}

/* A play with these lengths is refused, and a begin and every step alike: the first, one from the lower layer on, and
   one above which there is no layer. */
static void playing_refused(
    uint32_t width, size_t table_len, size_t rundown_len, size_t b_len, uint32_t cause, uint32_t value) {
    static const uint32_t last[] = {TIGLOSTREMA_NONE, 7, 65535};
    refused(play_with(width, table_len, rundown_len, b_len), cause, value);
    is_refused(begin_with(width, table_len, rundown_len, b_len), cause, value);
    for (int i = 0; i < 3; i++)
        is_refused(step_with(width, table_len, rundown_len, b_len, last[i]), cause, value);
}

static void sizes(void) {
    size_t words = TIGLOSTREMA_SOURCE_WORDS, len = lent.count * TIGLOSTREMA_BLOCK_LEN;
    keep();
    playing_refused(WIDTH + 1, words, len, SCRATCH, TIGLOSTREMA_BAD_CANVAS, 0);
    refused(tiglostrema_stain(lent.rundown, len, WIDTH, HEIGHT, lent.table, words, 0, lent.map, PIXELS - 1),
        TIGLOSTREMA_BAD_CANVAS, 0);
    playing_refused(WIDTH, words - 1, len, SCRATCH, TIGLOSTREMA_BAD_SOURCES, 0);
    playing_refused(WIDTH, words, len - 1, SCRATCH, TIGLOSTREMA_BAD_RUNDOWN, 0);
    refused(forecast_with(0, words, len), TIGLOSTREMA_BAD_CANVAS, 0);
    refused(forecast_with(WIDTH, words - 1, len), TIGLOSTREMA_BAD_SOURCES, 0);
    refused(forecast_with(WIDTH, words, len - 1), TIGLOSTREMA_BAD_RUNDOWN, 0);
}

/* A pool of another length; and the rundown's cause where it is a buffer with a count. */
static void lengths(void) {
    keep();
    refused(tiglostrema_play(lent.rundown, lent.count * TIGLOSTREMA_BLOCK_LEN, WIDTH, HEIGHT, lent.canvas, PIXELS,
        lent.table, TIGLOSTREMA_SOURCE_WORDS, lent.pool, 1, lent.a, SCRATCH, lent.b, SCRATCH),
        TIGLOSTREMA_BAD_SOURCES, 0);
    refused(tiglostrema_add(lent.rundown, TIGLOSTREMA_BLOCK_LEN - 1, lent.count, lent.block),
        TIGLOSTREMA_BAD_RUNDOWN, 0);
    refused(tiglostrema_remove(lent.rundown, sizeof lent.rundown, SIZE_MAX, 7), TIGLOSTREMA_BAD_RUNDOWN, 0);
}

static void check(void) {
    lent.rundown[TIGLOSTREMA_AT_CHECK] ^= 1;
    keep();
    playing_refused(
        WIDTH, TIGLOSTREMA_SOURCE_WORDS, lent.count * TIGLOSTREMA_BLOCK_LEN, SCRATCH, TIGLOSTREMA_BAD_CHECK, 0);
    refused(forecast(), TIGLOSTREMA_BAD_CHECK, 0);
    lent.rundown[TIGLOSTREMA_AT_CHECK] ^= 1;
}

/* The block to be added has the number 1, for one is held. */
static void fields(void) {
    struct tiglostrema_straight layer = copy(8);
    tiglostrema_write_straight(lent.block, &layer);
    lent.block[TIGLOSTREMA_AT_KIND] = TIGLOSTREMA_KIND_FRAME + 1;
    keep();
    refused(add(), TIGLOSTREMA_BAD_FORM, 1);

    layer.radius = NAN;
    tiglostrema_write_straight(lent.block, &layer);
    keep();
    refused(add(), TIGLOSTREMA_BAD_FLOAT, 1);

    layer.radius = 0;
    layer.alpha = TIGLOSTREMA_FULL_ALPHA + 1;
    tiglostrema_write_straight(lent.block, &layer);
    keep();
    refused(add(), TIGLOSTREMA_BAD_INTEGER, 1);

    struct tiglostrema_glass glass = tiglostrema_default_glass();
    glass.priority = 8;
    glass.bezel = 2.5f;
    glass.displacement[0] = nextafterf(4, INFINITY);
    tiglostrema_write_glass(lent.block, &glass);
    keep();
    refused(add(), TIGLOSTREMA_BAD_BEND, 1);

    layer = copy(7);
    tiglostrema_write_straight(lent.block, &layer);
    keep();
    refused(add(), TIGLOSTREMA_SAME_PRIORITY, 1);
}

/* Adds the block that was written last, and has the two played, at once and in steps: refused by this cause, at the
   second, which has the higher priority. A forecast is refused alike, but by no scratch, of which it is lent none. */
static void second_refused(uint32_t cause, size_t b_len) {
    must_add();
    keep();
    size_t len = lent.count * TIGLOSTREMA_BLOCK_LEN;
    playing_refused(WIDTH, TIGLOSTREMA_SOURCE_WORDS, len, b_len, cause, 1);
    if (cause != TIGLOSTREMA_SHORT_SCRATCH) refused(forecast(), cause, 1);
    lent.count = 1;
}

static void playing(void) {
    struct tiglostrema_straight absent = copy(8);
    absent.source = 1;
    tiglostrema_write_straight(lent.block, &absent);
    second_refused(TIGLOSTREMA_NO_SOURCE, SCRATCH);

    struct tiglostrema_frame frame = tiglostrema_default_frame();
    frame.priority = 8;
    frame.x = 1;
    frame.width = WIDTH;
    tiglostrema_write_frame(lent.block, &frame);
    second_refused(TIGLOSTREMA_WIDE_FRAME, SCRATCH);

    struct tiglostrema_glass glass = tiglostrema_default_glass();
    glass.priority = 8;
    glass.rect.w = WIDTH;
    glass.rect.h = HEIGHT;
    tiglostrema_write_glass(lent.block, &glass);
    second_refused(TIGLOSTREMA_SHORT_SCRATCH, tiglostrema_scratch_enough(WIDTH, HEIGHT) - 1);
}

static void calls(void) {
    struct tiglostrema_straight layer = copy(8);
    tiglostrema_write_straight(lent.block, &layer);
    keep();
    refused(tiglostrema_add(lent.rundown, 2 * TIGLOSTREMA_BLOCK_LEN - 1, lent.count, lent.block),
        TIGLOSTREMA_NO_ROOM, 1);
    refused(tiglostrema_remove(lent.rundown, sizeof lent.rundown, lent.count, 8), TIGLOSTREMA_ABSENT, 0);
    refused(tiglostrema_box_h(lent.a, SCRATCH, lent.b, SCRATCH, WIDTH, HEIGHT, 32768), TIGLOSTREMA_BAD_PASS, 0);
    refused(tiglostrema_box_v(lent.a, SCRATCH, lent.b, SCRATCH - 1, WIDTH, HEIGHT, 1), TIGLOSTREMA_BAD_PASS, 0);
    refused(step(7), TIGLOSTREMA_NO_NEXT, 0);
    refused(step(65535), TIGLOSTREMA_NO_NEXT, 0);
}

/* Of two causes the one that is tested first. Two copies of an absent source and of one priority are held. */
static void first(void) {
    struct tiglostrema_straight layer = copy(8);
    layer.source = 1;
    layer.radius = NAN;
    tiglostrema_write_straight(lent.block, &layer);
    keep();
    refused(tiglostrema_add(lent.rundown, TIGLOSTREMA_BLOCK_LEN, lent.count, lent.block), TIGLOSTREMA_BAD_FLOAT, 1);

    layer.radius = 0;
    tiglostrema_write_straight(lent.block, &layer);
    lent.count = 0;
    must_add();
    memcpy(lent.rundown + TIGLOSTREMA_BLOCK_LEN, lent.rundown, TIGLOSTREMA_BLOCK_LEN);
    lent.count = 2;
    size_t len = lent.count * TIGLOSTREMA_BLOCK_LEN;
    keep();
    playing_refused(WIDTH + 1, 1, 1, 0, TIGLOSTREMA_BAD_CANVAS, 0);
    playing_refused(WIDTH, 1, 1, 0, TIGLOSTREMA_BAD_SOURCES, 0);
    playing_refused(WIDTH, TIGLOSTREMA_SOURCE_WORDS, len, SCRATCH, TIGLOSTREMA_NO_SOURCE, 0);
    refused(forecast_with(0, 1, 1), TIGLOSTREMA_BAD_CANVAS, 0);
    refused(forecast_with(WIDTH, 1, 1), TIGLOSTREMA_BAD_SOURCES, 0);
    refused(forecast(), TIGLOSTREMA_NO_SOURCE, 0);
    refused(tiglostrema_remove(lent.rundown, sizeof lent.rundown, lent.count, 9), TIGLOSTREMA_SAME_PRIORITY, 1);
}

/* The glass layer that was refused is played with one byte more, which tiglostrema_scratch_enough says. */
static void enough(void) {
    lent.count = 2;
    size_t len = lent.count * TIGLOSTREMA_BLOCK_LEN, bytes = tiglostrema_scratch_enough(WIDTH, HEIGHT);
    uint64_t answer = play_with(WIDTH, TIGLOSTREMA_SOURCE_WORDS, len, bytes);
    if (bytes != SCRATCH || answer != lent.count) fail("the scratch was not enough", answer);
    if (tiglostrema_scratch_enough(TIGLOSTREMA_MAX_SIDE + 1, 1) != 0) fail("a size that no canvas has", 0);
    lent.count = 1;
}

int main(void) {
    start();
    sizes();
    lengths();
    check();
    fields();
    playing();
    enough();
    calls();
    uint64_t answer = play();
    if (answer != 1) fail("what is left was refused", answer);
    first();
    printf("0: %s\n", tiglostrema_cause_words(TIGLOSTREMA_DONE));
    printf("%u: %s\n", TIGLOSTREMA_NO_NEXT + 1u, tiglostrema_cause_words(TIGLOSTREMA_NO_NEXT + 1u));
    return 0;
}
