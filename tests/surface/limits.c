/*
 * The limits that the header names for sizes and counts: both ends are taken, and what lies just beyond is refused by
 * the right cause. Slices of length 0 come with NULL, which the header allows, as far as a call may be given any.
 */
#include <stdio.h>

#include "tiglostrema.h"

/* Room for one more than there may be, of each. */
enum { SIDE = TIGLOSTREMA_MAX_SIDE + 1, BLOCKS = TIGLOSTREMA_MAX_LAYERS + 1 };
enum { TABLE = TIGLOSTREMA_SOURCE_WORDS * (TIGLOSTREMA_MAX_SOURCES + 1) };

static uint32_t canvas[SIDE], pool[SIDE], table[TABLE];
static uint8_t map[3 * SIDE], blurred[3 * SIDE], rundown[BLOCKS * TIGLOSTREMA_BLOCK_LEN];
static uint8_t block[TIGLOSTREMA_BODY_LEN], shown[TIGLOSTREMA_BLOCK_LEN];
static int32_t boxes[TIGLOSTREMA_BOXES_LEN];
static uint64_t totals[TIGLOSTREMA_TOTALS_LEN];
static unsigned asked, wrong;

/* The call answers this cause, and this value beside it. */
static void expect(const char *name, uint64_t answer, uint32_t cause, uint32_t value) {
    asked++;
    if (tiglostrema_cause_of(answer) == cause && tiglostrema_value_of(answer) == value) return;
    wrong++;
    printf("%s: cause %u, value %u, not %u, %u\n", name, (unsigned)tiglostrema_cause_of(answer),
        (unsigned)tiglostrema_value_of(answer), (unsigned)cause, (unsigned)value);
}

/* The front of the rundown is played without scratch, at once and in steps: play and begin answer this, and the first
   step is refused alike, or paints the lowest layer, if there is one. Its priority is 0 in every show here. */
static void playing(const char *name, size_t rundown_len, uint32_t width, uint32_t height, size_t words,
    size_t pool_len, uint32_t cause, uint32_t value) {
    const uint8_t *blocks = rundown_len == 0 ? NULL : rundown;
    const uint32_t *sizes = words == 0 ? NULL : table, *pixels = pool_len == 0 ? NULL : pool;
    size_t len = (size_t)width * height;
    bool done = cause == TIGLOSTREMA_DONE;
    expect(name, tiglostrema_play(blocks, rundown_len, width, height, canvas, len, sizes, words, pixels, pool_len,
        NULL, 0, NULL, 0), cause, value);
    expect(name, tiglostrema_begin(blocks, rundown_len, width, height, canvas, len, sizes, words, pixels, pool_len,
        NULL, 0, NULL, 0), cause, value);
    expect(name, tiglostrema_step(blocks, rundown_len, width, height, canvas, len, sizes, words, pixels, pool_len,
        NULL, 0, NULL, 0, TIGLOSTREMA_NONE), done && value == 0 ? TIGLOSTREMA_NO_NEXT : cause, done ? 0 : value);
}

/* The forecast of the same on one row. */
static uint64_t forecast(size_t rundown_len, uint32_t width, size_t words) {
    return tiglostrema_forecast(rundown_len == 0 ? NULL : rundown, rundown_len, width, 1,
        words == 0 ? NULL : table, words, boxes, totals);
}

/* An empty show, on a canvas of which one side is looked at, is played, mapped and forecast; then its dearest panel. */
static void canvas_sides(uint32_t width, uint32_t height, uint32_t cause) {
    size_t len = (size_t)width * height;
    playing("canvas", 0, width, height, 0, 0, cause, 0);
    expect("map", tiglostrema_stain(NULL, 0, width, height, NULL, 0, 0, map, len), cause, 0);
    expect("forecast", tiglostrema_forecast(NULL, 0, width, height, NULL, 0, boxes, totals), cause, 0);
    uint32_t need = cause == TIGLOSTREMA_DONE ? 3 * width * height : 0;
    expect("dearest", tiglostrema_dearest(width, height, 0, shown), cause, need);
}

/* A source of which one side is looked at. */
static void source_sides(uint32_t width, uint32_t height, uint32_t cause) {
    size_t len = (size_t)width * height;
    table[0] = width;
    table[1] = height;
    playing("source", 0, 1, 1, TIGLOSTREMA_SOURCE_WORDS, len, cause, 0);
    expect("source", tiglostrema_stain(NULL, 0, 1, 1, table, TIGLOSTREMA_SOURCE_WORDS, 0, map, 1), cause, 0);
    expect("source", forecast(0, 1, TIGLOSTREMA_SOURCE_WORDS), cause, 0);
}

/* A box pass of radius r. */
static void pass(size_t width, size_t height, size_t r, uint32_t cause) {
    size_t len = 3 * width * height;
    expect("pass along rows", tiglostrema_box_h(map, len, blurred, len, width, height, r), cause, 0);
    expect("pass along columns", tiglostrema_box_v(map, len, blurred, len, width, height, r), cause, 0);
}

/* A side of all that has sides: both ends, and what lies beyond them. */
static void sides(void) {
    static const uint32_t side[] = {1, TIGLOSTREMA_MAX_SIDE, 0, TIGLOSTREMA_MAX_SIDE + 1};
    for (int i = 0; i < 4; i++) {
        bool fits = i < 2;
        canvas_sides(side[i], 1, fits ? TIGLOSTREMA_DONE : TIGLOSTREMA_BAD_CANVAS);
        canvas_sides(1, side[i], fits ? TIGLOSTREMA_DONE : TIGLOSTREMA_BAD_CANVAS);
        source_sides(side[i], 1, fits ? TIGLOSTREMA_DONE : TIGLOSTREMA_BAD_SOURCES);
        source_sides(1, side[i], fits ? TIGLOSTREMA_DONE : TIGLOSTREMA_BAD_SOURCES);
        pass(side[i], 1, 1, fits ? TIGLOSTREMA_DONE : TIGLOSTREMA_BAD_PASS);
        pass(1, side[i], 1, fits ? TIGLOSTREMA_DONE : TIGLOSTREMA_BAD_PASS);
    }
}

static void radii(void) {
    pass(1, 1, 0, TIGLOSTREMA_DONE);
    pass(1, 1, 32767, TIGLOSTREMA_DONE);
    pass(1, 1, 32768, TIGLOSTREMA_BAD_PASS);
    pass(1, 1, SIZE_MAX, TIGLOSTREMA_BAD_PASS);
}

/* Sources of one pixel: how many there may be, and which numbers a copy may have. */
static void sources(void) {
    size_t most = TIGLOSTREMA_MAX_SOURCES;
    struct tiglostrema_straight copy = tiglostrema_default_straight();
    for (size_t i = 0; i < TABLE; i++) table[i] = 1;
    playing("most sources", 0, 1, 1, TABLE - TIGLOSTREMA_SOURCE_WORDS, most, TIGLOSTREMA_DONE, 0);
    playing("one more source", 0, 1, 1, TABLE, most + 1, TIGLOSTREMA_BAD_SOURCES, 0);
    expect("most sources", forecast(0, 1, TABLE - TIGLOSTREMA_SOURCE_WORDS), TIGLOSTREMA_DONE, 0);
    expect("one more source", forecast(0, 1, TABLE), TIGLOSTREMA_BAD_SOURCES, 0);
    for (copy.source = 0; copy.source <= most; copy.source++) {
        bool there = copy.source < most;
        uint32_t cause = there ? TIGLOSTREMA_DONE : TIGLOSTREMA_NO_SOURCE, value = there ? 1 : 0;
        size_t words = TABLE - TIGLOSTREMA_SOURCE_WORDS;
        tiglostrema_write_straight(block, &copy);
        expect("copy", tiglostrema_add(rundown, sizeof rundown, 0, block), TIGLOSTREMA_DONE, 1);
        playing("its source", TIGLOSTREMA_BLOCK_LEN, 1, 1, words, most, cause, value);
        expect("its source", forecast(TIGLOSTREMA_BLOCK_LEN, 1, words), cause, value);
    }
}

/* As many layers as there may be, the lowest priority and the highest among them; then one more. */
static void layers(void) {
    struct tiglostrema_frame frame = tiglostrema_default_frame();
    uint32_t most = TIGLOSTREMA_MAX_LAYERS;
    size_t len = sizeof rundown - TIGLOSTREMA_BLOCK_LEN;
    for (uint32_t i = 0; i < most; i++) {
        frame.priority = i * 257 & UINT16_MAX;
        tiglostrema_write_frame(block, &frame);
        expect("layer", tiglostrema_add(rundown, len, i, block), TIGLOSTREMA_DONE, i + 1);
    }
    frame.priority = 1;
    tiglostrema_write_frame(block, &frame);
    expect("one more layer", tiglostrema_add(rundown, sizeof rundown, most, block), TIGLOSTREMA_NO_ROOM, most);
    playing("most blocks", len, 1, 1, 0, 0, TIGLOSTREMA_DONE, most);
    playing("one more block", sizeof rundown, 1, 1, 0, 0, TIGLOSTREMA_BAD_RUNDOWN, 0);
    expect("most blocks", forecast(len, 1, 0), TIGLOSTREMA_DONE, most);
    expect("one more block", forecast(sizeof rundown, 1, 0), TIGLOSTREMA_BAD_RUNDOWN, 0);
    expect("count", tiglostrema_remove(rundown, sizeof rundown, most + 1, 0), TIGLOSTREMA_BAD_RUNDOWN, 0);
    expect("highest", tiglostrema_remove(rundown, len, most, UINT16_MAX), TIGLOSTREMA_DONE, most - 1);
    expect("lowest", tiglostrema_remove(rundown, len, most - 1, 0), TIGLOSTREMA_DONE, most - 2);
}

/* Frames that end with the canvas, one of which begins there, too; then one that ends a pixel further. */
static void frames(void) {
    struct tiglostrema_frame frame = tiglostrema_default_frame();
    for (frame.x = 0; frame.x <= 4; frame.x++) {
        bool fits = frame.x <= 3;
        uint32_t cause = fits ? TIGLOSTREMA_DONE : TIGLOSTREMA_WIDE_FRAME, value = fits ? 1 : 0;
        frame.width = frame.x < 3 ? 3 - (uint32_t)frame.x : 0;
        tiglostrema_write_frame(block, &frame);
        expect("frame", tiglostrema_add(rundown, sizeof rundown, 0, block), TIGLOSTREMA_DONE, 1);
        playing("frame's end", TIGLOSTREMA_BLOCK_LEN, 3, 1, 0, 0, cause, value);
        expect("frame's end", forecast(TIGLOSTREMA_BLOCK_LEN, 3, 0), cause, value);
    }
}

/* NULL wherever a call takes a length, and 0 there. */
static void empty(void) {
    struct tiglostrema_frame frame = tiglostrema_default_frame();
    tiglostrema_write_frame(block, &frame);
    expect("play", tiglostrema_play(NULL, 0, 1, 1, NULL, 0, NULL, 0, NULL, 0, NULL, 0, NULL, 0),
        TIGLOSTREMA_BAD_CANVAS, 0);
    expect("begin", tiglostrema_begin(NULL, 0, 1, 1, NULL, 0, NULL, 0, NULL, 0, NULL, 0, NULL, 0),
        TIGLOSTREMA_BAD_CANVAS, 0);
    expect("step", tiglostrema_step(NULL, 0, 1, 1, NULL, 0, NULL, 0, NULL, 0, NULL, 0, NULL, 0, TIGLOSTREMA_NONE),
        TIGLOSTREMA_BAD_CANVAS, 0);
    expect("stain", tiglostrema_stain(NULL, 0, 1, 1, NULL, 0, 0, NULL, 0), TIGLOSTREMA_BAD_CANVAS, 0);
    expect("add", tiglostrema_add(NULL, 0, 0, block), TIGLOSTREMA_NO_ROOM, 0);
    expect("add to one", tiglostrema_add(NULL, 0, 1, block), TIGLOSTREMA_BAD_RUNDOWN, 0);
    expect("remove", tiglostrema_remove(NULL, 0, 0, 0), TIGLOSTREMA_ABSENT, 0);
    expect("pass along rows", tiglostrema_box_h(NULL, 0, NULL, 0, 1, 1, 1), TIGLOSTREMA_BAD_PASS, 0);
    expect("pass along columns", tiglostrema_box_v(NULL, 0, NULL, 0, 1, 1, 1), TIGLOSTREMA_BAD_PASS, 0);
}

int main(void) {
    sides();
    radii();
    sources();
    layers();
    frames();
    empty();
    printf("%u calls asked, %u wrong\n", asked, wrong);
    return wrong != 0;
}
