/*
 * A playing in steps, through the header alone: which layer a step paints, after none and after every sort of number;
 * that it paints what a play of that one layer paints, from the pool of its own step; and that a begin, a refused step
 * and one that finds no layer write nothing at all.
 */
#include <stdio.h>
#include <stdlib.h>

#include "tiglostrema.h"

enum { WIDTH = 8, HEIGHT = 4, PIXELS = WIDTH * HEIGHT, SCRATCH = 3 * PIXELS, GUARD = 64 };
enum { SOURCES = 2, TABLE = SOURCES * TIGLOSTREMA_SOURCE_WORDS, POOL = 4 * 2 + 3 * 3 };
enum { LEN = TIGLOSTREMA_BLOCK_LEN, MOST = TIGLOSTREMA_MAX_LAYERS, HIGHEST = UINT16_MAX };

/* All that calls are lent, with guards round what they write. */
struct lent {
    uint32_t below[GUARD], canvas[PIXELS], above[GUARD], table[TABLE], pool[POOL];
    uint8_t before[GUARD], a[SCRATCH], between[GUARD], b[SCRATCH], behind[GUARD], rundown[MOST * LEN];
    uint32_t width, height;
    size_t count, canvas_len, pool_len, a_len, b_len;
};

static struct lent lent, old;
static uint32_t expected[PIXELS]; /* what the canvas has to hold */

static void fail(const char *words) {
    printf(": %s\n", words);
    exit(1);
}

/* Nothing is held, and the lengths fit; what calls may write holds no zeros, so that a change would show. */
static void start(const char *name) {
    static const uint32_t sizes[TABLE] = {4, 2, 3, 3};
    printf("%s\n", name);
    memset(&lent, 0xA5, sizeof lent);
    memcpy(lent.table, sizes, sizeof sizes);
    memcpy(expected, lent.canvas, sizeof expected);
    for (uint32_t i = 0; i < POOL; i++) lent.pool[i] = 0x0F1E2D * (i + 1) & 0xFFFFFF;
    lent.width = WIDTH;
    lent.height = HEIGHT;
    lent.count = 0;
    lent.canvas_len = PIXELS;
    lent.pool_len = POOL;
    lent.a_len = lent.b_len = SCRATCH;
}

/* ---- Layers: each stands behind the others, whatever its priority */

static void hold(const uint8_t body[TIGLOSTREMA_BODY_LEN]) {
    if (tiglostrema_add(lent.rundown + lent.count * LEN, LEN, 0, body) != 1) fail("a layer was refused");
    lent.count++;
}

static void hold_copy(uint16_t priority, uint32_t source, int32_t x, int32_t y) {
    uint8_t body[TIGLOSTREMA_BODY_LEN];
    struct tiglostrema_straight copy = tiglostrema_default_straight();
    copy.priority = priority;
    copy.source = source;
    copy.x = x;
    copy.y = y;
    tiglostrema_write_straight(body, &copy);
    hold(body);
}

static void hold_scaled(uint16_t priority, uint32_t source, float alpha) {
    uint8_t body[TIGLOSTREMA_BODY_LEN];
    struct tiglostrema_scaled copy = tiglostrema_default_scaled();
    copy.priority = priority;
    copy.source = source;
    copy.rect.w = WIDTH;
    copy.rect.h = HEIGHT;
    copy.alpha = alpha;
    tiglostrema_write_scaled(body, &copy);
    hold(body);
}

static void hold_fill(uint16_t priority) {
    uint8_t body[TIGLOSTREMA_BODY_LEN];
    struct tiglostrema_fill fill = tiglostrema_default_fill();
    fill.priority = priority;
    fill.rect.w = fill.rect.h = 3;
    fill.paint.c0.g = 200;
    fill.paint.c0.a = 128;
    tiglostrema_write_fill(body, &fill);
    hold(body);
}

static void hold_glass(uint16_t priority) {
    uint8_t body[TIGLOSTREMA_BODY_LEN];
    struct tiglostrema_glass glass = tiglostrema_default_glass();
    glass.priority = priority;
    glass.rect.x = 1;
    glass.rect.w = WIDTH - 1;
    glass.rect.h = HEIGHT;
    glass.blur = 1;
    tiglostrema_write_glass(body, &glass);
    hold(body);
}

/* Six layers, not in order, whose order is another one as text, by the low byte or as signed numbers. The glass layer,
   block 4, needs all of the scratch and is painted over three others. */
static void hold_show(void) {
    hold_copy(256, 1, 4, 1);
    hold_fill(9);
    hold_scaled(HIGHEST, 1, 0.5f);
    hold_scaled(0, 0, 1);
    hold_glass(255);
    hold_copy(10, 0, 2, 0);
}

/* ---- What a step has to do, found in the plainest way */

static uint32_t priority_at(size_t block) {
    const uint8_t *at = lent.rundown + block * LEN + TIGLOSTREMA_AT_PRIORITY;
    return (uint16_t)(at[0] | at[1] << 8);
}

/* The block with the lowest priority above last, and the count where there is none. */
static size_t next(uint32_t last) {
    size_t found = lent.count;
    for (size_t i = 0; i < lent.count; i++) {
        bool above = last > HIGHEST || priority_at(i) > last;
        if (above && (found == lent.count || priority_at(i) < priority_at(found))) found = i;
    }
    return found;
}

/* Plays one block alone, or all, from the pool as it is now. */
static void play(uint32_t *canvas, size_t block, size_t count) {
    static uint8_t a[SCRATCH], b[SCRATCH];
    uint64_t answer = tiglostrema_play(lent.rundown + block * LEN, count * LEN, lent.width, lent.height, canvas,
        lent.canvas_len, lent.table, TABLE, lent.pool, lent.pool_len, a, sizeof a, b, sizeof b);
    if (answer != count) fail("a play was refused");
}

/* ---- The calls */

/* What a call may not have written is as it was. */
static void kept(void) {
    if (memcmp(&old, &lent, sizeof lent) != 0) fail("something was written that may not be");
}

/* Says what a call answered. */
static void told(uint64_t answer) {
    uint32_t cause = tiglostrema_cause_of(answer), value = tiglostrema_value_of(answer);
    if (cause == TIGLOSTREMA_DONE) printf("%u\n", (unsigned)value);
    else printf("refused by %u, %u beside it\n", (unsigned)cause, (unsigned)value);
}

static void begin(void) {
    printf("  begin: ");
    memcpy(&old, &lent, sizeof lent);
    uint64_t answer = tiglostrema_begin(lent.rundown, lent.count * LEN, lent.width, lent.height, lent.canvas,
        lent.canvas_len, lent.table, TABLE, lent.pool, lent.pool_len, lent.a, lent.a_len, lent.b, lent.b_len);
    kept();
    told(answer);
}

/* An accepted step may have written the canvas, and the scratch that it was lent. The canvas is what a play of the next
   layer leaves of the one before. */
static void painted(uint32_t last, uint32_t priority) {
    size_t block = next(last);
    memcpy(old.canvas, lent.canvas, sizeof old.canvas);
    memcpy(old.a, lent.a, lent.a_len);
    memcpy(old.b, lent.b, lent.b_len);
    if (block == lent.count) fail("a layer was painted, and none is left");
    if (priority != priority_at(block)) fail("another priority");
    play(expected, block, 1);
    if (memcmp(expected, lent.canvas, sizeof expected) != 0) fail("another picture");
}

/* The answer of a step, of which all that holds of steps is tested. */
static uint64_t made(uint32_t last) {
    memcpy(&old, &lent, sizeof lent);
    uint64_t answer = tiglostrema_step(lent.rundown, lent.count * LEN, lent.width, lent.height, lent.canvas,
        lent.canvas_len, lent.table, TABLE, lent.pool, lent.pool_len, lent.a, lent.a_len, lent.b, lent.b_len, last);
    if (tiglostrema_cause_of(answer) == TIGLOSTREMA_DONE) painted(last, tiglostrema_value_of(answer));
    kept();
    return answer;
}

/* A step, and what it answers in words. */
static void step(uint32_t last) {
    if (last == TIGLOSTREMA_NONE) printf("  after none: ");
    else printf("  after %u: ", (unsigned)last);
    told(made(last));
}

/* A new picture in every source. */
static void refresh(void) {
    for (uint32_t i = 0; i < POOL; i++) lent.pool[i] = (lent.pool[i] * 5 + 0x010307) & 0xFFFFFF;
}

/* Steps from none on until no layer is left, perhaps with new pictures before each. */
static void walk(bool fresh) {
    uint32_t last = TIGLOSTREMA_NONE;
    begin();
    for (size_t i = 0; i < lent.count; i++) {
        if (fresh) refresh();
        step(last);
        last = priority_at(next(last));
    }
    step(last);
}

static void show_row(void) {
    for (uint32_t x = 0; x < lent.width; x++) printf("  %06X", (unsigned)(lent.canvas[x] & 0xFFFFFF));
    puts("");
}

/* Two exact copies on a black canvas of 4 by 2 pixels; between the steps every source has another picture. */
static void two_copies(void) {
    static const uint32_t sizes[TABLE] = {2, 1, 1, 1}, first[] = {0x112233, 0x445566, 0xFFFFFF};
    static const uint32_t second[] = {0xBAD, 0xBAD, 0xABCDEF};
    start("two copies");
    lent.width = 4;
    lent.height = 2;
    lent.canvas_len = 4 * 2;
    lent.pool_len = 3;
    memcpy(lent.table, sizes, sizeof sizes);
    memcpy(lent.pool, first, sizeof first);
    memset(lent.canvas, 0, lent.canvas_len * sizeof *lent.canvas);
    memcpy(expected, lent.canvas, sizeof expected);
    hold_copy(10, 1, 1, 0);
    hold_copy(9, 0, 0, 0);
    begin();
    step(TIGLOSTREMA_NONE);
    show_row();
    memcpy(lent.pool, second, sizeof second);
    step(9);
    show_row();
    step(10);
}

/* The show in steps ends as it does in one play, where the pool stays; with new pictures before each step it does not,
   nor as a play of the first pool or the last. */
static void whole_shows(void) {
    uint32_t first[PIXELS], last[PIXELS];
    start("the show, its pool kept");
    memcpy(first, lent.canvas, sizeof first);
    memcpy(last, lent.canvas, sizeof last);
    hold_show();
    play(first, 0, lent.count);
    walk(false);
    if (memcmp(first, lent.canvas, sizeof first) != 0) fail("another picture than by one play");
    start("the show, its pool new in each step");
    hold_show();
    walk(true);
    play(last, 0, lent.count);
    if (memcmp(first, lent.canvas, sizeof first) == 0) fail("the first pool's picture");
    if (memcmp(last, lent.canvas, sizeof last) == 0) fail("the last pool's picture");
}

/* Any number may be the last one: skipped layers, priorities that no layer has, one layer again, and none again, which
   is every number above 65535, be its low half a layer's priority or not. */
static void any_last(void) {
    static const uint32_t last[] = {TIGLOSTREMA_NONE, 9, 9, 255, 0, 8, 11, 100, 254, 257, HIGHEST - 1, HIGHEST, 1,
        TIGLOSTREMA_NONE, HIGHEST + 1u, HIGHEST + 1u + 9, HIGHEST + 1u + HIGHEST, 0x7FFFFFFF, 0x80000000, 0xFFFF0000,
        TIGLOSTREMA_NONE - 1, 256};
    start("any number, in any order");
    hold_show();
    for (size_t i = 0; i < sizeof last / sizeof *last; i++) {
        refresh();
        step(last[i]);
    }
}

/* The lowest priority and the highest; no layer, and one. */
static void ends(void) {
    start("priorities 65535 and 0");
    hold_copy(HIGHEST, 1, 1, 1);
    hold_copy(0, 0, 0, 0);
    walk(true);
    start("no layer");
    walk(false);
    step(0);
    step(HIGHEST);
    start("priority 0 alone");
    hold_copy(0, 0, 0, 0);
    walk(true);
    step(TIGLOSTREMA_NONE);
    start("priority 65535 alone");
    hold_copy(HIGHEST, 0, 0, 0);
    walk(true);
    step(HIGHEST - 1);
}

/* A begin and steps that are refused: the first, one in mid play, and one above which there is no layer. */
static void refused(const char *why) {
    printf("  %s\n", why);
    begin();
    step(TIGLOSTREMA_NONE);
    step(9);
    step(HIGHEST);
}

/* Whatever is wrong with a call it is refused, though the layer to be painted needs no scratch and stands in another
   block; and once it is mended the playing goes on where it was. */
static void in_mid_play(void) {
    start("refused in mid play");
    hold_show();
    step(TIGLOSTREMA_NONE);
    step(0);
    lent.a_len = SCRATCH - 1;
    refused("the first scratch slice is too short");
    lent.a_len = SCRATCH;
    lent.b_len = 0;
    refused("the second is empty");
    lent.b_len = SCRATCH;
    lent.pool_len = POOL - 1;
    refused("the pool is too short");
    lent.pool_len = POOL;
    lent.width = WIDTH + 1;
    refused("the canvas has another width");
    lent.width = WIDTH;
    lent.rundown[3 * LEN + TIGLOSTREMA_AT_CHECK] ^= 1;
    refused("a painted layer's check is wrong");
    lent.rundown[3 * LEN + TIGLOSTREMA_AT_CHECK] ^= 1;
    hold_copy(256, 0, 0, 0);
    refused("a later layer has a priority twice");
    lent.count--;
    puts("  all is mended");
    step(9);
    step(10);
    step(255);
    step(256);
    step(HIGHEST);
}

/* As many layers as there may be, in falling order, with new pictures before each step. */
static void most_layers(void) {
    uint32_t last = TIGLOSTREMA_NONE, steps = 0;
    start("256 layers that descend");
    for (uint32_t i = 0; i < MOST; i++)
        hold_copy((uint16_t)(HIGHEST - 257 * i), i % SOURCES, (int32_t)(i % WIDTH), (int32_t)(i / 64));
    begin();
    for (; next(last) != lent.count && steps <= MOST; steps++) {
        refresh();
        last = tiglostrema_value_of(made(last));
    }
    printf("  %u steps, the last one painted %u\n", (unsigned)steps, (unsigned)last);
    step(last);
}

int main(void) {
    two_copies();
    whole_shows();
    any_last();
    ends();
    in_mid_play();
    most_layers();
    return 0;
}
