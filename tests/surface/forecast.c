/*
 * A forecast, through the header alone: what it answers for small shows and for the largest one; that a play is carried
 * out with the scratch that it says, and refused by cause 11 with one byte less; and that it writes its two arrays and
 * no byte beside them, and nothing at all where it is refused.
 */
#include <stdio.h>
#include <stdlib.h>

#include "tiglostrema.h"

enum { WIDTH = 8, HEIGHT = 2, PIXELS = WIDTH * HEIGHT, SCRATCH = 3 * PIXELS, GUARD = 16 };
enum { SOURCES = 2, TABLE = SOURCES * TIGLOSTREMA_SOURCE_WORDS, POOL = 2 * 2 + 3 * 2 };

static const uint32_t table[TABLE] = {2, 2, 3, 2};
static uint32_t canvas[PIXELS], pool[POOL];
static uint8_t a[SCRATCH], b[SCRATCH], rundown[(TIGLOSTREMA_MAX_LAYERS + 1) * TIGLOSTREMA_BLOCK_LEN];

/* What a forecast is lent to write, between guards. */
struct lent {
    int32_t below[GUARD], boxes[TIGLOSTREMA_BOXES_LEN], above[GUARD];
    uint64_t before[GUARD], totals[TIGLOSTREMA_TOTALS_LEN], behind[GUARD];
};

static struct lent lent, old;

static void fail(const char *words) {
    puts(words);
    exit(1);
}

/* The call's words, and whether it was carried out. */
static bool told(uint64_t answer) {
    uint32_t cause = tiglostrema_cause_of(answer), value = tiglostrema_value_of(answer);
    if (cause == TIGLOSTREMA_DONE) {
        printf("%u layers", (unsigned)value);
        return true;
    }
    printf("refused by %u", (unsigned)cause);
    if (tiglostrema_cause_has_block(cause)) printf(", block %u", (unsigned)value);
    return false;
}

/* Asks for the forecast of the first blocks. What it may not write is as it was. */
static uint64_t ask(uint32_t width, uint32_t height, size_t rundown_len, size_t table_len) {
    memset(&lent, 0xA5, sizeof lent);
    memcpy(&old, &lent, sizeof lent);
    uint64_t answer = tiglostrema_forecast(
        rundown, rundown_len, width, height, table_len == 0 ? NULL : table, table_len, lent.boxes, lent.totals);
    if (tiglostrema_cause_of(answer) == TIGLOSTREMA_DONE) {
        memcpy(old.boxes, lent.boxes, sizeof old.boxes);
        memcpy(old.totals, lent.totals, sizeof old.totals);
    }
    if (memcmp(&old, &lent, sizeof lent) != 0) fail("something was written that may not be");
    return answer;
}

/* The forecast of the first blocks on such a canvas, with the boxes that are not empty. */
static void forecast(const char *name, uint32_t width, uint32_t height, size_t count) {
    printf("%s: ", name);
    if (!told(ask(width, height, count * TIGLOSTREMA_BLOCK_LEN, TABLE))) fail(", which it should not be");
    printf(", %llu bytes, %llu cells\n", (unsigned long long)lent.totals[TIGLOSTREMA_TOTAL_SCRATCH],
        (unsigned long long)lent.totals[TIGLOSTREMA_TOTAL_CELLS]);
    for (int i = 0; i < TIGLOSTREMA_MAX_LAYERS; i++) {
        const int32_t *box = lent.boxes + TIGLOSTREMA_BOX_LEN * i;
        if ((box[0] | box[1] | box[2] | box[3]) != 0 && (i < 3 || i == TIGLOSTREMA_MAX_LAYERS - 1))
            printf("  block %d: %d %d %d %d\n", i, (int)box[0], (int)box[1], (int)box[2], (int)box[3]);
    }
}

/* A play of the first blocks with scratch of these lengths. */
static void play(size_t count, size_t a_len, size_t b_len) {
    printf("  with %u and %u bytes: ", (unsigned)a_len, (unsigned)b_len);
    told(tiglostrema_play(rundown, count * TIGLOSTREMA_BLOCK_LEN, WIDTH, HEIGHT, canvas, PIXELS, table, TABLE,
        pool, POOL, a_len == 0 ? NULL : a, a_len, b_len == 0 ? NULL : b, b_len));
    puts("");
}

/* Puts a block with its check into its place. An add to the whole rundown would put the blocks in order. */
static void put(size_t place, const uint8_t *block) {
    uint64_t answer = tiglostrema_add(rundown + place * TIGLOSTREMA_BLOCK_LEN, TIGLOSTREMA_BLOCK_LEN, 0, block);
    if (answer != 1) fail("a block was refused");
}

/* A panel without a bezel, from the canvas's top. */
static void put_glass(size_t place, uint16_t priority, float blur, float x, float w, float h) {
    uint8_t block[TIGLOSTREMA_BODY_LEN];
    struct tiglostrema_glass glass = tiglostrema_default_glass();
    glass.priority = priority;
    glass.blur = blur;
    glass.rect.x = x;
    glass.rect.w = w;
    glass.rect.h = h;
    tiglostrema_write_glass(block, &glass);
    put(place, block);
}

static void put_copy(size_t place, uint16_t priority, uint32_t source) {
    uint8_t block[TIGLOSTREMA_BODY_LEN];
    struct tiglostrema_straight copy = tiglostrema_default_straight();
    copy.priority = priority;
    copy.source = source;
    tiglostrema_write_straight(block, &copy);
    put(place, block);
}

/* A panel of which 7 by 2 pixels of the canvas are looked at, and beside it a copy, which is painted first. */
static void beside(void) {
    put_glass(0, 9, 0, 4, 3, HEIGHT);
    put_copy(1, 1, 0);
    forecast("a panel beside a copy", WIDTH, HEIGHT, 2);
    play(2, 42, 42);
    play(2, 41, 42);
    play(2, 42, 41);
    play(2, 41, 41);
}

/* Panels that look at all of 7 by 3 pixels: as 4 by 2 cells, as pixels, as 2 by 1 cells. The second needs the most. */
static void several(void) {
    put_glass(0, 3, 3, 0, 4, HEIGHT);
    put_glass(1, 2, 0, 0, 7, HEIGHT);
    put_glass(2, 1, 9, 0, 4, HEIGHT);
    forecast("three panels", WIDTH - 1, HEIGHT + 1, 3);
}

/* What needs no scratch: no layer, no panel, and a panel beyond the canvas that would still look at a part of it. */
static void without(void) {
    forecast("no layer", WIDTH, HEIGHT, 0);
    play(0, 0, 0);
    put_glass(0, 9, 0, WIDTH + 1, 3, HEIGHT);
    put_copy(1, 1, 0);
    forecast("a panel beyond the canvas", WIDTH, HEIGHT, 2);
    play(2, 0, 0);
}

/* As many panels as there may be, each as large as the largest canvas. */
static void largest(void) {
    float side = TIGLOSTREMA_MAX_SIDE;
    for (size_t i = 0; i < TIGLOSTREMA_MAX_LAYERS; i++) put_glass(i, i & UINT16_MAX, 0, 0, side, side);
    forecast("256 panels", TIGLOSTREMA_MAX_SIDE, TIGLOSTREMA_MAX_SIDE, TIGLOSTREMA_MAX_LAYERS);
}

/* The forecast of the first blocks is refused, and says why. */
static void refused(const char *name, uint32_t width, uint32_t height, size_t rundown_len, size_t table_len) {
    printf("%s: ", name);
    if (told(ask(width, height, rundown_len, table_len))) fail(", which it should not be");
    puts("");
}

static void sizes(void) {
    static const uint32_t wrong[] = {0, TIGLOSTREMA_MAX_SIDE + 1, 65536, UINT32_MAX};
    for (int i = 0; i < 4; i++) {
        refused("width", wrong[i], 1, 0, 0);
        refused("height", 1, wrong[i], 0, 0);
        refused("both", wrong[i], wrong[i], 0, 0);
    }
    refused("table", WIDTH, HEIGHT, 0, TABLE - 1);
    refused("rundown", WIDTH, HEIGHT, TIGLOSTREMA_BLOCK_LEN - 1, TABLE);
    refused("257 blocks", WIDTH, HEIGHT, sizeof rundown, TABLE);
}

/* Puts the check of block 1 right. */
static void seal(void) {
    uint8_t *block = rundown + TIGLOSTREMA_BLOCK_LEN;
    uint32_t sum = 0;
    for (uint32_t i = 0; i < TIGLOSTREMA_BODY_LEN; i++) sum += (i + 1) * block[i];
    tiglostrema_put32_(block + TIGLOSTREMA_AT_CHECK, sum);
}

/* Changes a byte of block 1, and where that is asked for its check as well; block 0 is a copy that nothing refuses. */
static void broken(const char *name, size_t at, uint8_t byte, bool sealed) {
    put_copy(0, 1, 0);
    put_copy(1, 2, 0);
    rundown[TIGLOSTREMA_BLOCK_LEN + at] = byte;
    if (sealed) seal();
    refused(name, WIDTH, HEIGHT, 2 * TIGLOSTREMA_BLOCK_LEN, TABLE);
}

/* Block 1 becomes a panel whose first entry is above what its bezel allows. */
static void torn(void) {
    uint8_t *block = rundown + TIGLOSTREMA_BLOCK_LEN;
    put_glass(1, 2, 0, 0, WIDTH, HEIGHT);
    tiglostrema_putf_(block + TIGLOSTREMA_AT_BEZEL, 1);
    tiglostrema_putf_(block + TIGLOSTREMA_AT_DISPLACEMENT, 1.625f);
    seal();
    refused("table and bezel", WIDTH, HEIGHT, 2 * TIGLOSTREMA_BLOCK_LEN, TABLE);
}

static void blocks(void) {
    uint8_t block[TIGLOSTREMA_BODY_LEN];
    struct tiglostrema_frame frame = tiglostrema_default_frame();
    broken("a byte", TIGLOSTREMA_AT_X, 1, false);
    broken("kind", TIGLOSTREMA_AT_KIND, TIGLOSTREMA_KIND_FRAME + 1, true);
    broken("radius below 0", TIGLOSTREMA_AT_RADIUS + 3, 0xC0, true);
    broken("x beyond 16384", TIGLOSTREMA_AT_X + 2, 1, true);
    torn();
    broken("priority", TIGLOSTREMA_AT_PRIORITY, 1, true);
    broken("source", TIGLOSTREMA_AT_SOURCE, SOURCES, true);
    frame.priority = 3;
    frame.x = 1;
    frame.width = WIDTH;
    tiglostrema_write_frame(block, &frame);
    put(1, block);
    refused("frame", WIDTH, HEIGHT, 2 * TIGLOSTREMA_BLOCK_LEN, TABLE);
}

int main(void) {
    beside();
    several();
    without();
    largest();
    sizes();
    blocks();
    return 0;
}
