/*
 * Displacement tables beside their bezel, both by their bits: the most that a bezel allows and the float above it, in
 * each call that tests blocks; tables that are not read; and which cause is answered where there is more than one. A
 * refused call has changed nothing.
 */
#include <stdio.h>
#include <stdlib.h>

#include "tiglostrema.h"

enum { WIDTH = 4, HEIGHT = 2, PIXELS = WIDTH * HEIGHT, SCRATCH = 3 * PIXELS, BLOCKS = 4, ENTRIES = 32 };

/* A bezel of 12, the most that it allows, and the float above that; 0.5, and a NaN. */
#define TWELVE 0x41400000u
#define MOST 0x4199999Au
#define ABOVE 0x4199999Bu
#define HALF 0x3F000000u
#define NOT_A_NUMBER 0x7FC00000u

static const uint32_t table[TIGLOSTREMA_SOURCE_WORDS] = {2, 1}, pool[2] = {0x112233, 0x445566};

/* What calls write, in one piece, so that a changed byte is found wherever it is. */
struct lent {
    uint8_t rundown[BLOCKS * TIGLOSTREMA_BLOCK_LEN], a[SCRATCH], b[SCRATCH], map[PIXELS];
    uint32_t canvas[PIXELS];
    int32_t boxes[TIGLOSTREMA_BOXES_LEN];
    uint64_t totals[TIGLOSTREMA_TOTALS_LEN];
};

/* The blocks that are looked at, and the copy of them that is lent. */
static struct lent held, lent;
static size_t count;
static uint8_t block[TIGLOSTREMA_BODY_LEN];

static void start(void) {
    memset(&held, 0xA5, sizeof held);
    count = 0;
}

/* Puts the block that was written last behind the others, with its check and without a test. */
static uint8_t *put(void) {
    uint8_t *at = held.rundown + count++ * TIGLOSTREMA_BLOCK_LEN;
    uint32_t sum = 0;
    memcpy(at, block, sizeof block);
    for (uint32_t i = 0; i < TIGLOSTREMA_BODY_LEN; i++) sum += (i + 1) * block[i];
    tiglostrema_put32_(at + TIGLOSTREMA_AT_CHECK, sum);
    return at;
}

static void copy(uint16_t priority, uint32_t source) {
    struct tiglostrema_straight layer = tiglostrema_default_straight();
    layer.priority = priority;
    layer.source = source;
    tiglostrema_write_straight(block, &layer);
}

static void set(int at, uint32_t bits) { tiglostrema_put32_(block + at, bits); }

/* A panel over the canvas, with a bezel and so many entries of these bits. */
static void panel(uint16_t priority, uint32_t bezel, uint32_t entry, int entries) {
    struct tiglostrema_glass layer = tiglostrema_default_glass();
    layer.priority = priority;
    layer.rect.w = WIDTH;
    layer.rect.h = HEIGHT;
    tiglostrema_write_glass(block, &layer);
    set(TIGLOSTREMA_AT_BEZEL, bezel);
    for (int i = 0; i < entries; i++) set(TIGLOSTREMA_AT_DISPLACEMENT + 4 * i, entry);
}

/* A panel whose first entry alone is above what its bezel allows. */
static void torn(uint16_t priority) { panel(priority, TWELVE, ABOVE, 1); }

/* Says what a call answered. Whatever comes next is lent what is held. */
static void told(const char *call, uint64_t answer) {
    uint32_t cause = tiglostrema_cause_of(answer), value = tiglostrema_value_of(answer);
    if (cause == TIGLOSTREMA_DONE) {
        printf("  %s: %u\n", call, (unsigned)value);
    } else if (memcmp(&held, &lent, sizeof lent) == 0 && tiglostrema_cause_has_block(cause)) {
        printf("  %s: refused by %u, block %u\n", call, (unsigned)cause, (unsigned)value);
    } else {
        printf("  %s: refused by %u, which is of no block, or has changed something\n", call, (unsigned)cause);
        exit(1);
    }
    memcpy(&lent, &held, sizeof lent);
}

/* What play, begin, the first step, stain and forecast say of the blocks that are held; then what add says, given one
   more, and remove. */
static void asked(const char *name) {
    size_t len = count * TIGLOSTREMA_BLOCK_LEN, words = TIGLOSTREMA_SOURCE_WORDS;
    memcpy(&lent, &held, sizeof lent);
    puts(name);
    told("play", tiglostrema_play(lent.rundown, len, WIDTH, HEIGHT, lent.canvas, PIXELS, table, words, pool, 2,
        lent.a, SCRATCH, lent.b, SCRATCH));
    told("begin", tiglostrema_begin(lent.rundown, len, WIDTH, HEIGHT, lent.canvas, PIXELS, table, words, pool, 2,
        lent.a, SCRATCH, lent.b, SCRATCH));
    told("step", tiglostrema_step(lent.rundown, len, WIDTH, HEIGHT, lent.canvas, PIXELS, table, words, pool, 2,
        lent.a, SCRATCH, lent.b, SCRATCH, TIGLOSTREMA_NONE));
    told("stain", tiglostrema_stain(lent.rundown, len, WIDTH, HEIGHT, table, words, 0, lent.map, PIXELS));
    told("forecast", tiglostrema_forecast(lent.rundown, len, WIDTH, HEIGHT, table, words, lent.boxes, lent.totals));
    copy(999, 0);
    told("add", tiglostrema_add(lent.rundown, sizeof lent.rundown, count, block));
    told("remove", tiglostrema_remove(lent.rundown, sizeof lent.rundown, count, 7));
}

/* Asks about a rundown of one panel, and adds that to an empty one. */
static void example(uint32_t bezel, uint32_t entry, int entries) {
    char name[64];
    start();
    panel(7, bezel, entry, entries);
    put();
    snprintf(name, sizeof name, "bezel %08X, %d entries %08X", (unsigned)bezel, entries, (unsigned)entry);
    asked(name);
    told("add it to none", tiglostrema_add(lent.rundown, sizeof lent.rundown, 0, held.rundown));
}

static void examples(void) {
    example(HALF + 1, 0x3F4CCCCFu, ENTRIES);
    example(HALF + 1, 0x3F4CCCD0u, ENTRIES);
    example(TWELVE, MOST, ENTRIES);
    example(TWELVE, ABOVE, ENTRIES);
    example(0x43800000u, 0x43CCCCCDu, ENTRIES);
    example(0x43800000u, 0x43CCCCCEu, ENTRIES);
    example(HALF, NOT_A_NUMBER, TIGLOSTREMA_DISPLACEMENT_LEN);
}

/* What else may be wrong with the same block is tested before. */
static void in_one_block(void) {
    start();
    torn(7);
    set(TIGLOSTREMA_AT_DISPLACEMENT + 4 * 31, NOT_A_NUMBER);
    put();
    asked("a NaN in the table");
    start();
    torn(7);
    set(TIGLOSTREMA_AT_DISPLACEMENT + 4 * 31, 0x44800001u);
    put();
    asked("an entry above 1024");
    start();
    torn(7);
    set(TIGLOSTREMA_AT_CLIP, TIGLOSTREMA_MAX_PLACE + 1);
    put();
    asked("a clip out of its range");
}

/* Another block before the panel, and behind it. */
static void beside(const char *before, const char *behind, const uint8_t other[TIGLOSTREMA_BODY_LEN]) {
    start();
    memcpy(block, other, sizeof block);
    put();
    torn(7);
    put();
    asked(before);
    start();
    torn(7);
    put();
    memcpy(block, other, sizeof block);
    put();
    asked(behind);
}

static void in_two_blocks(void) {
    uint8_t other[TIGLOSTREMA_BODY_LEN];
    struct tiglostrema_frame frame = tiglostrema_default_frame();
    copy(8, 1);
    memcpy(other, block, sizeof other);
    beside("behind an absent source", "before an absent source", other);
    frame.x = 1;
    frame.width = WIDTH;
    tiglostrema_write_frame(other, &frame);
    beside("behind a wide frame", "before a wide frame", other);
    start();
    torn(7);
    put();
    copy(8, 0);
    put()[TIGLOSTREMA_AT_CHECK] ^= 1;
    asked("before a wrong check");
}

/* Behind two copies of one priority, which are found later; and as the new block where there is no room. */
static void later(void) {
    start();
    for (int i = 0; i < 2; i++) {
        copy(8, 0);
        put();
    }
    torn(7);
    put();
    asked("behind one priority twice");
    start();
    copy(7, 0);
    put();
    torn(7);
    memcpy(&lent, &held, sizeof lent);
    puts("its priority is held, and there is no room");
    told("add", tiglostrema_add(lent.rundown, TIGLOSTREMA_BLOCK_LEN, count, block));
}

int main(void) {
    examples();
    in_one_block();
    in_two_blocks();
    later();
    return 0;
}
