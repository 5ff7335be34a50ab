/*
 * Top bytes, through the header alone. Sources of AA112233 are copied in every way, and the words that this leaves are
 * printed: the top byte is 00 in each pixel that a copy paints and FF in a frame's, and a pixel that is not painted
 * keeps its whole word. What has to be printed was worked out by the rules, and not taken from a run.
 */
#include <stdio.h>
#include <stdlib.h>

#include "tiglostrema.h"

enum { WIDTH = 32, HEIGHT = 40, MOST = WIDTH * HEIGHT, LAYERS = 3 };

/* Three square sources. */
enum { THREE, EIGHT, TWELVE, SOURCES };
enum { TABLE = SOURCES * TIGLOSTREMA_SOURCE_WORDS, POOL = 3 * 3 + 8 * 8 + 12 * 12 };
static const uint32_t table[TABLE] = {3, 3, 8, 8, 12, 12};

static uint32_t pool[POOL], canvas[MOST], other[MOST];
static uint32_t width, height; /* of the canvas */
static uint8_t body[TIGLOSTREMA_BODY_LEN], rundown[LAYERS * TIGLOSTREMA_BLOCK_LEN], a[3 * MOST], b[3 * MOST];
static size_t count; /* of layers */

static void fail(const char *words) {
    puts(words);
    exit(1);
}

/* ---- Plays, and what is printed of them */

/* Adds the layer that was written last. */
static void add(void) {
    if (tiglostrema_add(rundown, sizeof rundown, count, body) != count + 1) fail("a layer was refused");
    count++;
}

static void play(void) {
    uint64_t answer = tiglostrema_play(rundown, count * TIGLOSTREMA_BLOCK_LEN, width, height, canvas,
        (size_t)width * height, table, TABLE, pool, POOL, a, sizeof a, b, sizeof b);
    if (answer != count) fail("the play was refused");
}

/* Plays the layers on a canvas that is this word all over. */
static void play_on(const char *name, uint32_t w, uint32_t h, uint32_t word) {
    puts(name);
    width = w;
    height = h;
    for (uint32_t i = 0; i < w * h; i++) canvas[i] = word;
    play();
}

/* Plays the layer that was written last, and no other. */
static void play_one_on(const char *name, uint32_t w, uint32_t h, uint32_t word) {
    count = 0;
    add();
    play_on(name, w, h, word);
}

static void print_words(void) {
    for (uint32_t i = 0; i < width * height; i++)
        printf("%08X%c", (unsigned)canvas[i], (i + 1) % width == 0 ? '\n' : ' ');
}

static void print_top_bytes(void) {
    for (uint32_t i = 0; i < width * height; i++)
        printf("%02X%c", (unsigned)(canvas[i] >> 24), (i + 1) % width == 0 ? '\n' : ' ');
}

static void print_pixel(uint32_t x, uint32_t y) {
    printf("  (%u, %u): %08X\n", (unsigned)x, (unsigned)y, (unsigned)canvas[y * width + x]);
}

static void print_frame_bytes(void) {
    unsigned number = 0;
    for (uint32_t i = 0; i < width * height; i++) number += canvas[i] >> 24 == 0xFF;
    printf("  FF in %u of %u pixels\n", number, (unsigned)(width * height));
}

/* ---- Layers are written */

static struct tiglostrema_rect square(float x, float y, float side) {
    struct tiglostrema_rect rect = {x, y, side, side};
    return rect;
}

/* A copy with its upper left pixel at (at, at). */
static void straight(uint32_t source, int32_t at, float radius, uint32_t alpha, uint32_t dim) {
    struct tiglostrema_straight copy = tiglostrema_default_straight();
    copy.source = source;
    copy.x = copy.y = at;
    copy.radius = radius;
    copy.alpha = alpha;
    copy.dim = dim;
    tiglostrema_write_straight(body, &copy);
}

static void exact(uint16_t priority, int32_t x, int32_t y) {
    struct tiglostrema_straight copy = tiglostrema_default_straight();
    copy.priority = priority;
    copy.source = THREE;
    copy.x = x;
    copy.y = y;
    tiglostrema_write_straight(body, &copy);
}

static void scaled(uint32_t source, struct tiglostrema_rect rect, float radius, float alpha) {
    struct tiglostrema_scaled copy = tiglostrema_default_scaled();
    copy.source = source;
    copy.rect = rect;
    copy.radius = radius;
    copy.alpha = alpha;
    tiglostrema_write_scaled(body, &copy);
}

/* At t = 1 all rows of the source lie in the target's row, from column 1.5 to column 25.5. */
static void genie(uint32_t source, float y, float t, float alpha) {
    struct tiglostrema_genie genie = tiglostrema_default_genie();
    genie.source = source;
    genie.rect = square(1, 1, 8);
    genie.target.x = 13.5f;
    genie.target.y = y;
    genie.t = t;
    genie.alpha = alpha;
    tiglostrema_write_genie(body, &genie);
}

static void frame(uint16_t priority, int32_t at, uint32_t w, uint32_t h) {
    struct tiglostrema_frame frame = tiglostrema_default_frame();
    frame.priority = priority;
    frame.x = frame.y = at;
    frame.width = w;
    frame.height = h;
    frame.tag = TIGLOSTREMA_TAG_BLUE_WORK;
    tiglostrema_write_frame(body, &frame);
}

/* ---- The words that copies and frames leave */

static void straight_words(void) {
    straight(THREE, 0, 0, 255, 0);
    play_one_on("an exact copy on black", 3, 3, 0);
    print_words();
    straight(THREE, 1, 0, 255, 0);
    play_one_on("an exact copy amid other words", 5, 5, 0xAA010203);
    print_words();
    straight(THREE, 0, 0, 0, 0);
    play_one_on("a copy of alpha 0", 3, 3, 0xAA010203);
    print_words();
    straight(THREE, 0, 0, 128, 0);
    play_one_on("a copy of alpha 128", 3, 3, 0xAA010203);
    print_words();
    straight(THREE, 0, 0, 255, 128);
    play_one_on("a copy dimmed by 128", 3, 3, 0xAA010203);
    print_words();
}

/* Only the four outermost pixels are not covered. With sides of 8 every other one lies in a square at a corner; with
   sides of 12 there are columns and rows between these. */
static void round_words(void) {
    straight(EIGHT, 0, 4, 255, 0);
    play_one_on("a round copy", 8, 8, 0xFF000000);
    print_top_bytes();
    print_pixel(0, 0);
    print_pixel(4, 4);
    straight(TWELVE, 0, 4, 255, 0);
    play_one_on("a larger round copy", 12, 12, 0xFF000000);
    print_top_bytes();
    print_pixel(0, 0);
    print_pixel(6, 6);
}

/* The frame's veil lies in columns 4 to 7 of rows 28 to 35; about it is the border. */
static void frame_words(void) {
    count = 0;
    exact(1, 5, 30);
    add();
    frame(2, 0, 12, 40);
    add();
    play_on("a frame over an exact copy", 12, 40, 0);
    print_pixel(0, 0);
    print_pixel(4, 30);
    print_pixel(5, 30);
    print_frame_bytes();
    exact(3, 6, 30);
    add();
    play_on("and an exact copy over the frame", 12, 40, 0);
    print_pixel(5, 30);
    print_pixel(7, 31);
    print_pixel(8, 31);
    print_pixel(9, 31);
    print_frame_bytes();
}

static void scaled_words(void) {
    scaled(THREE, square(1, 1, 6), 0, 1);
    play_one_on("a scaled copy", 8, 8, 0xAA010203);
    print_words();
    scaled(THREE, square(1.5f, 1, 6), 0, 1);
    play_one_on("a scaled copy half a pixel further", 8, 8, 0xAA010203);
    print_words();
}

/* Of the first and the last column of the row one half is covered, by each of the source's three rows. */
static void genie_words(void) {
    genie(THREE, 1.5f, 1, 1);
    play_one_on("a genie", 27, 3, 0xAA010203);
    print_top_bytes();
    print_pixel(0, 1);
    print_pixel(1, 1);
    print_pixel(13, 1);
    genie(THREE, 1.5f, 0, 1);
    play_one_on("a genie that has not set out", 10, 10, 0xAA010203);
    print_top_bytes();
    print_pixel(1, 1);
    print_pixel(5, 5);
}

/* ---- Every kind by itself: no pixel outside its box loses its top byte */

/* A word with a top byte that no layer writes. */
static uint32_t varied(uint32_t i) { return (1 + i % 254) << 24 | (0x050B11 * i & 0xFFFFFF); }

/* The layer that was written last becomes the only one, on a canvas of such words. */
static void begin_varied(void) {
    width = WIDTH;
    height = HEIGHT;
    for (uint32_t i = 0; i < MOST; i++) canvas[i] = varied(i);
    count = 0;
    add();
}

static bool in_box(const int32_t *box, int32_t x, int32_t y) {
    return box[0] <= x && x < box[2] && box[1] <= y && y < box[3];
}

/* How many pixels the layer paints: all lie in its box and have this top byte. Every other one keeps its word. */
static void paints(const char *name, uint32_t top) {
    int32_t boxes[TIGLOSTREMA_BOXES_LEN];
    uint64_t totals[TIGLOSTREMA_TOTALS_LEN];
    unsigned painted = 0;
    begin_varied();
    if (tiglostrema_forecast(rundown, TIGLOSTREMA_BLOCK_LEN, width, height, table, TABLE, boxes, totals) != 1)
        fail("the forecast was refused");
    play();
    for (int32_t i = 0; i < MOST; i++) {
        if (canvas[i] == varied((uint32_t)i)) continue;
        if (!in_box(boxes, i % WIDTH, i / WIDTH)) fail("a pixel is painted outside the box");
        if (canvas[i] >> 24 != top) fail("a pixel is painted with another top byte");
        painted++;
    }
    printf("%s: %02X in %u pixels\n", name, (unsigned)top, painted);
}

static void shapes(void) {
    struct tiglostrema_fill fill = tiglostrema_default_fill();
    fill.rect = square(4, 4, 8);
    fill.radius = 4;
    tiglostrema_write_fill(body, &fill);
    paints("a clear fill", 0);
    fill.paint.c0.a = 255;
    tiglostrema_write_fill(body, &fill);
    paints("a round fill", 0);
    struct tiglostrema_stroke stroke = tiglostrema_default_stroke();
    stroke.rect = square(4, 4, 8);
    stroke.width = 2;
    stroke.color.a = 255;
    tiglostrema_write_stroke(body, &stroke);
    paints("a stroke", 0);
    struct tiglostrema_shadow shadow = tiglostrema_default_shadow();
    shadow.rect = square(4, 4, 8);
    shadow.blur = 2;
    shadow.color.a = 255;
    tiglostrema_write_shadow(body, &shadow);
    paints("a shadow", 0);
}

static void panels(void) {
    struct tiglostrema_glass glass = tiglostrema_default_glass();
    glass.rect = square(4, 4, 8);
    glass.blur = 3;
    tiglostrema_write_glass(body, &glass);
    paints("glass", 0);
    glass.radius = 4;
    tiglostrema_write_glass(body, &glass);
    paints("round glass", 0);
    frame(0, 4, 8, 34);
    paints("a frame", 0xFF);
}

static void straight_copies(void) {
    straight(EIGHT, 4, 0, 255, 0);
    paints("an exact copy", 0);
    straight(EIGHT, 4, 4, 255, 0);
    paints("a round copy", 0);
    straight(TWELVE, 4, 4, 255, 0);
    paints("a larger round copy", 0);
    straight(EIGHT, 4, 0, 0, 0);
    paints("a clear copy", 0);
    straight(TWELVE, 4, 4, 0, 0);
    paints("a clear round copy", 0);
    straight(EIGHT, -4, 0, 255, 0);
    paints("an exact copy over the canvas's corner", 0);
}

/* Six columns and three rows of the copy are left. */
static void clipped_copy(void) {
    struct tiglostrema_straight copy = tiglostrema_default_straight();
    copy.source = EIGHT;
    copy.x = copy.y = 4;
    copy.clip.x0 = 6;
    copy.clip.y1 = 7;
    tiglostrema_write_straight(body, &copy);
    paints("an exact copy under a clip", 0);
}

static void other_copies(void) {
    scaled(THREE, square(4.5f, 4, 8), 0, 1);
    paints("a scaled copy", 0);
    scaled(THREE, square(4.5f, 4, 8), 0, 1.0f / 512);
    paints("a scaled copy of alpha 1 / 512", 0);
    scaled(THREE, square(4.5f, 4, 8), 0, 0);
    paints("a clear scaled copy", 0);
    genie(THREE, 20.5f, 1, 1);
    paints("a genie", 0);
    genie(THREE, 20.5f, 1, 0);
    paints("a clear genie", 0);
    genie(THREE, 20.5f, 0, 1);
    paints("a genie that has not set out", 0);
}

/* ---- Two pools that differ in top bytes alone */

static void fill_pool(uint32_t bits) {
    for (uint32_t i = 0; i < POOL; i++) pool[i] = varied(i) & bits;
}

/* The layer gives the same words over both. */
static void agrees(void) {
    fill_pool(0xFFFFFF);
    begin_varied();
    play();
    memcpy(other, canvas, sizeof other);
    fill_pool(UINT32_MAX);
    begin_varied();
    play();
    if (memcmp(other, canvas, sizeof other) != 0) fail("a source's top bytes matter");
}

/* Six copies at every alpha. */
static void straight_agrees(void) {
    static const float radii[] = {0, 0.5f, 4};
    for (uint32_t i = 0; i < 6 * 256; i++) {
        straight(TWELVE, 3, radii[i / 512], i % 256, i / 256 % 2 * 100);
        agrees();
    }
    puts("straight copies take nothing from a source's top bytes");
}

static void scaled_agrees(void) {
    for (int i = 0; i <= 64; i++) {
        scaled(TWELVE, square(3.25f, 2.5f, (float)(12 + i % 8)), (float)(i % 5), (float)i / 64);
        agrees();
    }
    puts("nor do scaled copies");
}

static void genie_agrees(void) {
    for (int i = 0; i <= 64; i++) {
        genie(TWELVE, 33, (float)i / 64, (float)(64 - i % 32) / 64);
        agrees();
    }
    puts("nor do genies");
}

int main(void) {
    for (int i = 0; i < POOL; i++) pool[i] = 0xAA112233;
    straight_words();
    round_words();
    frame_words();
    scaled_words();
    genie_words();
    shapes();
    panels();
    straight_copies();
    clipped_copy();
    other_copies();
    straight_agrees();
    scaled_agrees();
    genie_agrees();
    return 0;
}
