/*
 * A block of each kind by the header's writers: tiglostrema_add takes it, and its bytes are printed, to be held to
 * blocks.out, to which the Rust crate's blocks of the same layers are held as well (bindings/rust/tests/blocks.rs). The
 * fields of a layer differ, so that one in another's place would show.
 */
#include <stdio.h>
#include <stdlib.h>

#include "tiglostrema.h"

enum { PRIORITY = 0x1234, ROW = 16 };

static const struct tiglostrema_rect rect = {1.5f, 2.5f, 3.5f, 4.5f};
static const struct tiglostrema_clip clip = {-1, -2, 7, 8};
static const struct tiglostrema_color ink = {0x11, 0x22, 0x33, 0x44}, other = {0x55, 0x66, 0x77, 0x88};

/* Each layer is written over the one before it, so that a byte which a writer leaves alone would show. */
static uint8_t block[TIGLOSTREMA_BODY_LEN];

static int all_zero(const uint8_t *row) {
    for (int i = 0; i < ROW; i++)
        if (row[i] != 0) return 0;
    return 1;
}

/* One row of the block's bytes behind its offset; none where all are 0. */
static void print_row(const uint8_t *held, int at) {
    if (all_zero(held + at)) return;
    printf("%3d:", at);
    for (int i = 0; i < ROW; i++) printf(" %02x", (unsigned)held[at + i]);
    printf("\n");
}

/* Adds the block, and prints the 512 bytes that are held then. */
static void stands(const char *name) {
    uint8_t held[TIGLOSTREMA_BLOCK_LEN];
    uint64_t answer = tiglostrema_add(held, sizeof held, 0, block);
    if (answer != 1) {
        uint32_t cause = tiglostrema_cause_of(answer);
        printf("%s: refused: %s (cause %u)\n", name, tiglostrema_cause_words(cause), (unsigned)cause);
        exit(1);
    }
    printf("%s\n", name);
    for (int at = 0; at < TIGLOSTREMA_BLOCK_LEN; at += ROW) print_row(held, at);
}

static void fill(const char *name, struct tiglostrema_paint paint) {
    struct tiglostrema_fill layer = {
        .priority = PRIORITY, .rect = rect, .radius = 0.75f, .paint = paint, .clip = clip};
    tiglostrema_write_fill(block, &layer);
    stands(name);
}

/* Each has what the other paints need, too: that must not be written. */
static void fills(void) {
    struct tiglostrema_paint paint = {.number = TIGLOSTREMA_PAINT_SOLID, .c0 = ink, .c1 = other,
        .y0 = 8.5f, .y1 = 9.5f, .p0 = {1.25f, 2.25f}, .p1 = {3.25f, 4.25f}, .centre = {5.25f, 6.25f}, .radius = 7.25f};
    fill("fill solid", paint);
    paint.number = TIGLOSTREMA_PAINT_VGRAD;
    fill("fill vgrad", paint);
    paint.number = TIGLOSTREMA_PAINT_LINEAR;
    fill("fill linear", paint);
    paint.number = TIGLOSTREMA_PAINT_RADIAL;
    fill("fill radial", paint);
}

static void shapes(void) {
    struct tiglostrema_stroke stroke = {
        .priority = PRIORITY, .rect = rect, .radius = 0.75f, .width = 6.5f, .color = ink, .clip = clip};
    tiglostrema_write_stroke(block, &stroke);
    stands("stroke");
    struct tiglostrema_shadow shadow = {
        .priority = PRIORITY, .rect = rect, .radius = 0.75f, .blur = 7.5f, .color = ink, .clip = clip};
    tiglostrema_write_shadow(block, &shadow);
    stands("shadow");
    shadow.skip_inside = true;
    tiglostrema_write_shadow(block, &shadow);
    stands("shadow skip_inside");
}

static void glass(void) {
    struct tiglostrema_glass panel = {.priority = PRIORITY, .rect = rect, .radius = 0.75f, .blur = 7.5f, .tint = ink,
        .saturation = 1.125f, .brightness = -0.25f, .bezel = 20.25f, .spec = 0.625f, .clip = clip};
    for (int i = 0; i < TIGLOSTREMA_DISPLACEMENT_LEN; i++)
        panel.displacement[i] = (float)(TIGLOSTREMA_DISPLACEMENT_LEN - 1 - i);
    tiglostrema_write_glass(block, &panel);
    stands("glass");
}

static void copies(void) {
    struct tiglostrema_straight straight = {.priority = PRIORITY, .source = 9, .x = -10, .y = 11, .radius = 0.75f,
        .alpha = 200, .dim = 30, .clip = clip};
    tiglostrema_write_straight(block, &straight);
    stands("straight");
    struct tiglostrema_scaled scaled = {
        .priority = PRIORITY, .source = 9, .rect = rect, .radius = 0.75f, .alpha = 0.375f, .clip = clip};
    tiglostrema_write_scaled(block, &scaled);
    stands("scaled");
    struct tiglostrema_genie genie = {.priority = PRIORITY, .source = 9, .rect = rect, .target = {12.5f, 13.5f},
        .t = 0.875f, .alpha = 0.375f, .clip = clip};
    tiglostrema_write_genie(block, &genie);
    stands("genie");
}

static void frame(const char *name, uint8_t tag, bool tint, bool xray) {
    struct tiglostrema_frame layer = {.priority = PRIORITY, .x = 9, .y = 10, .width = 11, .height = 12, .border = 13,
        .tag = tag, .tint = tint, .xray = xray, .clip = clip};
    tiglostrema_write_frame(block, &layer);
    stands(name);
}

static void frames(void) {
    frame("frame obsidian admin", TIGLOSTREMA_TAG_OBSIDIAN_ADMIN, false, false);
    frame("frame purple vault", TIGLOSTREMA_TAG_PURPLE_VAULT, false, false);
    frame("frame mint personal", TIGLOSTREMA_TAG_MINT_PERSONAL, false, false);
    frame("frame blue work", TIGLOSTREMA_TAG_BLUE_WORK, false, false);
    frame("frame amber usb", TIGLOSTREMA_TAG_AMBER_USB, false, false);
    frame("frame red untrusted net", TIGLOSTREMA_TAG_RED_UNTRUSTED_NET, false, false);
    frame("frame magenta disposable", TIGLOSTREMA_TAG_MAGENTA_DISPOSABLE, false, false);
    frame("frame tint", TIGLOSTREMA_TAG_AMBER_USB, true, false);
    frame("frame xray", TIGLOSTREMA_TAG_AMBER_USB, false, true);
}

int main(void) {
    fills();
    shapes();
    glass();
    copies();
    frames();
    return 0;
}
