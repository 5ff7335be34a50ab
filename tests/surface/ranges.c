/*
 * The ranges that the header's comments name, and the fields that each kind uses. Of every field both ends are taken,
 * and what lies just beyond them is refused: a float by cause 6, an integer by cause 7, a number of a list by cause 5,
 * an entry of a displacement table that its bezel does not allow by cause 15.
 * A byte that is no field of the kind is refused by cause 5 as soon as it is not 0.
 */
#include <math.h>
#include <stdio.h>

#include "tiglostrema.h"

/* The layer that is looked at, its bytes, and which of them belong to a field. */
static const char *name;
static uint8_t good[TIGLOSTREMA_BODY_LEN], tried[TIGLOSTREMA_BODY_LEN];
static bool used[TIGLOSTREMA_BODY_LEN];
static unsigned asked, wrong;

/* tiglostrema_add on the tried bytes answers this cause, and leaves the buffer alone where it is one. */
static void expect(uint32_t cause, int at, double value) {
    static const uint8_t untouched[TIGLOSTREMA_BLOCK_LEN] = {0};
    uint8_t held[TIGLOSTREMA_BLOCK_LEN] = {0};
    uint32_t got = tiglostrema_cause_of(tiglostrema_add(held, sizeof held, 0, tried));
    bool changed = memcmp(held, untouched, sizeof held) != 0;
    asked++;
    if (got == cause && changed == (cause == TIGLOSTREMA_DONE)) return;
    wrong++;
    printf("%s, offset %d, value %g: cause %u, not %u%s\n", name, at, value, (unsigned)got, (unsigned)cause,
        got != TIGLOSTREMA_DONE && changed ? "; the buffer has changed" : "");
}

static void mark(int at, int bytes) { memset(used + at, true, (size_t)bytes); }

static void with_float(int at, float value, uint32_t cause) {
    memcpy(tried, good, sizeof tried);
    tiglostrema_putf_(tried + at, value);
    expect(cause, at, (double)value);
}

/* A float field. */
static void float_field(int at, float low, float high) {
    mark(at, 4);
    with_float(at, low, TIGLOSTREMA_DONE);
    with_float(at, high, TIGLOSTREMA_DONE);
    if (low == 0) with_float(at, -0.0f, TIGLOSTREMA_DONE);
    with_float(at, nextafterf(low, -INFINITY), TIGLOSTREMA_BAD_FLOAT);
    with_float(at, nextafterf(high, INFINITY), TIGLOSTREMA_BAD_FLOAT);
    with_float(at, INFINITY, TIGLOSTREMA_BAD_FLOAT);
    with_float(at, NAN, TIGLOSTREMA_BAD_FLOAT);
}

static void floats(int at, int count, float low, float high) {
    for (int i = 0; i < count; i++) float_field(at + 4 * i, low, high);
}

/* The entries of a displacement table but the last: 0 to 1024, of which the bezel of the layer allows so much. */
static void entries(float most) {
    for (int i = 0; i < TIGLOSTREMA_DISPLACEMENT_LEN - 1; i++) {
        int at = TIGLOSTREMA_AT_DISPLACEMENT + 4 * i;
        mark(at, 4);
        with_float(at, 0, TIGLOSTREMA_DONE);
        with_float(at, -0.0f, TIGLOSTREMA_DONE);
        with_float(at, most, TIGLOSTREMA_DONE);
        with_float(at, nextafterf(most, INFINITY), TIGLOSTREMA_BAD_BEND);
        with_float(at, 1024, TIGLOSTREMA_BAD_BEND);
        with_float(at, nextafterf(1024, INFINITY), TIGLOSTREMA_BAD_FLOAT);
        with_float(at, nextafterf(0, -INFINITY), TIGLOSTREMA_BAD_FLOAT);
        with_float(at, INFINITY, TIGLOSTREMA_BAD_FLOAT);
        with_float(at, NAN, TIGLOSTREMA_BAD_FLOAT);
    }
}

static void with_integer(int at, int32_t value, uint32_t cause) {
    memcpy(tried, good, sizeof tried);
    tiglostrema_put32_(tried + at, (uint32_t)value);
    expect(cause, at, value);
}

/* An integer field, signed or not: as an unsigned number what is below 0 is far above. */
static void integer_field(int at, int32_t low, int32_t high) {
    mark(at, 4);
    with_integer(at, low, TIGLOSTREMA_DONE);
    with_integer(at, high, TIGLOSTREMA_DONE);
    with_integer(at, low - 1, TIGLOSTREMA_BAD_INTEGER);
    with_integer(at, high + 1, TIGLOSTREMA_BAD_INTEGER);
    with_integer(at, INT32_MIN, TIGLOSTREMA_BAD_INTEGER);
    with_integer(at, INT32_MAX, TIGLOSTREMA_BAD_INTEGER);
}

static void integers(int at, int count, int32_t low, int32_t high) {
    for (int i = 0; i < count; i++) integer_field(at + 4 * i, low, high);
}

static void with_byte(int at, int value, uint32_t cause) {
    memcpy(tried, good, sizeof tried);
    tried[at] = (uint8_t)value;
    expect(cause, at, value);
}

/* A byte that is a number from 0 to high, or a set of bits of which high has all. */
static void byte_field(int at, int high) {
    mark(at, 1);
    for (int value = 0; value < 256; value++)
        with_byte(at, value, value <= high ? TIGLOSTREMA_DONE : TIGLOSTREMA_BAD_FORM);
}

/* Bytes that may hold anything: colours, a source's number, a priority. */
static void free_bytes(int at, int count) {
    mark(at, count);
    for (int i = 0; i < count; i++) with_byte(at + i, 255, TIGLOSTREMA_DONE);
}

static void rectangle(void) {
    floats(TIGLOSTREMA_AT_RECT, 2, -16384, 16384);
    floats(TIGLOSTREMA_AT_RECT + 8, 2, 0, 16384);
}

static void radius(void) { floats(TIGLOSTREMA_AT_RADIUS, 1, 0, 8192); }

static void color(void) { free_bytes(TIGLOSTREMA_AT_COLOR, 4); }

/* Begins with the layer in `good`: the fields that every kind has. */
static void begin(const char *of, int flags) {
    name = of;
    memset(used, false, sizeof used);
    mark(TIGLOSTREMA_AT_KIND, 1);
    with_byte(TIGLOSTREMA_AT_KIND, 0, TIGLOSTREMA_BAD_FORM);
    with_byte(TIGLOSTREMA_AT_KIND, TIGLOSTREMA_KIND_FRAME + 1, TIGLOSTREMA_BAD_FORM);
    byte_field(TIGLOSTREMA_AT_FLAGS, flags);
    free_bytes(TIGLOSTREMA_AT_PRIORITY, 2);
    integers(TIGLOSTREMA_AT_CLIP, 4, -TIGLOSTREMA_MAX_PLACE, TIGLOSTREMA_MAX_PLACE);
}

/* Ends it: all other bytes are unused. */
static void end(void) {
    for (int at = 0; at < TIGLOSTREMA_BODY_LEN; at++)
        if (!used[at]) with_byte(at, 1, TIGLOSTREMA_BAD_FORM);
}

/* A fill, with as many paint numbers as its paint has; a radius among them is the third. */
static void fill(const char *of, uint8_t number, int places, bool round) {
    struct tiglostrema_fill layer = tiglostrema_default_fill();
    layer.paint.number = number;
    tiglostrema_write_fill(good, &layer);
    begin(of, 0);
    rectangle();
    radius();
    color();
    mark(TIGLOSTREMA_AT_PAINT, 1);
    with_byte(TIGLOSTREMA_AT_PAINT, TIGLOSTREMA_PAINT_RADIAL + 1, TIGLOSTREMA_BAD_FORM);
    if (number != TIGLOSTREMA_PAINT_SOLID) free_bytes(TIGLOSTREMA_AT_SECOND_COLOR, 4);
    floats(TIGLOSTREMA_AT_NUMBERS, places, -16384, 16384);
    if (round) floats(TIGLOSTREMA_AT_NUMBERS + 4 * places, 1, 0, 16384);
    end();
}

static void shapes(void) {
    struct tiglostrema_stroke stroke = tiglostrema_default_stroke();
    tiglostrema_write_stroke(good, &stroke);
    begin("stroke", 0);
    rectangle();
    radius();
    color();
    floats(TIGLOSTREMA_AT_STROKE_WIDTH, 1, 0, 256);
    end();

    struct tiglostrema_shadow shadow = tiglostrema_default_shadow();
    tiglostrema_write_shadow(good, &shadow);
    begin("shadow", TIGLOSTREMA_FLAG_SHADOW_SKIP_INSIDE);
    rectangle();
    radius();
    color();
    floats(TIGLOSTREMA_AT_BLUR, 1, 0, 256);
    end();
}

static void glass(void) {
    struct tiglostrema_glass layer = tiglostrema_default_glass();
    layer.bezel = 1; /* so that the displacement table is read */
    tiglostrema_write_glass(good, &layer);
    begin("glass", 0);
    rectangle();
    radius();
    color();
    floats(TIGLOSTREMA_AT_BLUR, 1, 0, 64);
    floats(TIGLOSTREMA_AT_SATURATION, 1, 0, 8);
    floats(TIGLOSTREMA_AT_BRIGHTNESS, 1, -1, 1);
    floats(TIGLOSTREMA_AT_BEZEL, 1, 0, 256);
    floats(TIGLOSTREMA_AT_SPEC, 1, 0, 1);
    entries(1.6f);
    floats(TIGLOSTREMA_AT_DISPLACEMENT + 4 * (TIGLOSTREMA_DISPLACEMENT_LEN - 1), 1, 0, 0);
    end();
    layer.bezel = 256;
    tiglostrema_write_glass(good, &layer);
    entries(409.6f);
    layer.bezel = 0.5f; /* now it is not read */
    tiglostrema_write_glass(good, &layer);
    free_bytes(TIGLOSTREMA_AT_DISPLACEMENT, 4 * TIGLOSTREMA_DISPLACEMENT_LEN);
}

static void straight(void) {
    struct tiglostrema_straight layer = tiglostrema_default_straight();
    tiglostrema_write_straight(good, &layer);
    begin("straight", 0);
    radius();
    free_bytes(TIGLOSTREMA_AT_SOURCE, 4);
    integers(TIGLOSTREMA_AT_X, 1, -16384, 16384);
    integers(TIGLOSTREMA_AT_Y, 1, -16384, 16384);
    integers(TIGLOSTREMA_AT_ALPHA, 1, 0, TIGLOSTREMA_FULL_ALPHA);
    integers(TIGLOSTREMA_AT_DIM, 1, 0, 255);
    end();
}

static void bent(void) {
    struct tiglostrema_scaled scaled = tiglostrema_default_scaled();
    tiglostrema_write_scaled(good, &scaled);
    begin("scaled", 0);
    rectangle();
    radius();
    free_bytes(TIGLOSTREMA_AT_SOURCE, 4);
    floats(TIGLOSTREMA_AT_FLOAT_ALPHA, 1, 0, 1);
    end();

    struct tiglostrema_genie genie = tiglostrema_default_genie();
    tiglostrema_write_genie(good, &genie);
    begin("genie", 0);
    rectangle();
    free_bytes(TIGLOSTREMA_AT_SOURCE, 4);
    floats(TIGLOSTREMA_AT_TARGET, 2, -16384, 16384);
    floats(TIGLOSTREMA_AT_T, 1, 0, 1);
    floats(TIGLOSTREMA_AT_FLOAT_ALPHA, 1, 0, 1);
    end();
}

static void frame(void) {
    struct tiglostrema_frame layer = tiglostrema_default_frame();
    tiglostrema_write_frame(good, &layer);
    begin("frame", TIGLOSTREMA_FLAG_FRAME_TINT | TIGLOSTREMA_FLAG_FRAME_XRAY);
    integers(TIGLOSTREMA_AT_X, 1, 0, 16384);
    integers(TIGLOSTREMA_AT_Y, 1, 0, 16384);
    integers(TIGLOSTREMA_AT_WIDTH, 1, 0, 4096);
    integers(TIGLOSTREMA_AT_HEIGHT, 1, 0, 4096);
    integers(TIGLOSTREMA_AT_BORDER, 1, 0, 4096);
    byte_field(TIGLOSTREMA_AT_TAG, TIGLOSTREMA_TAG_MAGENTA_DISPOSABLE);
    end();
}

int main(void) {
    fill("fill solid", TIGLOSTREMA_PAINT_SOLID, 0, false);
    fill("fill vgrad", TIGLOSTREMA_PAINT_VGRAD, 2, false);
    fill("fill linear", TIGLOSTREMA_PAINT_LINEAR, 4, false);
    fill("fill radial", TIGLOSTREMA_PAINT_RADIAL, 2, true);
    shapes();
    glass();
    straight();
    bent();
    frame();
    printf("%u values asked, %u wrong\n", asked, wrong);
    return wrong != 0;
}
