/*
 * Where blocks stand, through the header alone: after each call their priorities are printed in the buffer's order. They
 * ascend as numbers once an add or a remove was carried out, in whatever order they came; a refused call leaves every
 * byte; and a layer that is removed and added again gives every byte of an ordered rundown back.
 */
#include <math.h>
#include <stdio.h>
#include <stdlib.h>

#include "tiglostrema.h"

enum { MOST = TIGLOSTREMA_MAX_LAYERS, LEN = TIGLOSTREMA_BLOCK_LEN };

/* The buffer with a block more than a call is ever lent, and what it held before the call. */
static uint8_t buffer[(MOST + 1) * LEN], before[sizeof buffer];
static size_t count, room; /* blocks at its front, and bytes that are lent */

static void fail(const char *words) {
    printf(": %s\n", words);
    exit(1);
}

/* A copy with its priority in other fields as well: a block that is not moved whole would show. */
static struct tiglostrema_straight copy(uint16_t priority) {
    struct tiglostrema_straight layer = tiglostrema_default_straight();
    layer.priority = priority;
    layer.source = 0x10001u * priority;
    layer.clip.x1 = priority / 4;
    return layer;
}

/* The copy's block, by an add to no other. */
static void make(uint8_t block[LEN], uint16_t priority) {
    uint8_t body[TIGLOSTREMA_BODY_LEN];
    struct tiglostrema_straight layer = copy(priority);
    tiglostrema_write_straight(body, &layer);
    if (tiglostrema_add(block, LEN, 0, body) != 1) fail("a block was refused");
}

static uint16_t priority_at(size_t place) {
    const uint8_t *at = buffer + place * LEN + TIGLOSTREMA_AT_PRIORITY;
    return (uint16_t)(at[0] | at[1] << 8);
}

/* The priorities in the order of the buffer; of many the first and the last. */
static void print_order(void) {
    for (size_t i = 0; i < count; i++) {
        if (count <= 8 || i < 3 || i + 2 > count) printf(" %u", (unsigned)priority_at(i));
        if (count > 8 && i == 3) printf(" ...");
    }
    puts("");
}

/* Blocks put side by side in this order, as a file may hold them, with room for one more. */
static void hold(const char *name, const uint16_t *priorities, size_t number) {
    memset(buffer, 0xA5, sizeof buffer);
    for (count = 0; count < number; count++) make(buffer + count * LEN, priorities[count]);
    room = (count + 1) * LEN;
    printf("%s:", name);
    print_order();
}

/* Each block is whole, and the next one has a higher priority. */
static void must_ascend(void) {
    uint8_t block[LEN];
    for (size_t i = 0; i < count; i++) {
        make(block, priority_at(i));
        if (memcmp(block, buffer + i * LEN, LEN) != 0) fail("a block has changed");
        if (i > 0 && priority_at(i - 1) >= priority_at(i)) fail("the blocks do not ascend");
    }
}

/* Says what the call answered, and in which order the blocks stand now. Bytes that were not lent are as they were, and
   after a refusal all others, too. */
static void told(const char *call, unsigned priority, uint64_t answer) {
    uint32_t cause = tiglostrema_cause_of(answer), value = tiglostrema_value_of(answer);
    bool done = cause == TIGLOSTREMA_DONE;
    size_t kept = done ? room : 0;
    printf("  %s %u: ", call, priority);
    if (done)
        printf("%u held:", (unsigned)value);
    else
        printf("refused by %u with %u:", (unsigned)cause, (unsigned)value);
    if (memcmp(before + kept, buffer + kept, sizeof buffer - kept) != 0) fail("bytes have changed that may not");
    if (done) count = value;
    print_order();
    if (done) must_ascend();
}

/* Adds these bytes. */
static void add_body(const char *call, unsigned priority, const uint8_t body[TIGLOSTREMA_BODY_LEN]) {
    memcpy(before, buffer, sizeof buffer);
    told(call, priority, tiglostrema_add(buffer, room, count, body));
}

static void add_layer(const char *call, struct tiglostrema_straight layer) {
    uint8_t body[TIGLOSTREMA_BODY_LEN];
    tiglostrema_write_straight(body, &layer);
    add_body(call, layer.priority, body);
}

static void add(uint16_t priority) { add_layer("add", copy(priority)); }

static void take(uint16_t priority) {
    memcpy(before, buffer, sizeof buffer);
    told("remove", priority, tiglostrema_remove(buffer, room, count, priority));
}

static void worked(void) {
    static const uint16_t turned[] = {10, 9};
    hold("unordered", turned, 2);
    add(256);
    take(10);
    hold("unordered", turned, 2);
    take(10);
}

/* The new block first, in the middle and last; then the first removed, one in the middle, the last, the only one. */
static void places(void) {
    static const uint16_t one[] = {10};
    hold("ordered", one, 1);
    room = 4 * LEN;
    add(3);
    add(300);
    add(20);
    take(3);
    take(20);
    take(300);
    take(10);
    add(10);
}

/* Numbers whose order is another one as text, by their low bytes and as signed numbers. */
static void numbers(void) {
    static const uint16_t mixed[] = {32768, 256, 10, 65535, 255, 9, 0};
    hold("unordered", mixed, 7);
    add(32767);
    hold("unordered", mixed, 7);
    take(65535);
}

/* Each layer of an ordered rundown in turn is removed, and its 508 bytes are added again. */
static void there_and_back(void) {
    static const uint16_t ordered[] = {9, 10, 256};
    static uint8_t old[3 * LEN];
    hold("ordered", ordered, 3);
    memcpy(old, buffer, sizeof old);
    for (size_t i = 0; i < 3; i++) {
        take(ordered[i]);
        add_body("add", ordered[i], old + i * LEN);
        if (memcmp(old, buffer, sizeof old) != 0) fail("another rundown than before");
    }
    puts("  every byte is back");
}

/* What is refused for the new block, which counts as the block behind the last. */
static void refused_anew(void) {
    uint8_t body[TIGLOSTREMA_BODY_LEN];
    struct tiglostrema_straight layer = copy(5);
    tiglostrema_write_straight(body, &layer);
    body[TIGLOSTREMA_AT_KIND] = TIGLOSTREMA_KIND_FRAME + 1;
    add_body("add, of no kind,", 5, body);
    layer.radius = NAN;
    add_layer("add, its radius no number,", layer);
    layer.radius = 0;
    layer.alpha = TIGLOSTREMA_FULL_ALPHA + 1;
    add_layer("add, its alpha too high,", layer);
    struct tiglostrema_glass glass = tiglostrema_default_glass();
    glass.priority = 5;
    glass.bezel = 1;
    glass.displacement[0] = 2;
    tiglostrema_write_glass(body, &glass);
    add_body("add, its table too far,", 5, body);
    add(9);
    room = count * LEN;
    add(5);
    take(5);
}

/* What is refused for a block that is held, which is counted as it came, or for the buffer. */
static void refused_held(void) {
    buffer[LEN + TIGLOSTREMA_AT_CHECK] ^= 1;
    add(5);
    take(256);
    buffer[LEN + TIGLOSTREMA_AT_CHECK] ^= 1;
    make(buffer + 2 * LEN, 9);
    add(5);
    take(9);
    room = count * LEN - 1;
    add(5);
    take(9);
}

static void refusals(void) {
    static const uint16_t turned[] = {256, 9, 10};
    hold("unordered", turned, 3);
    refused_anew();
    refused_held();
}

/* As many as there may be, the highest first. */
static void full(void) {
    uint16_t turned[MOST];
    for (uint32_t i = 0; i < MOST; i++) turned[i] = (uint16_t)(257 * (MOST - 1 - i));
    hold("the other way round", turned, MOST);
    room = MOST * LEN;
    add(1);
    take(1);
    take(257);
    add(1);
    hold("the other way round", turned, MOST - 1);
    add(0);
}

int main(void) {
    worked();
    places();
    numbers();
    there_and_back();
    refusals();
    full();
    return 0;
}
