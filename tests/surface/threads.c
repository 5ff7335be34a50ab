/*
 * Calls in many threads at once, each on buffers of its own, with one pool that all of them read: the canvases, played
 * at once and in steps, maps, forecasts, rundowns and dearest panels are those of the same calls one after the other.
 */
#include <pthread.h>
#include <stdio.h>

#include "tiglostrema.h"

enum { THREADS = 4, TURNS = 20, WIDTH = 96, HEIGHT = 64, PIXELS = WIDTH * HEIGHT, LAYERS = 4 };
enum { SIDE = 24, POOL = SIDE * SIDE };

static const uint32_t table[TIGLOSTREMA_SOURCE_WORDS] = {SIDE, SIDE};
static uint32_t pool[POOL];

/* What one thread writes, and whether every call was carried out. */
struct work {
    int number;
    bool done;
    size_t count;
    uint8_t rundown[LAYERS * TIGLOSTREMA_BLOCK_LEN], map[PIXELS], a[3 * PIXELS], b[3 * PIXELS];
    uint8_t dearest[TIGLOSTREMA_BLOCK_LEN];
    uint32_t canvas[PIXELS], in_steps[PIXELS];
    int32_t boxes[TIGLOSTREMA_BOXES_LEN];
    uint64_t totals[TIGLOSTREMA_TOTALS_LEN];
};

static struct work alone[THREADS], together[THREADS];

/* Adds a block; the count stays where it is refused, and the work is not done. */
static void add(struct work *work, const uint8_t *block) {
    uint64_t answer = tiglostrema_add(work->rundown, sizeof work->rundown, work->count, block);
    if (tiglostrema_cause_of(answer) == TIGLOSTREMA_DONE)
        work->count = tiglostrema_value_of(answer);
    else
        work->done = false;
}

static void add_fill(struct work *work, uint8_t block[TIGLOSTREMA_BODY_LEN]) {
    struct tiglostrema_fill fill = tiglostrema_default_fill();
    fill.priority = 1;
    fill.rect.w = WIDTH;
    fill.rect.h = HEIGHT;
    fill.paint.number = TIGLOSTREMA_PAINT_VGRAD;
    fill.paint.c0.g = (uint8_t)(50 * work->number);
    fill.paint.c0.a = fill.paint.c1.a = fill.paint.c1.b = TIGLOSTREMA_FULL_ALPHA;
    fill.paint.y1 = HEIGHT;
    tiglostrema_write_fill(block, &fill);
    add(work, block);
}

static void add_copies(struct work *work, uint8_t block[TIGLOSTREMA_BODY_LEN]) {
    struct tiglostrema_scaled scaled = tiglostrema_default_scaled();
    scaled.priority = 2;
    scaled.rect.x = (float)work->number;
    scaled.rect.w = scaled.rect.h = 1.7f * (float)SIDE;
    tiglostrema_write_scaled(block, &scaled);
    add(work, block);
    struct tiglostrema_genie genie = tiglostrema_default_genie();
    genie.priority = 4;
    genie.rect = scaled.rect;
    genie.target.x = WIDTH;
    genie.target.y = HEIGHT;
    genie.t = 0.25f * (float)work->number;
    tiglostrema_write_genie(block, &genie);
    add(work, block);
}

static float blur(const struct work *work) { return 3.5f * (float)work->number; }

static void add_glass(struct work *work, uint8_t block[TIGLOSTREMA_BODY_LEN]) {
    struct tiglostrema_glass glass = tiglostrema_default_glass();
    glass.priority = 3;
    glass.rect.x = glass.rect.y = 10;
    glass.rect.w = glass.rect.h = 40;
    glass.radius = 8;
    glass.blur = blur(work);
    tiglostrema_write_glass(block, &glass);
    add(work, block);
}

/* Plays the rundown layer by layer on another canvas, which has to end as the one that was played at once. */
static void play_in_steps(struct work *work, size_t len) {
    memset(work->in_steps, 0, sizeof work->in_steps);
    uint32_t last = TIGLOSTREMA_NONE, steps = 0;
    uint64_t answer = tiglostrema_begin(work->rundown, len, WIDTH, HEIGHT, work->in_steps, PIXELS,
        table, TIGLOSTREMA_SOURCE_WORDS, pool, POOL, work->a, sizeof work->a, work->b, sizeof work->b);
    if (answer != LAYERS) work->done = false;
    while (tiglostrema_cause_of(answer) == TIGLOSTREMA_DONE && steps <= LAYERS) {
        answer = tiglostrema_step(work->rundown, len, WIDTH, HEIGHT, work->in_steps, PIXELS,
            table, TIGLOSTREMA_SOURCE_WORDS, pool, POOL, work->a, sizeof work->a, work->b, sizeof work->b, last);
        last = tiglostrema_value_of(answer);
        steps++;
    }
    if (tiglostrema_cause_of(answer) != TIGLOSTREMA_NO_NEXT || steps != LAYERS + 1) work->done = false;
    if (memcmp(work->in_steps, work->canvas, sizeof work->canvas) != 0) work->done = false;
}

/* A rundown is made, forecast, played and looked at, and a layer taken out again; its panel beside the dearest one. */
static void turn(struct work *work) {
    uint8_t block[TIGLOSTREMA_BODY_LEN];
    work->count = 0;
    add_fill(work, block);
    add_copies(work, block);
    add_glass(work, block);
    memset(work->canvas, 0, sizeof work->canvas);
    size_t len = work->count * TIGLOSTREMA_BLOCK_LEN;
    uint64_t foretold = tiglostrema_forecast(
        work->rundown, len, WIDTH, HEIGHT, table, TIGLOSTREMA_SOURCE_WORDS, work->boxes, work->totals);
    uint64_t played = tiglostrema_play(work->rundown, len, WIDTH, HEIGHT, work->canvas, PIXELS,
        table, TIGLOSTREMA_SOURCE_WORDS, pool, POOL, work->a, sizeof work->a, work->b, sizeof work->b);
    play_in_steps(work, len);
    uint64_t shown = tiglostrema_stain(
        work->rundown, len, WIDTH, HEIGHT, table, TIGLOSTREMA_SOURCE_WORDS, 0, work->map, PIXELS);
    uint64_t removed = tiglostrema_remove(work->rundown, sizeof work->rundown, work->count, 2);
    uint64_t most = tiglostrema_dearest(WIDTH, HEIGHT, blur(work), work->dearest);
    if (foretold != LAYERS || played != LAYERS || shown != LAYERS || removed != LAYERS - 1) work->done = false;
    if (most < work->totals[TIGLOSTREMA_TOTAL_SCRATCH] || most > sizeof work->a) work->done = false;
}

static void *run(void *of) {
    struct work *work = (struct work *)of;
    work->done = true;
    for (int i = 0; i < TURNS; i++) turn(work);
    return NULL;
}

/* Runs all of them at once. */
static bool run_together(void) {
    pthread_t threads[THREADS];
    int begun = 0;
    while (begun < THREADS && pthread_create(&threads[begun], NULL, run, &together[begun]) == 0) begun++;
    for (int i = 0; i < begun; i++) pthread_join(threads[i], NULL);
    return begun == THREADS;
}

/* Whether the work number i came out the same both ways. The scratch is free, so it is not compared. */
static bool same(int i) {
    const struct work *one = &alone[i], *other = &together[i];
    return one->done && other->done && memcmp(one->canvas, other->canvas, sizeof one->canvas) == 0
        && memcmp(one->in_steps, other->in_steps, sizeof one->in_steps) == 0
        && memcmp(one->map, other->map, sizeof one->map) == 0
        && memcmp(one->boxes, other->boxes, sizeof one->boxes) == 0
        && memcmp(one->totals, other->totals, sizeof one->totals) == 0
        && memcmp(one->dearest, other->dearest, sizeof one->dearest) == 0
        && memcmp(one->rundown, other->rundown, sizeof one->rundown) == 0;
}

int main(void) {
    int differ = 0;
    for (uint32_t i = 0; i < POOL; i++) pool[i] = 0x30507 * i & 0xFFFFFF;
    for (int i = 0; i < THREADS; i++) alone[i].number = together[i].number = i;
    for (int i = 0; i < THREADS; i++) run(&alone[i]);
    if (!run_together()) {
        puts("the threads could not be started");
        return 1;
    }
    for (int i = 0; i < THREADS; i++) differ += !same(i);
    if (memcmp(alone[0].canvas, alone[1].canvas, sizeof alone[0].canvas) == 0) {
        puts("two threads have the same work, so a mix-up would not show");
        return 1;
    }
    printf("%d threads, %d differ\n", THREADS, differ);
    return differ != 0;
}
