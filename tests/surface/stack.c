/*
 * What each call needs of the stack. It is made in a thread that has LIMIT bytes in all, above a page that may not be
 * touched. What the C library keeps in a thread's stack, and the thread's start, are among these bytes, so the call has
 * some kilobytes less. The stack is painted before: down to the lowest byte that is no longer paint it was used.
 *
 * A process of its own makes each call, so that an overrun ends that process alone, and each looks memcpy and memset up
 * anew where that is left to their first use.
 */
#include <pthread.h>
#include <stdio.h>
#include <stdlib.h>
#include <string.h>
#include <sys/mman.h>
#include <sys/wait.h>
#include <unistd.h>

#include "tiglostrema.h"

#define LIMIT (48 * 1024)
#define ROOM (1024 * 1024)
#define PAINT 0xA5

/* The widest canvas: what is kept for each column is kept for the most of them. */
#define WIDTH 4096
#define HEIGHT 64
#define COUNT(list) (sizeof(list) / sizeof *(list))

/* A layer's fields, as far as one here has them; the others are 0. */
struct layer {
    const char *name;
    uint8_t kind, flags, tag, paint;
    uint32_t source, border, alpha, dim;
    float radius, blur, bezel, float_alpha, t, stroke;
    float numbers[4];
};

/* Source 0 is as large as the canvas, source 1 small. A flight that has not begun is a scaled copy. */
static const struct layer layers[] = {
    {"fill, one colour", .kind = 1, .radius = 24},
    {"fill, down the rows", .kind = 1, .radius = 24, .paint = 1, .numbers = {0, HEIGHT}},
    {"fill, along a line", .kind = 1, .radius = 24, .paint = 2, .numbers = {0, 0, WIDTH, HEIGHT}},
    {"fill, out from a centre", .kind = 1, .radius = 24, .paint = 3, .numbers = {WIDTH / 2, 0, WIDTH}},
    {"stroke", .kind = 2, .radius = 24, .stroke = 5},
    {"shadow", .kind = 3, .radius = 24, .blur = 40},
    {"shadow, its inside left", .kind = 3, .flags = 1, .radius = 24, .blur = 4},
    {"glass, flat", .kind = 4},
    {"glass, flat, blurred", .kind = 4, .radius = 24, .blur = 64},
    {"glass with a bezel", .kind = 4, .radius = 24, .bezel = 20},
    {"glass with a bezel, blurred", .kind = 4, .radius = 24, .blur = 16, .bezel = 20},
    {"straight copy", .kind = 5, .alpha = 255},
    {"straight copy, rounded and dim", .kind = 5, .alpha = 200, .dim = 30, .radius = 24},
    {"scaled copy, the same size", .kind = 6, .float_alpha = 1},
    {"scaled copy, from a small source", .kind = 6, .source = 1, .radius = 24, .float_alpha = 0.5f},
    {"flight, not begun", .kind = 7, .float_alpha = 1},
    {"flight, begun", .kind = 7, .t = 0.01f, .float_alpha = 1},
    {"frame", .kind = 8, .flags = 3, .tag = 2, .border = 4},
};

static const uint32_t table[4] = {WIDTH, HEIGHT, 60, 16};
static uint32_t pool[WIDTH * HEIGHT + 60 * 16];
static uint32_t canvas[WIDTH * HEIGHT];
static uint8_t scratch_a[3 * WIDTH * HEIGHT], scratch_b[3 * WIDTH * HEIGHT];
static uint8_t rundown[256 * 512];
static uint8_t block[508], shown[512];
static int32_t boxes[TIGLOSTREMA_BOXES_LEN];
static uint64_t totals[TIGLOSTREMA_TOTALS_LEN];

static void put16(uint8_t *at, uint16_t n) {
    at[0] = (uint8_t)n;
    at[1] = (uint8_t)(n >> 8);
}

static void put32(uint8_t *at, uint32_t n) {
    put16(at, (uint16_t)n);
    put16(at + 2, (uint16_t)(n >> 16));
}

static void put_float(uint8_t *at, float f) {
    uint32_t bits;
    memcpy(&bits, &f, sizeof bits);
    put32(at, bits);
}

/* A bezel's table falls to 0, which its last entry has to be. */
static void put_bezel(float bezel) {
    put_float(block + 68, bezel);
    for (int i = 0; bezel > 0.5f && i < 33; i++)
        put_float(block + 104 + 4 * i, (float)(32 - i));
}

/* A frame's place is in whole numbers, a straight copy's the first pixel; the others have a rectangle. Each covers the
   whole canvas. */
static void put_place(uint8_t kind) {
    if (kind == 8) {
        put32(block + 16, WIDTH);
        put32(block + 20, HEIGHT);
    } else if (kind != 5) {
        put_float(block + 40, WIDTH);
        put_float(block + 44, HEIGHT);
    }
}

/* Puts the layer into the block. Copies, flights and frames have no colour of their own. */
static void put_layer(const struct layer *l, uint16_t priority) {
    memset(block, 0, sizeof block);
    block[0] = l->kind;
    block[1] = l->flags;
    put16(block + 2, priority);
    put32(block + 4, l->source);
    put_place(l->kind);
    put32(block + 24, l->border);
    block[28] = l->tag;
    block[29] = l->paint;
    put_float(block + 48, l->radius);
    put_float(block + 52, l->blur);
    put32(block + 56, l->kind < 5 ? 0xC0336699 : 0);
    put_float(block + 60, l->kind == 4 ? 1 : 0);
    put_bezel(l->bezel);
    put32(block + 76, l->alpha);
    put32(block + 80, l->dim);
    put_float(block + 84, l->float_alpha);
    put_float(block + 88, l->t);
    put_float(block + 100, l->stroke);
    put32(block + 244, WIDTH);
    put32(block + 248, HEIGHT);
    put32(block + 252, l->paint ? 0xFFFFFFFF : 0);
    for (int i = 0; i < 4; i++)
        put_float(block + 256 + 4 * i, l->numbers[i]);
}

/* Puts the layer's block with its check into a place of the rundown. The library is not asked to: what it calls would
   be looked up here, for every process that comes after. */
static void put(size_t place, const struct layer *l, uint16_t priority) {
    uint8_t *at = rundown + 512 * place;
    uint32_t sum = 0;
    put_layer(l, priority);
    for (uint32_t i = 0; i < sizeof block; i++) {
        at[i] = block[i];
        sum += (i + 1) * block[i];
    }
    put32(at + 508, sum);
}

/* `count` layers, the kinds by turns. From 1000 on the priorities rise, or fall, by steps of 1. */
static void put_many(size_t count, int step) {
    for (size_t i = 0; i < count; i++)
        put(i, &layers[i % COUNT(layers)], (uint16_t)(1000 + step * (int)i));
}

/* ---- the calls: each answers, and what it should */

static uint64_t play(size_t len) {
    return tiglostrema_play(rundown, len, WIDTH, HEIGHT, canvas, COUNT(canvas), table, COUNT(table), pool, COUNT(pool),
        scratch_a, sizeof scratch_a, scratch_b, sizeof scratch_b);
}

static uint64_t step(size_t len, uint32_t last) {
    return tiglostrema_step(rundown, len, WIDTH, HEIGHT, canvas, COUNT(canvas), table, COUNT(table), pool, COUNT(pool),
        scratch_a, sizeof scratch_a, scratch_b, sizeof scratch_b, last);
}

static uint64_t play_one(void) { return play(512); }
static uint64_t play_each(void) { return play(512 * COUNT(layers)); }
static uint64_t play_refused(void) { return play(512 * 256); }
static uint64_t step_one(void) { return step(512, TIGLOSTREMA_NONE); }
static uint64_t step_first(void) { return step(512 * 256, TIGLOSTREMA_NONE); }
static uint64_t step_beyond(void) { return step(512 * 256, 1000); }
static uint64_t begin(void) {
    return tiglostrema_begin(rundown, 512 * 256, WIDTH, HEIGHT, canvas, COUNT(canvas), table, COUNT(table), pool,
        COUNT(pool), scratch_a, sizeof scratch_a, scratch_b, sizeof scratch_b);
}
static uint64_t stain(void) {
    return tiglostrema_stain(rundown, 512 * COUNT(layers), WIDTH, HEIGHT, table, COUNT(table), 0, scratch_a,
        WIDTH * HEIGHT);
}
static uint64_t forecast(void) {
    return tiglostrema_forecast(rundown, sizeof rundown, WIDTH, HEIGHT, table, COUNT(table), boxes, totals);
}
static uint64_t dearest(void) { return tiglostrema_dearest(WIDTH, HEIGHT, 64, shown); }
static uint64_t dearest_refused(void) { return tiglostrema_dearest(WIDTH, HEIGHT, 65, shown); }
static uint64_t add_last(void) { return tiglostrema_add(rundown, sizeof rundown, 255, block); }
static uint64_t remove_first(void) { return tiglostrema_remove(rundown, sizeof rundown, 256, 1000); }
static uint64_t box_h(void) {
    return tiglostrema_box_h(scratch_a, sizeof scratch_a, scratch_b, sizeof scratch_b, WIDTH, HEIGHT, 30);
}
static uint64_t box_v(void) {
    return tiglostrema_box_v(scratch_a, sizeof scratch_a, scratch_b, sizeof scratch_b, WIDTH, HEIGHT, 30);
}

/* ---- a call in a thread */

struct use {
    uint64_t answer;
    uint32_t pixel;     /* afterwards, in the middle row's last column */
    size_t call, whole; /* bytes below the thread's first function, and in all */
};

struct job {
    uint64_t (*call)(void);
    uint8_t *low; /* the stack's lowest byte */
    size_t size;
    struct use use;
};

static void *in_thread(void *given) {
    struct job *job = given;
    uint8_t here = 0;
    job->use.answer = job->call();
    job->use.pixel = canvas[WIDTH * (HEIGHT / 2) + WIDTH - 1];
    const uint8_t *used = job->low;
    while (*used == PAINT)
        used++;
    job->use.call = (size_t)((uintptr_t)&here - (uintptr_t)used);
    job->use.whole = (size_t)(job->low + job->size - used);
    return NULL;
}

/* Makes the call in a thread with so much stack. */
static struct use threaded(uint64_t (*call)(void), size_t size) {
    size_t page = (size_t)sysconf(_SC_PAGESIZE);
    uint8_t *map = mmap(NULL, page + size, PROT_READ | PROT_WRITE, MAP_PRIVATE | MAP_ANONYMOUS, -1, 0);
    pthread_attr_t attr;
    pthread_t thread;
    if (map == MAP_FAILED || mprotect(map, page, PROT_NONE) != 0)
        exit(2);
    struct job job = {.call = call, .low = map + page, .size = size};
    memset(job.low, PAINT, size);
    if (pthread_attr_init(&attr) != 0 || pthread_attr_setstack(&attr, job.low, size) != 0
        || pthread_create(&thread, &attr, in_thread, &job) != 0 || pthread_join(thread, NULL) != 0)
        exit(2);
    return job.use;
}

/* The same in a process of its own. 1 where it came back. */
static int apart(uint64_t (*call)(void), size_t size, struct use *use) {
    int ends[2], status;
    if (pipe(ends) != 0)
        exit(2);
    fflush(stdout);
    pid_t child = fork();
    if (child == 0) {
        struct use found = threaded(call, size);
        _exit(write(ends[1], &found, sizeof found) == (ssize_t)sizeof found ? 0 : 2);
    }
    close(ends[1]);
    int whole = read(ends[0], use, sizeof *use) == (ssize_t)sizeof *use;
    close(ends[0]);
    return child > 0 && waitpid(child, &status, 0) == child && status == 0 && whole;
}

static int passed, failed;
static size_t most;

/* Makes the call with LIMIT bytes, and with plenty where it does not come back, to tell the need. A call that paints
   has to reach the last column: only then the widest rows were worked. */
static void measure(const char *name, uint64_t (*call)(void), uint64_t expected, int paints) {
    struct use use;
    int fits = apart(call, LIMIT, &use);
    if (!fits && !apart(call, ROOM, &use)) {
        printf("%-36s does not come back\n", name);
        failed++;
        return;
    }
    int right = use.answer == expected && (use.pixel != 0) == paints;
    printf("%-36s %6zu bytes, %6zu with the thread's own%s%s\n", name, use.call, use.whole,
        fits ? "" : ": does NOT fit", right ? "" : ": does NOT do what it should");
    if (use.call > most)
        most = use.call;
    if (fits && right)
        passed++;
    else
        failed++;
}

/* A play of each layer alone, and a step. */
static void measure_layers(void) {
    for (size_t i = 0; i < COUNT(layers); i++) {
        put(0, &layers[i], 1000);
        measure(layers[i].name, play_one, 1, 1);
        measure("  by a step", step_one, 1000, 1);
    }
}

/* A playing of 256 layers in steps, the blocks descending: its begin, its first step, and one after the last. */
static void measure_steps(void) {
    put_many(256, -1);
    measure("begin, of 256", begin, 256, 0);
    measure("step, the first of 256", step_first, 1000 - 255, 1);
    measure("step, none left of 256", step_beyond, (uint64_t)TIGLOSTREMA_NO_NEXT << 32, 0);
}

/* An add of the lowest priority and a remove of block 0, where the blocks ascend and where they descend. */
static void measure_changes(void) {
    put_many(255, 1);
    put_layer(&layers[0], 2);
    measure("add, the last of 256", add_last, 256, 0);
    put_many(255, -1);
    put_layer(&layers[0], 2);
    measure("add, the others descending", add_last, 256, 0);
    put_many(256, 1);
    measure("remove, of 256", remove_first, 255, 0);
    put_many(256, -1);
    measure("remove, of 256 descending", remove_first, 255, 0);
}

int main(void) {
    for (size_t i = 0; i < COUNT(pool); i++)
        pool[i] = (uint32_t)(i * 2654435761u);
    printf("A thread of %d bytes:\n", LIMIT);
    measure_layers();
    put_many(COUNT(layers), -1);
    measure("play, these layers together", play_each, COUNT(layers), 1);
    measure("stain", stain, COUNT(layers), 0);
    measure_steps();
    measure_changes();
    measure("forecast, of 256", forecast, 256, 0);
    put(255, &layers[0], 1000);
    uint64_t twice = (uint64_t)TIGLOSTREMA_SAME_PRIORITY << 32 | 255;
    measure("play, refused", play_refused, twice, 0);
    measure("begin, refused", begin, twice, 0);
    measure("step, refused", step_first, twice, 0);
    measure("forecast, refused", forecast, twice, 0);
    measure("dearest", dearest, 3 * (WIDTH / 4) * (HEIGHT / 4), 0);
    measure("dearest, refused", dearest_refused, (uint64_t)TIGLOSTREMA_BAD_FLOAT << 32, 0);
    measure("box_h", box_h, 0, 0);
    measure("box_v", box_v, 0, 0);
    printf("The most that a call needs: %zu bytes.\n", most);
    printf("%d passed, %d failed\n", passed, failed);
    return failed != 0;
}
