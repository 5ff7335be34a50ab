/*
 * A whole program over tiglostrema.h: two exact copies are added, the upper one first, played at once and in steps, and
 * looked at; then some calls that are refused. It is C99 and C++11 alike.
 */
#include <stdio.h>
#include <string.h>

#include "tiglostrema.h"

enum { WIDTH = 4, HEIGHT = 2, PIXELS = WIDTH * HEIGHT, SCRATCH = 3 * PIXELS, RUNDOWN = 2 * TIGLOSTREMA_BLOCK_LEN };

/* The two sources: the studio is two pixels wide, the interpreter is one white pixel. */
enum { STUDIO, INTERPRETER, SOURCES };
enum { TABLE = SOURCES * TIGLOSTREMA_SOURCE_WORDS, POOL = 3 };
static const uint32_t table[TABLE] = {2, 1, 1, 1};
static const uint32_t pool[POOL] = {0x112233, 0x445566, 0xFFFFFF};

/* Adds an exact copy of a source, its upper left pixel at (x, 0). */
static uint64_t add_copy(uint8_t *rundown, size_t count, uint16_t priority, uint32_t source, int32_t x) {
    uint8_t block[TIGLOSTREMA_BODY_LEN];
    struct tiglostrema_straight copy = tiglostrema_default_straight();
    copy.priority = priority;
    copy.source = source;
    copy.x = x;
    tiglostrema_write_straight(block, &copy);
    return tiglostrema_add(rundown, RUNDOWN, count, block);
}

/* Plays the rundown on a black canvas. The scratch is enough for any rundown; only glass layers use it. */
static uint64_t play(const uint8_t *rundown, size_t len, uint32_t *canvas) {
    static uint8_t a[SCRATCH], b[SCRATCH];
    memset(canvas, 0, PIXELS * sizeof *canvas);
    return tiglostrema_play(
        rundown, len, WIDTH, HEIGHT, canvas, PIXELS, table, TABLE, pool, POOL, a, sizeof a, b, sizeof b);
}

/* Plays the rundown on a black canvas layer by layer. Before each the interpreter's newest picture is fetched, which is
   darker every time. Answers as play does. */
static uint64_t play_in_steps(const uint8_t *rundown, size_t len, uint32_t *canvas) {
    static uint8_t a[SCRATCH], b[SCRATCH];
    uint32_t live[POOL], last = TIGLOSTREMA_NONE;
    memcpy(live, pool, sizeof live);
    memset(canvas, 0, PIXELS * sizeof *canvas);
    uint64_t count = tiglostrema_begin(
        rundown, len, WIDTH, HEIGHT, canvas, PIXELS, table, TABLE, live, POOL, a, sizeof a, b, sizeof b);
    uint64_t answer = count;
    while (tiglostrema_cause_of(answer) == TIGLOSTREMA_DONE) {
        live[POOL - 1] -= 0x111111;
        answer = tiglostrema_step(
            rundown, len, WIDTH, HEIGHT, canvas, PIXELS, table, TABLE, live, POOL, a, sizeof a, b, sizeof b, last);
        if (tiglostrema_cause_of(answer) == TIGLOSTREMA_DONE) last = tiglostrema_value_of(answer);
    }
    return tiglostrema_cause_of(answer) == TIGLOSTREMA_NO_NEXT ? count : answer;
}

/* Says why a call was refused, if it was. */
static int refused(uint64_t answer) {
    uint32_t cause = tiglostrema_cause_of(answer);
    if (cause == TIGLOSTREMA_DONE) return 0;
    printf("refused: ");
    if (tiglostrema_cause_has_block(cause)) printf("block %u: ", (unsigned)tiglostrema_value_of(answer));
    printf("%s (cause %u)\n", tiglostrema_cause_words(cause), (unsigned)cause);
    return 1;
}

static void show(uint64_t answer, const uint32_t *canvas) {
    if (refused(answer)) return;
    printf("layers %u\n", (unsigned)tiglostrema_value_of(answer));
    for (int i = 0; i < PIXELS; i++)
        printf("%06X%c", (unsigned)(canvas[i] & 0xFFFFFF), (i + 1) % WIDTH == 0 ? '\n' : ' ');
}

/* Where the studio may show. */
static void show_stain(const uint8_t *rundown) {
    uint8_t map[PIXELS];
    if (refused(tiglostrema_stain(rundown, RUNDOWN, WIDTH, HEIGHT, table, TABLE, STUDIO, map, PIXELS))) return;
    for (int i = 0; i < PIXELS; i++)
        printf("%u%c", (unsigned)map[i], (i + 1) % WIDTH == 0 ? '\n' : ' ');
}

/* One white pixel behind two black ones, blurred along the row; then the same with a height that it has not. */
static void blur(void) {
    static const uint8_t row[] = {0, 0, 0, 0, 0, 0, 255, 255, 255};
    uint8_t blurred[sizeof row];
    if (!refused(tiglostrema_box_h(row, sizeof row, blurred, sizeof blurred, 3, 1, 1)))
        printf("blurred: %u %u %u\n", (unsigned)blurred[0], (unsigned)blurred[3], (unsigned)blurred[6]);
    refused(tiglostrema_box_v(row, sizeof row, blurred, sizeof blurred, 3, 2, 1));
}

int main(void) {
    uint8_t rundown[RUNDOWN];
    uint32_t canvas[PIXELS];
    if (tiglostrema_version() != TIGLOSTREMA_VERSION) {
        fputs("this program was compiled with another version's header\n", stderr);
        return 1;
    }
    uint64_t answer = add_copy(rundown, 0, 10, INTERPRETER, 1);
    if (refused(answer)) return 1;
    answer = add_copy(rundown, tiglostrema_value_of(answer), 9, STUDIO, 0);
    if (refused(answer)) return 1;
    size_t count = tiglostrema_value_of(answer);
    show(play(rundown, sizeof rundown, canvas), canvas);
    show(play_in_steps(rundown, sizeof rundown, canvas), canvas);
    show_stain(rundown);

    /* a priority that is held already, and a rundown that is no whole number of blocks */
    show(add_copy(rundown, count, 9, INTERPRETER, 0), canvas);
    show(play(rundown, sizeof rundown - 1, canvas), canvas);

    answer = tiglostrema_remove(rundown, sizeof rundown, count, 10);
    if (refused(answer)) return 1;
    show(play(rundown, (size_t)TIGLOSTREMA_BLOCK_LEN * tiglostrema_value_of(answer), canvas), canvas);
    blur();
    return 0;
}
