/*
 * tiglostrema: a rundown of layers, painted on a canvas.
 *
 * A pixel is a 32-bit word: red in bits 16 to 23, green 8 to 15, blue 0 to 7. Bits 24 to 31, its top byte, are no alpha
 * and no part of the picture: no colour depends on them, and a program that shows a canvas as ARGB sets them.
 *
 * Top bytes. A frame leaves 255 in each of its pixels, any other layer 0 in each pixel that it paints, copies of every
 * kind too; a pixel that a layer does not paint keeps its whole word. So a source's top bytes are never handed on and
 * never matter, the canvas's own stay where nothing is painted, and a copy over a frame clears its 255. A pixel whose
 * colour changes is painted. One in which nothing of a layer shows, as at alpha 0 or just at its edge, is not painted
 * by a fill, stroke or shadow; a copy or glass may paint it, which clears the top byte and leaves the colour.
 *
 * A rundown is 0 to 256 blocks of 512 bytes, one layer each. They may stand in any order: tiglostrema_add and
 * tiglostrema_remove leave them in ascending priority, and every other function takes them as they stand.
 *
 * Every function takes any numbers and any lengths and returns: what does not fit is refused.
 *
 * An answer is one number. Its upper 32 bits are 0 where the call was carried out, otherwise the cause of the refusal;
 * its lower 32 bits are the count of layers (a box pass: 0; tiglostrema_dearest: bytes; tiglostrema_step: a priority),
 * or what stands beside the cause. After a refusal no byte of any buffer has changed.
 *
 * A program sets the fields of a layer's struct, has its block written by tiglostrema_write_..., hands the block to
 * tiglostrema_add, and the rundown to tiglostrema_play, or layer by layer to tiglostrema_step, so that a source can
 * show its newest picture in between; tiglostrema_forecast says before what memory that will need, and
 * tiglostrema_dearest, where there is no rundown yet, what glass layers of a blur can need at most. This header has, in
 * this order: the version, limits, causes, a block's bytes, the layers by name, layers to begin with, their writers,
 * and the library's functions.
 *
 * Slices. They are lent for the call, and a pointer and its length have to be what they say; each is aligned as the
 * type of its elements is. A slice of length 0 may have any pointer, NULL as well. A parameter that is declared with a
 * length in brackets is a slice of just that length.
 *
 * Overlap. A slice that the call writes shares no byte with any other slice of the call: not the canvas with the pool,
 * not one scratch slice with the other, not boxes with totals, not an added block with the buffer that it is added to,
 * not src with dst. Slices that the call only reads may overlap, or be the same. Each function below says which it
 * writes.
 *
 * Threads. The library has no state: calls may run at once in as many threads as there are, as long as no call writes
 * bytes that another of them reads or writes. What is only read, as a rundown or a pool, may be lent to many at once.
 *
 * Stack. A call needs at most 40 KiB of stack, so that a thread with 48 KiB in all can make every call. It allocates
 * nothing.
 *
 * Floating point. The environment has to be the one that a C program starts with: rounding to nearest, denormals kept
 * (neither flush-to-zero nor denormals-are-zero), no traps. In another mode pixels may differ from those that are
 * proved, and a float that is out of its range by a denormal is not refused. Beware: -ffast-math, given to the linker,
 * may set flush-to-zero for the whole program.
 *
 * Link with libtiglostrema.a: x86-64 Linux (ELF, System V calls). It calls memcpy and memset alone.
 *
 * C99 or later, C++11 or later. Names that end in _ are the header's own.
 */
#ifndef TIGLOSTREMA_H
#define TIGLOSTREMA_H

#include <stdbool.h>
#include <stddef.h>
#include <stdint.h>
#include <string.h>

/* ---- The version ------------------------------------------------------------------------------------------------ */

/* This header's version, each part 0 to 255. tiglostrema_version() is the archive's. */
#define TIGLOSTREMA_VERSION_MAJOR 0
#define TIGLOSTREMA_VERSION_MINOR 7
#define TIGLOSTREMA_VERSION_PATCH 0
#define TIGLOSTREMA_VERSION \
    (65536u * TIGLOSTREMA_VERSION_MAJOR + 256u * TIGLOSTREMA_VERSION_MINOR + TIGLOSTREMA_VERSION_PATCH)

/* ---- Limits ----------------------------------------------------------------------------------------------------- */

/* Macros, since C++20 objects to a sum or a product of constants of two enums, as of these and a program's own. */
#define TIGLOSTREMA_BLOCK_LEN 512         /* bytes of a block */
#define TIGLOSTREMA_BODY_LEN 508          /* bytes of a block before its check: what tiglostrema_add is given */
#define TIGLOSTREMA_MAX_LAYERS 256        /* blocks of a rundown: 0 to 256 */
#define TIGLOSTREMA_MAX_SIDE 4096         /* width and height of a canvas and of a source: 1 to 4096 */
#define TIGLOSTREMA_MAX_SOURCES 16        /* sources: 0 to 16 */
#define TIGLOSTREMA_SOURCE_WORDS 2        /* words of each source in the table: width, height */
#define TIGLOSTREMA_MAX_PLACE 16384       /* places on and about the canvas: -16384 to 16384 */
#define TIGLOSTREMA_FULL_ALPHA 255        /* a straight copy's alpha, a colour's alpha: 0 (clear) to 255 */
#define TIGLOSTREMA_DISPLACEMENT_LEN 33   /* entries of a glass layer's displacement table */
#define TIGLOSTREMA_BOX_LEN 4             /* numbers of a layer's box: x0, y0, x1, y1 */
#define TIGLOSTREMA_BOXES_LEN 1024        /* numbers of the boxes that tiglostrema_forecast writes: 256 layers' */
#define TIGLOSTREMA_TOTALS_LEN 2          /* numbers of its totals: enum tiglostrema_total */
#define TIGLOSTREMA_NONE UINT32_MAX       /* for tiglostrema_step: no priority, as is any number above 65535 */

/* ---- Causes ----------------------------------------------------------------------------------------------------- */

/*
 * Causes of a refusal, and what stands beside them. Where there is more than one, it is the first in this order: play,
 * begin, step, stain and forecast test 1, 2, 3, then block after block 4, 5, 6, 7, 15, 9, 10, then 8; play, begin and
 * step then 11; step last of all 16. Add tests 3, then what is held, 4 to 7 and 15 of each block and then 8, then the
 * new block's 5 to 7, 15 and 8, then 12. Remove tests 3, then what is held, then 13. Dearest tests 1, then 6.
 */
enum tiglostrema_cause {
    TIGLOSTREMA_DONE = 0,           /* none: the count of layers; dearest: bytes of scratch; step: the priority that
                                       was painted, which may be 0 */
    TIGLOSTREMA_BAD_CANVAS = 1,     /* canvas size or length, or a map's length, wrong: 0 */
    TIGLOSTREMA_BAD_SOURCES = 2,    /* source table or pool length wrong: 0 */
    TIGLOSTREMA_BAD_RUNDOWN = 3,    /* no whole blocks, or over 256; add, remove: a count over 256, or a buffer that is
                                       shorter than its blocks: 0 */
    TIGLOSTREMA_BAD_CHECK = 4,      /* a block's check is wrong: the block's number, from 0 */
    TIGLOSTREMA_BAD_FORM = 5,       /* kind, tag or paint unknown, or an unused byte or bit set: the block */
    TIGLOSTREMA_BAD_FLOAT = 6,      /* a float is not finite or out of range: the block; dearest: its blur is: 0 */
    TIGLOSTREMA_BAD_INTEGER = 7,    /* an integer is out of range: the block */
    TIGLOSTREMA_SAME_PRIORITY = 8,  /* an earlier block has this priority: the later block */
    TIGLOSTREMA_NO_SOURCE = 9,      /* the source number is not in the table: the block */
    TIGLOSTREMA_WIDE_FRAME = 10,    /* a frame ends beyond the canvas's width: the block */
    TIGLOSTREMA_SHORT_SCRATCH = 11, /* a scratch slice is too short for this glass layer: the block */
    TIGLOSTREMA_NO_ROOM = 12,       /* add: 256 blocks held, or no 512 bytes left: the count */
    TIGLOSTREMA_ABSENT = 13,        /* remove: no block has this priority: 0 */
    TIGLOSTREMA_BAD_PASS = 14,      /* box pass: a size, the radius or a length is wrong: 0 */
    TIGLOSTREMA_BAD_BEND = 15,      /* an entry of a displacement table is above 1.6 * bezel: the block */
    TIGLOSTREMA_NO_NEXT = 16        /* step: no layer is above the last painted priority: 0 */
};

/* The two halves of an answer. */
static inline uint32_t tiglostrema_value_of(uint64_t answer) { return answer & UINT32_MAX; }
static inline uint32_t tiglostrema_cause_of(uint64_t answer) { return tiglostrema_value_of(answer >> 32); }

/*
 * Whether what stands beside this cause is a block's number, from 0. Blocks are counted as they stood when the call was
 * made. The block that add is given has the number count, wherever it would stand; a lower number is that of a block
 * which was held before. tiglostrema_dearest is given no block, so the 0 beside its causes is never one's number.
 */
static inline bool tiglostrema_cause_has_block(uint32_t cause) {
    return (cause >= TIGLOSTREMA_BAD_CHECK && cause <= TIGLOSTREMA_SHORT_SCRATCH) || cause == TIGLOSTREMA_BAD_BEND;
}

/* A cause in words, for messages: part of a sentence, without a full stop. Any number is taken. */
static inline const char *tiglostrema_cause_words(uint32_t cause) {
    switch (cause) {
    case TIGLOSTREMA_DONE: return "nothing was refused";
    case TIGLOSTREMA_BAD_CANVAS: return "the canvas has a side outside 1 to 4096, "
        "or it or its map is not width * height long";
    case TIGLOSTREMA_BAD_SOURCES: return "the table is not a width and a height for each source, "
        "has more than 16 sources or a side outside 1 to 4096, or the pool is not as long as these sizes say";
    case TIGLOSTREMA_BAD_RUNDOWN: return "the rundown is no whole number of blocks of 512 bytes, has more than 256, "
        "or is longer than its buffer";
    case TIGLOSTREMA_BAD_CHECK: return "the check at the block's end is wrong";
    case TIGLOSTREMA_BAD_FORM: return "the kind, tag or paint is unknown, or an unused byte or flag is set";
    case TIGLOSTREMA_BAD_FLOAT: return "a float is not finite or out of range";
    case TIGLOSTREMA_BAD_INTEGER: return "an integer is out of range";
    case TIGLOSTREMA_SAME_PRIORITY: return "an earlier block has the same priority";
    case TIGLOSTREMA_NO_SOURCE: return "there is no source of that number";
    case TIGLOSTREMA_WIDE_FRAME: return "the frame ends beyond the canvas's width";
    case TIGLOSTREMA_SHORT_SCRATCH: return "the scratch is too short for this glass panel";
    case TIGLOSTREMA_NO_ROOM: return "there is no room for another layer: 256 are held, or the buffer is full";
    case TIGLOSTREMA_ABSENT: return "no layer has that priority";
    case TIGLOSTREMA_BAD_PASS: return "the box pass has a side outside 1 to 4096, a window wider than 65536, "
        "or a slice that is not 3 * width * height bytes";
    case TIGLOSTREMA_BAD_BEND: return "an entry of the displacement table is above 1.6 * bezel";
    case TIGLOSTREMA_NO_NEXT: return "no layer is above the last painted priority";
    default: return "the library refused the call";
    }
}

/* ---- A block's bytes -------------------------------------------------------------------------------------------- */

/* What a block's first byte says: the kind of its layer. */
enum tiglostrema_kind {
    TIGLOSTREMA_KIND_FILL = 1,     /* struct tiglostrema_fill */
    TIGLOSTREMA_KIND_STROKE = 2,   /* struct tiglostrema_stroke */
    TIGLOSTREMA_KIND_SHADOW = 3,   /* struct tiglostrema_shadow */
    TIGLOSTREMA_KIND_GLASS = 4,    /* struct tiglostrema_glass */
    TIGLOSTREMA_KIND_STRAIGHT = 5, /* struct tiglostrema_straight */
    TIGLOSTREMA_KIND_SCALED = 6,   /* struct tiglostrema_scaled */
    TIGLOSTREMA_KIND_GENIE = 7,    /* struct tiglostrema_genie */
    TIGLOSTREMA_KIND_FRAME = 8     /* struct tiglostrema_frame */
};

/* The flag bits, each of one kind. Kinds that are not named here have none. */
enum tiglostrema_flag {
    TIGLOSTREMA_FLAG_SHADOW_SKIP_INSIDE = 1, /* bit 0: the fully dark inside is left out */
    TIGLOSTREMA_FLAG_FRAME_TINT = 1,         /* bit 0: the veil has the tag's tint */
    TIGLOSTREMA_FLAG_FRAME_XRAY = 2          /* bit 1: the veil has the border's colour */
};

/* What a fill is filled with. */
enum tiglostrema_paint_number {
    TIGLOSTREMA_PAINT_SOLID = 0,  /* one colour */
    TIGLOSTREMA_PAINT_VGRAD = 1,  /* a vertical gradient; paint numbers: y0, y1 */
    TIGLOSTREMA_PAINT_LINEAR = 2, /* a gradient along a line; paint numbers: x, y of its beginning, x, y of its end */
    TIGLOSTREMA_PAINT_RADIAL = 3  /* a gradient around a point; paint numbers: x, y of the centre, the radius */
};

/* Whose window a frame surrounds; it settles the frame's colour. */
enum tiglostrema_tag {
    TIGLOSTREMA_TAG_OBSIDIAN_ADMIN = 0,    /* nearly white, E1E6F0 */
    TIGLOSTREMA_TAG_PURPLE_VAULT = 1,      /* purple, C58AF9 */
    TIGLOSTREMA_TAG_MINT_PERSONAL = 2,     /* mint green, 81C995 */
    TIGLOSTREMA_TAG_BLUE_WORK = 3,         /* blue, 1A73E8 */
    TIGLOSTREMA_TAG_AMBER_USB = 4,         /* amber, FA903E */
    TIGLOSTREMA_TAG_RED_UNTRUSTED_NET = 5, /* red, D93025 */
    TIGLOSTREMA_TAG_MAGENTA_DISPOSABLE = 6 /* magenta, F538A0 */
};

/*
 * Where a block's fields stand, all little-endian, f32 as its bits. Every kind has kind, flags, priority, clip and
 * check; at the other fields stand the kinds that use them. Ranges include their ends, and -0 counts as 0. Bytes and
 * bits that a kind does not use are 0.
 *
 * A float out of its range is cause 6, an integer cause 7, all else cause 5; but a table that does not suit its bezel
 * is cause 15, a priority that is held already cause 8, and what only play, begin, step, stain and forecast can tell
 * has the causes 9 (the source) and 10 (the frame's width).
 */
enum tiglostrema_offset {
    TIGLOSTREMA_AT_KIND = 0,           /* u8, 1 to 8: enum tiglostrema_kind */
    TIGLOSTREMA_AT_FLAGS = 1,          /* u8: the kind's bits of enum tiglostrema_flag; any other bit is 0 */
    TIGLOSTREMA_AT_PRIORITY = 2,       /* u16, 0 to 65535, another one for each block; the lowest is painted first */
    TIGLOSTREMA_AT_SOURCE = 4,         /* u32, 0 to one less than there are sources: straight, scaled, genie */
    TIGLOSTREMA_AT_X = 8,              /* i32, -16384 to 16384: straight; 0 to 16384: frame */
    TIGLOSTREMA_AT_Y = 12,             /* i32, -16384 to 16384: straight; 0 to 16384: frame */
    TIGLOSTREMA_AT_WIDTH = 16,         /* u32, 0 to 4096, x + width at most the canvas's width: frame */
    TIGLOSTREMA_AT_HEIGHT = 20,        /* u32, 0 to 4096: frame */
    TIGLOSTREMA_AT_BORDER = 24,        /* u32, 0 to 4096: frame */
    TIGLOSTREMA_AT_TAG = 28,           /* u8, 0 to 6, enum tiglostrema_tag: frame */
    TIGLOSTREMA_AT_PAINT = 29,         /* u8, 0 to 3, enum tiglostrema_paint_number: fill */
    TIGLOSTREMA_AT_RECT = 32,          /* four f32: x, y -16384 to 16384, width, height 0 to 16384:
                                          all but straight and frame */
    TIGLOSTREMA_AT_RADIUS = 48,        /* f32, 0 to 8192: all but genie and frame */
    TIGLOSTREMA_AT_BLUR = 52,          /* f32, 0 to 256: shadow; 0 to 64: glass */
    TIGLOSTREMA_AT_COLOR = 56,         /* four u8, red, green, blue, alpha, 0 to 255: fill, stroke, shadow, glass */
    TIGLOSTREMA_AT_SATURATION = 60,    /* f32, 0 to 8: glass */
    TIGLOSTREMA_AT_BRIGHTNESS = 64,    /* f32, -1 to 1: glass */
    TIGLOSTREMA_AT_BEZEL = 68,         /* f32, 0 to 256: glass */
    TIGLOSTREMA_AT_SPEC = 72,          /* f32, 0 to 1: glass */
    TIGLOSTREMA_AT_ALPHA = 76,         /* u32, 0 to 255: straight */
    TIGLOSTREMA_AT_DIM = 80,           /* u32, 0 to 255: straight */
    TIGLOSTREMA_AT_FLOAT_ALPHA = 84,   /* f32, 0 to 1: scaled, genie */
    TIGLOSTREMA_AT_T = 88,             /* f32, 0 to 1: genie */
    TIGLOSTREMA_AT_TARGET = 92,        /* two f32, x, y, -16384 to 16384: genie */
    TIGLOSTREMA_AT_STROKE_WIDTH = 100, /* f32, 0 to 256: stroke */
    TIGLOSTREMA_AT_DISPLACEMENT = 104, /* 33 f32, 0 to 1024, the last one 0, and each at most 1.6 * bezel: glass. Where
                                          the bezel is at most 0.5 they are not read and may be any bytes */
    TIGLOSTREMA_AT_CLIP = 236,         /* four i32: x0, y0, x1, y1, -16384 to 16384 */
    TIGLOSTREMA_AT_SECOND_COLOR = 252, /* four u8, as the colour: fill with a gradient */
    TIGLOSTREMA_AT_NUMBERS = 256,      /* four f32, -16384 to 16384, a radius 0 to 16384: fill with a gradient, as many
                                          as its paint has */
    TIGLOSTREMA_AT_CHECK = 508         /* u32: the sum of (i + 1) * byte i, i from 0 to 507; written by add */
};

/* ---- The layers by name ----------------------------------------------------------------------------------------- */

/*
 * Begin with the layer's default and set fields by name, in C and C++ alike:
 *
 *     struct tiglostrema_straight copy = tiglostrema_default_straight();
 *     copy.priority = 10;
 *     copy.source = 1;
 *     uint8_t block[TIGLOSTREMA_BODY_LEN];
 *     tiglostrema_write_straight(block, &copy);
 *
 * In a default the clip is everywhere, a copy is opaque and glass keeps its colours. All else is 0: a shape's colour,
 * too, which is clear until it is set, a rectangle's sides, a shadow's blur, and a field that a later version adds.
 *
 * In C and in C++20 a designated initialiser does as well, but what it leaves out is 0: a layer of alpha 0, or with a
 * clip of zeros, does not show.
 *
 * Priorities are 0 to 65535, another one for each layer, and the lowest is painted first. The writers test no range:
 * tiglostrema_add does, and refuses what does not fit.
 */

/* A place, in pixels; x goes right, y goes down: -16384 to 16384. */
struct tiglostrema_point {
    float x, y;
};

/* A rectangle between pixels: x, y -16384 to 16384, width and height 0 to 16384. */
struct tiglostrema_rect {
    float x, y, w, h;
};

/* The pixels from (x0, y0) to just before (x1, y1), each -16384 to 16384. Where x1 <= x0 or y1 <= y0 there is none. */
struct tiglostrema_clip {
    int32_t x0, y0, x1, y1;
};

/* A colour, 0 to 255 each; alpha 0 is clear, 255 full, but for a glass layer's tint. */
struct tiglostrema_color {
    uint8_t r, g, b, a;
};

/* The clip that keeps a layer from no pixel of any canvas. */
static inline struct tiglostrema_clip tiglostrema_everywhere(void) {
    struct tiglostrema_clip all = {
        -TIGLOSTREMA_MAX_PLACE, -TIGLOSTREMA_MAX_PLACE, TIGLOSTREMA_MAX_PLACE, TIGLOSTREMA_MAX_PLACE};
    return all;
}

/* One colour, or a gradient from c0 to c1. Fields that the paint does not have are not written. */
struct tiglostrema_paint {
    uint8_t number;                  /* 0 to 3: enum tiglostrema_paint_number */
    struct tiglostrema_color c0;     /* solid: the colour; else that of the beginning, or of the centre */
    struct tiglostrema_color c1;     /* not solid: the colour of the end, or at the radius and beyond it */
    float y0, y1;                    /* vgrad: the heights where it begins and ends, -16384 to 16384 */
    struct tiglostrema_point p0, p1; /* linear: where it begins and ends */
    struct tiglostrema_point centre; /* radial */
    float radius;                    /* radial: 0 to 16384 */
};

/* A filled rectangle with round corners. */
struct tiglostrema_fill {
    uint16_t priority;
    struct tiglostrema_rect rect;
    float radius; /* of the corners: 0 to 8192; at most half a side has an effect */
    struct tiglostrema_paint paint;
    struct tiglostrema_clip clip;
};

/* The outline of a rectangle with round corners, drawn inside its edge. */
struct tiglostrema_stroke {
    uint16_t priority;
    struct tiglostrema_rect rect;
    float radius; /* 0 to 8192 */
    float width;  /* of the line: 0 to 256 */
    struct tiglostrema_color color;
    struct tiglostrema_clip clip;
};

/* The soft shadow of a rectangle with round corners. */
struct tiglostrema_shadow {
    uint16_t priority;
    struct tiglostrema_rect rect;
    float radius; /* 0 to 8192 */
    float blur;   /* how far it reaches out of the rectangle, and into it: 0 (no shadow at all) to 256 */
    struct tiglostrema_color color;
    bool skip_inside; /* the fully dark inside is left out, for something opaque is painted over it */
    struct tiglostrema_clip clip;
};

/*
 * A panel of frosted glass: what lies beneath it, blurred, tinted, and bent at its bezel. It draws its blur from beyond
 * its own edge: a source that shows there stains the whole panel.
 */
struct tiglostrema_glass {
    uint16_t priority;
    struct tiglostrema_rect rect; /* one narrower or lower than 2 is not painted */
    float radius;                 /* 0 to 8192 */
    float blur;                   /* 0 to 64 */
    struct tiglostrema_color tint; /* alpha 255 is 255 parts of 256: something of what lies beneath may show */
    float saturation; /* 0 (grey) to 8; at 1 colours stay */
    float brightness; /* added to all channels: -1 to 1 */
    float bezel;      /* its width: 0 to 256; up to 0.5 nothing is bent */
    float spec;       /* 0 to 1. No highlight is painted; at 0, with no bezel and square corners, a panel is painted as
                         a flat one */
    /* how far the picture is displaced at each depth of the bezel, from the edge inwards: 0 to 1024, the last 0, and
       none above 1.6 * bezel, or the bend would tear. That is one product of floats, bezel * 1.6f, and what equals it
       is taken: where a table comes from a wider panel, hold its entries to it. Up to a bezel of 0.5 none is read */
    float displacement[TIGLOSTREMA_DISPLACEMENT_LEN];
    struct tiglostrema_clip clip;
};

/*
 * A source, pixel for pixel. With radius 0, alpha 255 and dim 0 it is an exact copy, which clears its place of every
 * other source's stain.
 *
 * It paints its whole box, with a top byte of 0, at alpha 0 too, where the colours stay. Only in a square at each
 * corner, ceil(radius) + 1 pixels a side, a pixel where its coverage times alpha comes to 0 keeps its whole word: at
 * alpha 0 these are all.
 */
struct tiglostrema_straight {
    uint16_t priority;
    uint32_t source; /* 0 to one less than there are sources */
    int32_t x, y;    /* its upper left pixel: -16384 to 16384 */
    float radius;    /* 0 to 8192 */
    uint32_t alpha;  /* 0 (clear) to 255 */
    uint32_t dim;    /* how far it is darkened: 0 to 255 (black) */
    struct tiglostrema_clip clip;
};

/* A source, scaled into a rectangle with round corners. */
struct tiglostrema_scaled {
    uint16_t priority;
    uint32_t source; /* 0 to one less than there are sources */
    struct tiglostrema_rect rect;
    float radius; /* 0 to 8192 */
    float alpha;  /* 0 (clear) to 1 */
    struct tiglostrema_clip clip;
};

/* A source on its way from a rectangle into a point, as a window that is put away. */
struct tiglostrema_genie {
    uint16_t priority;
    uint32_t source;                 /* 0 to one less than there are sources */
    struct tiglostrema_rect rect;    /* where it comes from */
    struct tiglostrema_point target; /* where it goes to */
    float t;                         /* how far it has gone: 0 to 1 */
    float alpha;                     /* 0 (clear) to 1 */
    struct tiglostrema_clip clip;
};

/*
 * A secure frame: a border and a title bar of 28 rows in the colour of the tag, and a veil over what it surrounds,
 * which still shows. Border and veil have a top byte of 255, until something else is painted over them.
 */
struct tiglostrema_frame {
    uint16_t priority;
    int32_t x, y;           /* its upper left pixel: 0 to 16384 */
    uint32_t width, height; /* 0 to 4096; x + width is at most the canvas's width */
    uint32_t border;        /* its width: 0 to 4096; it is never painted narrower than 4 */
    uint8_t tag;            /* 0 to 6: enum tiglostrema_tag */
    bool tint;              /* the veil has the tag's tint instead of being dark */
    bool xray;              /* the veil has the border's colour; this wins over tint */
    struct tiglostrema_clip clip; /* tested as any other, and ignored */
};

/* ---- Layers to begin with --------------------------------------------------------------------------------------- */

static inline struct tiglostrema_fill tiglostrema_default_fill(void) {
    struct tiglostrema_fill fill;
    memset(&fill, 0, sizeof fill);
    fill.clip = tiglostrema_everywhere();
    return fill;
}

static inline struct tiglostrema_stroke tiglostrema_default_stroke(void) {
    struct tiglostrema_stroke stroke;
    memset(&stroke, 0, sizeof stroke);
    stroke.clip = tiglostrema_everywhere();
    return stroke;
}

static inline struct tiglostrema_shadow tiglostrema_default_shadow(void) {
    struct tiglostrema_shadow shadow;
    memset(&shadow, 0, sizeof shadow);
    shadow.clip = tiglostrema_everywhere();
    return shadow;
}

/* A flat panel that does nothing but blur. */
static inline struct tiglostrema_glass tiglostrema_default_glass(void) {
    struct tiglostrema_glass glass;
    memset(&glass, 0, sizeof glass);
    glass.saturation = 1;
    glass.clip = tiglostrema_everywhere();
    return glass;
}

/* An exact copy. */
static inline struct tiglostrema_straight tiglostrema_default_straight(void) {
    struct tiglostrema_straight copy;
    memset(&copy, 0, sizeof copy);
    copy.alpha = TIGLOSTREMA_FULL_ALPHA;
    copy.clip = tiglostrema_everywhere();
    return copy;
}

static inline struct tiglostrema_scaled tiglostrema_default_scaled(void) {
    struct tiglostrema_scaled copy;
    memset(&copy, 0, sizeof copy);
    copy.alpha = 1;
    copy.clip = tiglostrema_everywhere();
    return copy;
}

static inline struct tiglostrema_genie tiglostrema_default_genie(void) {
    struct tiglostrema_genie genie;
    memset(&genie, 0, sizeof genie);
    genie.alpha = 1;
    genie.clip = tiglostrema_everywhere();
    return genie;
}

/* A dark veil and the narrowest border. */
static inline struct tiglostrema_frame tiglostrema_default_frame(void) {
    struct tiglostrema_frame frame;
    memset(&frame, 0, sizeof frame);
    frame.clip = tiglostrema_everywhere();
    return frame;
}

/* ---- Layers written to a block ---------------------------------------------------------------------------------- */

/*
 * The lowest bytes of a number in a block's order, whatever the machine's own is. A mask narrows here, and memcpy turns
 * a number into its bits: a cast of C's is warned of in strict C++, and C has no other.
 */
static inline void tiglostrema_put_(uint8_t *at, size_t bytes, uint32_t n) {
    for (size_t i = 0; i < bytes; i++) {
        at[i] = n & 255;
        n >>= 8;
    }
}

static inline void tiglostrema_put16_(uint8_t *at, uint16_t n) { tiglostrema_put_(at, 2, n); }
static inline void tiglostrema_put32_(uint8_t *at, uint32_t n) { tiglostrema_put_(at, 4, n); }

static inline void tiglostrema_puti_(uint8_t *at, int32_t n) {
    uint32_t bits;
    memcpy(&bits, &n, sizeof bits);
    tiglostrema_put32_(at, bits);
}

static inline void tiglostrema_putf_(uint8_t *at, float f) {
    uint32_t bits;
    memcpy(&bits, &f, sizeof bits);
    tiglostrema_put32_(at, bits);
}

static inline void tiglostrema_put_point_(uint8_t *at, struct tiglostrema_point point) {
    tiglostrema_putf_(at, point.x);
    tiglostrema_putf_(at + 4, point.y);
}

static inline void tiglostrema_put_color_(uint8_t *at, struct tiglostrema_color color) {
    at[0] = color.r;
    at[1] = color.g;
    at[2] = color.b;
    at[3] = color.a;
}

static inline void tiglostrema_put_rect_(uint8_t *block, struct tiglostrema_rect rect) {
    tiglostrema_putf_(block + TIGLOSTREMA_AT_RECT, rect.x);
    tiglostrema_putf_(block + TIGLOSTREMA_AT_RECT + 4, rect.y);
    tiglostrema_putf_(block + TIGLOSTREMA_AT_RECT + 8, rect.w);
    tiglostrema_putf_(block + TIGLOSTREMA_AT_RECT + 12, rect.h);
}

static inline void tiglostrema_put_clip_(uint8_t *block, struct tiglostrema_clip clip) {
    tiglostrema_puti_(block + TIGLOSTREMA_AT_CLIP, clip.x0);
    tiglostrema_puti_(block + TIGLOSTREMA_AT_CLIP + 4, clip.y0);
    tiglostrema_puti_(block + TIGLOSTREMA_AT_CLIP + 8, clip.x1);
    tiglostrema_puti_(block + TIGLOSTREMA_AT_CLIP + 12, clip.y1);
}

/* Zeros, and the fields that every kind has. */
static inline void tiglostrema_put_common_(
    uint8_t *block, uint8_t kind, uint16_t priority, struct tiglostrema_clip clip) {
    memset(block, 0, TIGLOSTREMA_BODY_LEN);
    block[TIGLOSTREMA_AT_KIND] = kind;
    tiglostrema_put16_(block + TIGLOSTREMA_AT_PRIORITY, priority);
    tiglostrema_put_clip_(block, clip);
}

/* The numbers of a gradient: as many as its paint has. */
static inline void tiglostrema_put_numbers_(uint8_t *at, const struct tiglostrema_paint *paint) {
    switch (paint->number) {
    case TIGLOSTREMA_PAINT_VGRAD:
        tiglostrema_putf_(at, paint->y0);
        tiglostrema_putf_(at + 4, paint->y1);
        break;
    case TIGLOSTREMA_PAINT_LINEAR:
        tiglostrema_put_point_(at, paint->p0);
        tiglostrema_put_point_(at + 8, paint->p1);
        break;
    case TIGLOSTREMA_PAINT_RADIAL:
        tiglostrema_put_point_(at, paint->centre);
        tiglostrema_putf_(at + 8, paint->radius);
        break;
    default:
        break;
    }
}

static inline void tiglostrema_put_paint_(uint8_t *block, const struct tiglostrema_paint *paint) {
    block[TIGLOSTREMA_AT_PAINT] = paint->number;
    tiglostrema_put_color_(block + TIGLOSTREMA_AT_COLOR, paint->c0);
    if (paint->number == TIGLOSTREMA_PAINT_SOLID) return;
    tiglostrema_put_color_(block + TIGLOSTREMA_AT_SECOND_COLOR, paint->c1);
    tiglostrema_put_numbers_(block + TIGLOSTREMA_AT_NUMBERS, paint);
}

/* Each of these writes the 508 bytes that tiglostrema_add takes, whatever stood there. */
static inline void tiglostrema_write_fill(uint8_t block[TIGLOSTREMA_BODY_LEN], const struct tiglostrema_fill *fill) {
    tiglostrema_put_common_(block, TIGLOSTREMA_KIND_FILL, fill->priority, fill->clip);
    tiglostrema_put_rect_(block, fill->rect);
    tiglostrema_putf_(block + TIGLOSTREMA_AT_RADIUS, fill->radius);
    tiglostrema_put_paint_(block, &fill->paint);
}

static inline void tiglostrema_write_stroke(
    uint8_t block[TIGLOSTREMA_BODY_LEN], const struct tiglostrema_stroke *stroke) {
    tiglostrema_put_common_(block, TIGLOSTREMA_KIND_STROKE, stroke->priority, stroke->clip);
    tiglostrema_put_rect_(block, stroke->rect);
    tiglostrema_putf_(block + TIGLOSTREMA_AT_RADIUS, stroke->radius);
    tiglostrema_putf_(block + TIGLOSTREMA_AT_STROKE_WIDTH, stroke->width);
    tiglostrema_put_color_(block + TIGLOSTREMA_AT_COLOR, stroke->color);
}

static inline void tiglostrema_write_shadow(
    uint8_t block[TIGLOSTREMA_BODY_LEN], const struct tiglostrema_shadow *shadow) {
    tiglostrema_put_common_(block, TIGLOSTREMA_KIND_SHADOW, shadow->priority, shadow->clip);
    if (shadow->skip_inside) block[TIGLOSTREMA_AT_FLAGS] |= TIGLOSTREMA_FLAG_SHADOW_SKIP_INSIDE;
    tiglostrema_put_rect_(block, shadow->rect);
    tiglostrema_putf_(block + TIGLOSTREMA_AT_RADIUS, shadow->radius);
    tiglostrema_putf_(block + TIGLOSTREMA_AT_BLUR, shadow->blur);
    tiglostrema_put_color_(block + TIGLOSTREMA_AT_COLOR, shadow->color);
}

static inline void tiglostrema_write_glass(uint8_t block[TIGLOSTREMA_BODY_LEN], const struct tiglostrema_glass *glass) {
    tiglostrema_put_common_(block, TIGLOSTREMA_KIND_GLASS, glass->priority, glass->clip);
    tiglostrema_put_rect_(block, glass->rect);
    tiglostrema_putf_(block + TIGLOSTREMA_AT_RADIUS, glass->radius);
    tiglostrema_putf_(block + TIGLOSTREMA_AT_BLUR, glass->blur);
    tiglostrema_put_color_(block + TIGLOSTREMA_AT_COLOR, glass->tint);
    tiglostrema_putf_(block + TIGLOSTREMA_AT_SATURATION, glass->saturation);
    tiglostrema_putf_(block + TIGLOSTREMA_AT_BRIGHTNESS, glass->brightness);
    tiglostrema_putf_(block + TIGLOSTREMA_AT_BEZEL, glass->bezel);
    tiglostrema_putf_(block + TIGLOSTREMA_AT_SPEC, glass->spec);
    for (size_t i = 0; i < TIGLOSTREMA_DISPLACEMENT_LEN; i++)
        tiglostrema_putf_(block + TIGLOSTREMA_AT_DISPLACEMENT + 4 * i, glass->displacement[i]);
}

static inline void tiglostrema_write_straight(
    uint8_t block[TIGLOSTREMA_BODY_LEN], const struct tiglostrema_straight *copy) {
    tiglostrema_put_common_(block, TIGLOSTREMA_KIND_STRAIGHT, copy->priority, copy->clip);
    tiglostrema_put32_(block + TIGLOSTREMA_AT_SOURCE, copy->source);
    tiglostrema_puti_(block + TIGLOSTREMA_AT_X, copy->x);
    tiglostrema_puti_(block + TIGLOSTREMA_AT_Y, copy->y);
    tiglostrema_putf_(block + TIGLOSTREMA_AT_RADIUS, copy->radius);
    tiglostrema_put32_(block + TIGLOSTREMA_AT_ALPHA, copy->alpha);
    tiglostrema_put32_(block + TIGLOSTREMA_AT_DIM, copy->dim);
}

static inline void tiglostrema_write_scaled(
    uint8_t block[TIGLOSTREMA_BODY_LEN], const struct tiglostrema_scaled *copy) {
    tiglostrema_put_common_(block, TIGLOSTREMA_KIND_SCALED, copy->priority, copy->clip);
    tiglostrema_put32_(block + TIGLOSTREMA_AT_SOURCE, copy->source);
    tiglostrema_put_rect_(block, copy->rect);
    tiglostrema_putf_(block + TIGLOSTREMA_AT_RADIUS, copy->radius);
    tiglostrema_putf_(block + TIGLOSTREMA_AT_FLOAT_ALPHA, copy->alpha);
}

static inline void tiglostrema_write_genie(uint8_t block[TIGLOSTREMA_BODY_LEN], const struct tiglostrema_genie *genie) {
    tiglostrema_put_common_(block, TIGLOSTREMA_KIND_GENIE, genie->priority, genie->clip);
    tiglostrema_put32_(block + TIGLOSTREMA_AT_SOURCE, genie->source);
    tiglostrema_put_rect_(block, genie->rect);
    tiglostrema_put_point_(block + TIGLOSTREMA_AT_TARGET, genie->target);
    tiglostrema_putf_(block + TIGLOSTREMA_AT_T, genie->t);
    tiglostrema_putf_(block + TIGLOSTREMA_AT_FLOAT_ALPHA, genie->alpha);
}

static inline void tiglostrema_write_frame(uint8_t block[TIGLOSTREMA_BODY_LEN], const struct tiglostrema_frame *frame) {
    tiglostrema_put_common_(block, TIGLOSTREMA_KIND_FRAME, frame->priority, frame->clip);
    if (frame->tint) block[TIGLOSTREMA_AT_FLAGS] |= TIGLOSTREMA_FLAG_FRAME_TINT;
    if (frame->xray) block[TIGLOSTREMA_AT_FLAGS] |= TIGLOSTREMA_FLAG_FRAME_XRAY;
    tiglostrema_puti_(block + TIGLOSTREMA_AT_X, frame->x);
    tiglostrema_puti_(block + TIGLOSTREMA_AT_Y, frame->y);
    tiglostrema_put32_(block + TIGLOSTREMA_AT_WIDTH, frame->width);
    tiglostrema_put32_(block + TIGLOSTREMA_AT_HEIGHT, frame->height);
    tiglostrema_put32_(block + TIGLOSTREMA_AT_BORDER, frame->border);
    block[TIGLOSTREMA_AT_TAG] = frame->tag;
}

/* ---- The library's functions ------------------------------------------------------------------------------------ */

#ifdef __cplusplus
extern "C" {
#endif

/* The archive's version. Where it is not TIGLOSTREMA_VERSION, the program was compiled with another header. */
uint32_t tiglostrema_version(void);

/*
 * Paints the rundown's layers on the canvas, the lowest priority first, each under its clip. Writes the canvas and both
 * scratch slices. What no layer paints stays as it was: a program that plays one picture after the other on a canvas
 * clears it before each, or has its lowest layer cover it.
 *
 * canvas: width * height pixels, row by row; width and height are 1 to 4096. table: width and height of each source by
 * turns, 0 to 16 sources of 1 to 4096 a side. pool: source 0's pixels, then source 1's, and so on. Glass layers blur in
 * the two scratch slices: tiglostrema_forecast says the length that this rundown needs, tiglostrema_scratch_enough one
 * for all. What these hold afterwards is not settled. Lengths are in elements, as everywhere: pixels for the canvas and
 * the pool, words for the table.
 */
uint64_t tiglostrema_play(const uint8_t *rundown, size_t rundown_len, uint32_t width, uint32_t height,
    uint32_t *canvas, size_t canvas_len, const uint32_t *table, size_t table_len,
    const uint32_t *pool, size_t pool_len, uint8_t *scratch_a, size_t a_len, uint8_t *scratch_b, size_t b_len);

/*
 * The bytes of each scratch slice that are enough for every rundown on such a canvas. What one rundown needs,
 * tiglostrema_forecast says; without glass it is none. What the glass layers of a blur can need at most,
 * tiglostrema_dearest says, and from a blur of 2.5 on that is far less: a machine is bought by the least blur that is
 * allowed. 0 for a size that no canvas has, which tiglostrema_play refuses whatever the scratch.
 */
static inline size_t tiglostrema_scratch_enough(uint32_t width, uint32_t height) {
    if (width > TIGLOSTREMA_MAX_SIDE || height > TIGLOSTREMA_MAX_SIDE) return 0;
    size_t bytes = 3;
    return bytes * width * height;
}

/*
 * The first call of a playing in steps, in which each layer is painted by a call of its own. All layers may take longer
 * than a camera's frame; between two calls the newest picture can be put into the pool:
 *
 *     uint32_t last = TIGLOSTREMA_NONE;
 *     uint64_t answer = tiglostrema_begin(rundown, rundown_len, ..., scratch_b, b_len);
 *     while (tiglostrema_cause_of(answer) == TIGLOSTREMA_DONE) {
 *         take_newest_picture(pool);
 *         answer = tiglostrema_step(rundown, rundown_len, ..., scratch_b, b_len, last);
 *         if (tiglostrema_cause_of(answer) == TIGLOSTREMA_DONE) last = tiglostrema_value_of(answer);
 *     }
 *
 * It ends by TIGLOSTREMA_NO_NEXT where all layers are painted, and by another cause where a call was refused.
 *
 * This call makes the tests of tiglostrema_play and answers what that would: the count of layers, or the refusal. It
 * paints nothing, and writes nothing at all. So a program knows before the first step how many there will be, and that
 * they will not be refused if it lends them the same; but no step needs it, for no state is kept between two calls.
 */
uint64_t tiglostrema_begin(const uint8_t *rundown, size_t rundown_len, uint32_t width, uint32_t height,
    const uint32_t *canvas, size_t canvas_len, const uint32_t *table, size_t table_len, const uint32_t *pool,
    size_t pool_len, const uint8_t *scratch_a, size_t a_len, const uint8_t *scratch_b, size_t b_len);

/*
 * Paints one layer of the rundown on the canvas, the one with the lowest priority above last, from the pool that this
 * call is lent, and answers that priority. Writes the canvas and both scratch slices, of which it is not settled what
 * they hold afterwards.
 *
 * last: the priority that was painted last. Any number above 65535, as TIGLOSTREMA_NONE, means none: the lowest layer
 * is painted, and again if none is given again. It need not be a priority of the rundown: those up to it are left out.
 *
 * All tests of tiglostrema_play are made anew in each step, of the layers that are not painted now, too. Then, last of
 * all, it is cause 16 where no layer is above last, and so always where there is no layer at all. A refused step has
 * changed nothing, and the playing can go on from the same last, once what was wrong is mended.
 *
 * Between two calls a source's pixels may be replaced, its size not, and rundown and canvas stay as the last call left
 * them. Then a layer shows the pool as it was at its own step; with one pool in all steps the canvas ends as that of
 * tiglostrema_play; and a pixel with a 0 in a source's map, tiglostrema_stain, ends the same whatever that source shows
 * at each step. Before the end the map that holds is that of a rundown of the layers painted so far: one that is still
 * to come may be what hides the source. A program that changes rundown, sizes or canvas between two calls has what is
 * said of each call, and nothing of the whole.
 */
uint64_t tiglostrema_step(const uint8_t *rundown, size_t rundown_len, uint32_t width, uint32_t height,
    uint32_t *canvas, size_t canvas_len, const uint32_t *table, size_t table_len,
    const uint32_t *pool, size_t pool_len, uint8_t *scratch_a, size_t a_len, uint8_t *scratch_b, size_t b_len,
    uint32_t last);

/* Where the totals stand that tiglostrema_forecast writes. */
enum tiglostrema_total {
    TIGLOSTREMA_TOTAL_SCRATCH = 0, /* the bytes that each scratch slice needs */
    TIGLOSTREMA_TOTAL_CELLS = 1    /* the cells that glass layers work on */
};

/*
 * Says what a play of the rundown will need, and where its layers will paint, before there is a canvas, a pool or any
 * scratch: it paints nothing and reads no pixel. Answers the count of layers. Writes boxes and totals; refused, it
 * leaves every number of both as it was.
 *
 * boxes: x0, y0, x1, y1 of block i from place 4 * i on, in the order of the blocks, which is that of painting where the
 * blocks ascend. They are the columns x0 to just before x1 and the rows y0 to just before y1 of the canvas, and the
 * layer changes no pixel outside of them. All four are 0 where a layer's box is empty, and where there is no layer.
 *
 * totals[TIGLOSTREMA_TOTAL_SCRATCH]: the most that any layer needs, in bytes of each slice. A play with this many in
 * both is never refused by cause 11. With one byte less in either it is, if nothing else refuses it; where the need is
 * 0 no scratch is too short, and both slices may be empty. In begin and in every step it is the same.
 *
 * totals[TIGLOSTREMA_TOTAL_CELLS]: how much glass is worked on, as a sum over the glass layers whose box is not empty.
 * A blur below 2.5 works on single pixels, one below 9 on cells of 2 * 2 pixels, any other on 4 * 4; a layer has as
 * many as cover the part of the canvas that it looks at, which reaches beyond its box. Layers that overlap count in
 * full, and each once, however often its cells are blurred. The sum can be 2^32, so it has 64 bits.
 *
 * All is tested as tiglostrema_play does, but for what is not lent: cause 1 is a side of the canvas, cause 2 the table,
 * and 11 does not arise.
 */
uint64_t tiglostrema_forecast(const uint8_t *rundown, size_t rundown_len, uint32_t width, uint32_t height,
    const uint32_t *table, size_t table_len, int32_t boxes[TIGLOSTREMA_BOXES_LEN],
    uint64_t totals[TIGLOSTREMA_TOTALS_LEN]);

/*
 * Says what the dearest glass layer of a blur needs on such a canvas, and shows one: the worst that a designer can do,
 * to buy machines by before there is any rundown. Answers the need, in bytes of each scratch slice. Writes block;
 * refused, it leaves every byte of it as it was.
 *
 * No glass layer with this blur or a greater one needs more on such a canvas, whatever its rectangle, clip, bezel and
 * table are, and be it accepted or not. So slices of this length are long enough for every rundown whose glass layers
 * have no lesser blur: where designers may choose among blurs, ask for the least. 0 and -0 are one blur.
 *
 * The need is 3 * ceil(width / k) * ceil(height / k), where k is 1 for a blur below 2.5, 2 for one below 9, else 4.
 * Below 2.5 it is tiglostrema_scratch_enough.
 *
 * block: a whole block with its check, a rundown of one layer. It is a glass layer with this blur, bit for bit, so that
 * -0 stays -0; it passes every test; and it needs just that much on such a canvas: with so many bytes in both slices it
 * is played, with one byte less in either it is refused by cause 11. A program may rest on that and on nothing else:
 * which such layer is shown is free, and another version may show another one. Its priority is free as well: who adds
 * it to a show sets one, and hands the first 508 bytes to tiglostrema_add.
 *
 * The blur is 0 to 64. Cause 1 where a side is not 1 to 4096; then 6 where the blur is out of its range or no number.
 * Beside both stands 0.
 */
uint64_t tiglostrema_dearest(uint32_t width, uint32_t height, float blur, uint8_t block[TIGLOSTREMA_BLOCK_LEN]);

/*
 * Shows where a source's pixels may have reached on the canvas after the rundown is played: out has width * height
 * bytes, row by row as the canvas, and each becomes 1 or 0. A pixel with a 0 is the same whatever the source shows.
 * Writes out. The map is that of one play, at once or in steps: what an earlier one left on a canvas that was not
 * cleared is not in it.
 *
 * This is the map to look at before a private call goes on air. It needs no pixels and no scratch, so their causes, a
 * wrong pool length and 11, do not arise; all else is tested as tiglostrema_play does. An out that is not width *
 * height bytes long is cause 1. Any source number is taken: one that no layer copies leaves the map empty, and so does
 * one that the table has not. A program that is told the number tests it, lest a slip looks like a clean canvas.
 */
uint64_t tiglostrema_stain(const uint8_t *rundown, size_t rundown_len, uint32_t width, uint32_t height,
    const uint32_t *table, size_t table_len, uint32_t source, uint8_t *out, size_t out_len);

/*
 * Adds a layer to the `count` blocks at the buffer's front. block508: the first 508 bytes of its block; the check is
 * written behind them. Answers the new count. Writes the buffer: afterwards the blocks stand in ascending priority, and
 * what is behind the last one is not settled.
 *
 * Blocks that come in another order, as in two rundowns that were joined, are taken, and leave in this one. A refusal
 * changes no byte, so it orders nothing.
 */
uint64_t tiglostrema_add(
    uint8_t *buffer, size_t buffer_len, size_t count, const uint8_t block508[TIGLOSTREMA_BODY_LEN]);

/*
 * Removes the layer of this priority from the `count` blocks at the buffer's front. Answers the new count. Writes the
 * buffer as tiglostrema_add does: afterwards the blocks stand in ascending priority, whatever their order was.
 *
 * To replace a layer, remove it and add the new one of the same priority. So that no layer is lost where the new block
 * is refused, add it to 512 bytes of their own first, with count 0: what is taken there will be taken again. The same
 * 508 bytes, removed and added, give back every byte of a rundown whose blocks ascend.
 *
 * What is held is tested first. So a glass layer of an older rundown whose table does not suit its bezel (cause 15) is
 * not removed either: add the first 508 bytes of each other block to an empty buffer.
 */
uint64_t tiglostrema_remove(uint8_t *buffer, size_t buffer_len, size_t count, uint16_t priority);

/*
 * One box pass of radius r over three bytes a pixel, along rows or along columns. src and dst have 3 * width * height
 * bytes; width and height are 1 to 4096, 2 * r + 1 is at most 65536. Answers 0, or cause 14. Writes dst.
 */
uint64_t tiglostrema_box_h(const uint8_t *src, size_t src_len, uint8_t *dst, size_t dst_len,
    size_t width, size_t height, size_t r);
uint64_t tiglostrema_box_v(const uint8_t *src, size_t src_len, uint8_t *dst, size_t dst_len,
    size_t width, size_t height, size_t r);

#ifdef __cplusplus
}
#endif

#endif
