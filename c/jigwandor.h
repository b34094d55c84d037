/*
 * Jigwandor: is a fix inside the film region? Two calls over the bytes of a region file.
 *
 *     if (jigwandor_contains(file, len, x, y, z, lon, lat) == JIGWANDOR_INSIDE)
 *         film();
 *
 * NEVER `if (jigwandor_contains(..)) film();`: a refusal, 17 to 23, is true in C as well, and a camera with a damaged file
 * would film everywhere. Compare with JIGWANDOR_INSIDE.
 *
 * What it takes
 *
 *   stack    12,784 bytes for a call on a Cortex-M0 or M0+, below 20 KB on x86-64. A core without memory protection tells
 *            nothing of a stack that is too small: keep 16 KB free there wherever a call is made.
 *   flash    10,360 bytes on a Cortex-M0, with what the calls need of the compiler's library and of the C library
 *   RAM      none beside the stack: no heap, no data, no bss
 *
 * docs/CAMERA.md is for firmware: what to link, times at 48 MHz, a linker script, a start-up and a whole program.
 *
 * What is asked of the caller
 *
 * `file` is a valid pointer and `len` its length. That is, there are `len` bytes from `file` on, which can be read (for
 * jigwandor_hold also written) and which nothing else changes during the call. Nothing else is asked: the bytes may be
 * anything, and so may the five doubles, NaN and infinities included, and `file` needs no alignment.
 *
 * `len` has 64 bits on every core, since the compiled functions take it so: `uint64_t`. On a core of 32 bits a `size_t` here
 * would compile and link with no word of warning, and the call would then take its arguments from the wrong places.
 *
 * An empty buffer, `len` 0, may be NULL or a pointer past the end of an array: nothing is read or written through it, and
 * the answer is that of a file without a trailer, 23. With any other length `file` is not NULL.
 *
 * The calls keep nothing from one to the next, allocate nothing and have no global state. Threads may make them at the same
 * time, on the same bytes too as long as no call is a hold.
 *
 * To link, on x86-64 Linux: cc -Ibuild program.c build/libjigwandor.a; it needs the C library's memory calls alone. On a
 * Cortex-M0 or M0+: arm-none-eabi-gcc with build/camera/libjigwandor.a; it needs the C library's memory calls and libgcc.
 *
 * Arguments
 *
 *   x, y, z    the fix as a vector, each from -2 to 2; of a fix on the sphere, with the length 1:
 *              x = cos(lat) * cos(lon), y = cos(lat) * sin(lon), z = sin(lat)
 *   lon        longitude in radians, from 0 to 2 pi, both included. A western longitude has 2 pi added.
 *   lat        latitude in radians, from -pi/2 to pi/2, both included
 *
 * Pi is the double nearest to it, 0x1.921fb54442d18p+1. The five need not agree with each other: which edges count is told
 * by lon, on which side of an edge the fix lies by x, y, z.
 *
 * Answers
 *
 *   0    JIGWANDOR_OUTSIDE, or JIGWANDOR_HELD of jigwandor_hold
 *   1    JIGWANDOR_INSIDE
 *   17   JIGWANDOR_OUTSIDE_DOMAIN    one of the five, of the fix or of a corner in the file, is outside its bounds or NaN
 *   18   JIGWANDOR_NO_CORNER         the file's corner count is 0
 *   19   JIGWANDOR_TOO_MANY_CORNERS  the file's corner count is above 64
 *   23   JIGWANDOR_WRONG_TRAILER     the file is shorter than its trailer says or than a trailer, or a field is wrong
 *
 * From 16 on an answer is a refusal: JIGWANDOR_IS_REFUSAL(answer). There are no other answers. The file is tested before the
 * fix: where both are wrong, the answer is the file's.
 *
 * On a refusal: do not film, and log jigwandor_refusal_name(answer). 18, 19 and 23 are the file's and come again with every
 * fix: take a spare copy of the file. 17 may be the fix's or the file's. To tell, ask with the fix 0, 0, 0, 0, 0, which is
 * legal: where the answer is 17 again, a corner of the file is outside its bounds; otherwise it was the fix, and the next
 * fix may be answered.
 *
 * The outline
 *
 * The corners are joined in the file's order, and the last with the first. An edge is the shorter great circle arc between
 * its corners, NOT a line on the map and NOT a parallel: between two corners of one latitude it runs nearer to the pole. A
 * ring of 12 corners along 60 S reaches 60.85 S in the middle of its edges, 95 km further south. There 12 corners keep the
 * outline within 100 km of the parallel, 17 within 50 km, 37 within 10 km, 53 within 5 km; docs/CALLS.md has the table for
 * other latitudes. Between opposite meridians, half a turn of longitude apart, the outline's direction may decide which way
 * round an edge runs: put a corner in between. And let no corner be a pole: put it beside the pole.
 *
 * The outline itself is half-open: a fix exactly on an edge is answered as the fixes just south of it are, and on an edge
 * along a meridian as the fixes just east of it. So of two regions with an edge in common one has it, and not both.
 *
 *         a ------- b      inside: what the outline goes round, the edge a-b, the edge d-a, and the corner a
 *         |  inside |      outside: the edge b-c, the edge c-d, and the corners b, c and d
 *         d ------- c      (north is up, east is right; how near 'exactly' is goes by the rounding of doubles)
 *
 * Which side is filmed is told by the file's flag: 1 is the side that has the south pole, 0 the other. With the flag 1 and the
 * outline above, inside and outside change places. To ask it, ask about the south pole: jigwandor_contains(file, len, 0, 0,
 * -1, 0, 0). docs/POLES.md is for whoever plans: which side of a ring round a pole is filmed, and what to look at beforehand.
 *
 * Region file, edition 1, little-endian
 *
 *   any bytes of the maker's own, which are skipped
 *   n corners of 40 bytes, n from 1 to 64: x, y, z, lon, lat, each an IEEE 754 double of 8 bytes
 *   a trailer of 16 bytes, four uint32_t: edition 1; flag 0 or 1; corner count n; 40 * n + 16, which is the distance from
 *   the file's end back to corner 0
 *
 * Tests, in this order: a length of at least 16; edition; flag; count; distance; a length of at least the distance; corners.
 *
 * There is no checksum. Where one bit of a file flips, the call may refuse the file, or answer for another outline with no
 * word of it: of the 1,728 single bits of the example's file 182 are refused, and 699 change answers on a grid of 1 degree.
 * The maker's bytes in front are the place for a checksum: docs/CAMERA.md has the lines of C that keep a CRC-32 there.
 *
 * Example: asks whether a fix is inside the region of a file, and if not, changes over to the side that has it.
 *
 *     #include <jigwandor.h>
 *     #include <math.h>
 *     #include <stdio.h>
 *
 *     int main(int argc, char **argv)
 *     {
 *         static uint8_t file[65536];
 *         FILE *in = argc == 2 ? fopen(argv[1], "rb") : NULL;
 *         if (in == NULL)
 *             return 2;
 *         uint64_t len = fread(file, 1, sizeof file, in);
 *         fclose(in);
 *
 *         double lon = 0.1, lat = 0.9;
 *         double x = cos(lat) * cos(lon), y = cos(lat) * sin(lon), z = sin(lat);
 *         uint32_t answer = jigwandor_contains(file, len, x, y, z, lon, lat);
 *         if (answer == JIGWANDOR_OUTSIDE) {
 *             puts("outside");
 *             answer = jigwandor_hold(file, len, x, y, z, lon, lat);
 *             if (answer == JIGWANDOR_HELD)
 *                 answer = jigwandor_contains(file, len, x, y, z, lon, lat);
 *         }
 *         if (answer == JIGWANDOR_INSIDE)
 *             puts("inside");
 *         else if (JIGWANDOR_IS_REFUSAL(answer))
 *             printf("refused as %u, %s\n", (unsigned)answer, jigwandor_refusal_name(answer));
 *         return 0;
 *     }
 */
#ifndef JIGWANDOR_H
#define JIGWANDOR_H

#include <stdint.h>

#define JIGWANDOR_VERSION "0.8.0"
#define JIGWANDOR_VERSION_MAJOR 0
#define JIGWANDOR_VERSION_MINOR 8
#define JIGWANDOR_VERSION_PATCH 0

#ifdef __cplusplus
extern "C" {
#endif

enum {
    JIGWANDOR_OUTSIDE = 0,
    JIGWANDOR_INSIDE = 1,
    JIGWANDOR_HELD = 0,
    JIGWANDOR_OUTSIDE_DOMAIN = 17,
    JIGWANDOR_NO_CORNER = 18,
    JIGWANDOR_TOO_MANY_CORNERS = 19,
    JIGWANDOR_WRONG_TRAILER = 23
};

/* Whether an answer of either call is a refusal. */
#define JIGWANDOR_IS_REFUSAL(answer) ((answer) >= 16)

/*
 * Whether the file's region contains the fix: JIGWANDOR_INSIDE, JIGWANDOR_OUTSIDE, or a refusal. Writes nothing.
 *
 * The answer is no truth value: film where it == JIGWANDOR_INSIDE, and nowhere else. `if (jigwandor_contains(..)) film();`
 * films on every refusal, since 17 to 23 are true.
 */
uint32_t jigwandor_contains(const uint8_t *file, uint64_t len, double x, double y, double z, double lon, double lat);

/*
 * Holds the fix: sets the file's flag field, in place, so that the region contains it. Answers JIGWANDOR_HELD, which is 0, or
 * a refusal, which leaves every byte as it was. Where the fix was outside, inside and outside change places for every fix;
 * where it was inside, the file stays as it is. No byte but the flag field's four ever changes. A checksum over the file is to
 * be made anew.
 */
uint32_t jigwandor_hold(uint8_t *file, uint64_t len, double x, double y, double z, double lon, double lat);

/* A refusal's name, for a log. It stands here and not in the archive, which has proved code alone. */
static inline const char *jigwandor_refusal_name(uint32_t answer)
{
    switch (answer) {
    case JIGWANDOR_OUTSIDE_DOMAIN:
        return "outside domain";
    case JIGWANDOR_NO_CORNER:
        return "no corner";
    case JIGWANDOR_TOO_MANY_CORNERS:
        return "too many corners";
    case JIGWANDOR_WRONG_TRAILER:
        return "wrong trailer";
    default:
        return JIGWANDOR_IS_REFUSAL(answer) ? "unknown refusal" : "no refusal";
    }
}

#ifdef __cplusplus
}
#endif

#endif
