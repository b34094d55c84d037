/*
 * Both doors, on good, damaged and borderline files. Answers of the geometry are fixed ones, worked out by hand; what a
 * damaged file is answered is worked out by `answer_of`, which is written from the file's description alone.
 *
 * The archive is not built for AddressSanitizer, which then sees none of its loads and stores. So every file also stands
 * against a page that may not be touched, once with its first byte and once with its last, and on a page that may only be
 * read while contains is asked.
 */
#define _DEFAULT_SOURCE
#include "jigwandor.h"

#include <float.h>
#include <math.h>
#include <signal.h>
#include <stdarg.h>
#include <stdio.h>
#include <stdlib.h>
#include <string.h>
#include <sys/mman.h>
#include <unistd.h>

#define PI 0x1.921fb54442d18p+1
#define HALF_PI (PI / 2)
#define TWO_PI (2 * PI)

enum { MOST = 64, CORNER = 40, TRAILER = 16, ROOM = 8192 };

typedef struct {
    double x, y, z, lon, lat;
} point;

/* ---- counting */

static unsigned long checks;
static char doing[200];

static void now(const char *format, ...)
{
    va_list words;
    va_start(words, format);
    vsnprintf(doing, sizeof doing, format, words);
    va_end(words);
}

static void check(int holds, const char *what)
{
    checks++;
    if (!holds) {
        printf("%s: %s\n", doing, what);
        exit(1);
    }
}

/* The fault is in a door and not in the C library, so that printing is safe. */
static void on_fault(int signal)
{
    printf("%s: signal %d: a byte outside the buffer was touched, or one written by contains\n", doing, signal);
    fflush(stdout);
    _exit(1);
}

static void check_answer(uint32_t got, uint32_t want, const char *what)
{
    checks++;
    if (got != want) {
        printf("%s: %s answered %lu, not %lu\n", doing, what, (unsigned long)got, (unsigned long)want);
        exit(1);
    }
}

/* ---- a writer of region files */

static void put32(uint8_t *at, uint32_t n)
{
    for (int i = 0; i < 4; i++)
        at[i] = (uint8_t)(n >> (8 * i));
}

static void put64(uint8_t *at, uint64_t n)
{
    for (int i = 0; i < 8; i++)
        at[i] = (uint8_t)(n >> (8 * i));
}

static void put_double(uint8_t *at, double d)
{
    uint64_t bits;
    memcpy(&bits, &d, sizeof bits);
    put64(at, bits);
}

static void put_corner(uint8_t *at, point p)
{
    put_double(at, p.x);
    put_double(at + 8, p.y);
    put_double(at + 16, p.z);
    put_double(at + 24, p.lon);
    put_double(at + 32, p.lat);
}

static void put_trailer(uint8_t *at, uint32_t edition, uint32_t flag, uint32_t count, uint32_t distance)
{
    put32(at, edition);
    put32(at + 4, flag);
    put32(at + 8, count);
    put32(at + 12, distance);
}

/* The file's length. The front is no zeros, so that bytes read from it show. */
static uint64_t make(uint8_t *out, size_t front, const point *corners, uint32_t n, uint32_t flag)
{
    uint8_t *at = out;
    for (size_t i = 0; i < front; i++)
        *at++ = (uint8_t)(0xA5 + 3 * i);
    for (uint32_t i = 0; i < n; i++, at += CORNER)
        put_corner(at, corners[i]);
    put_trailer(at, 1, flag, n, CORNER * n + TRAILER);
    return front + CORNER * n + TRAILER;
}

/* ---- what a file and a point are to be answered */

static uint32_t get32(const uint8_t *at)
{
    return at[0] | (uint32_t)at[1] << 8 | (uint32_t)at[2] << 16 | (uint32_t)at[3] << 24;
}

static double get_double(const uint8_t *at)
{
    uint64_t bits = get32(at) | (uint64_t)get32(at + 4) << 32;
    double d;
    memcpy(&d, &bits, sizeof d);
    return d;
}

static point get_corner(const uint8_t *at)
{
    point p = {get_double(at), get_double(at + 8), get_double(at + 16), get_double(at + 24), get_double(at + 32)};
    return p;
}

static int in_domain(point p)
{
    return fabs(p.x) <= 2 && fabs(p.y) <= 2 && fabs(p.z) <= 2 && p.lon >= 0 && p.lon <= TWO_PI && fabs(p.lat) <= HALF_PI;
}

/* 0 where the file is good */
static uint32_t file_code(const uint8_t *file, uint64_t len)
{
    if (len < TRAILER)
        return 23;
    const uint8_t *trailer = file + len - TRAILER;
    uint32_t n = get32(trailer + 8);
    if (get32(trailer) != 1 || get32(trailer + 4) > 1)
        return 23;
    if (n == 0)
        return 18;
    if (n > MOST)
        return 19;
    if (get32(trailer + 12) != CORNER * n + TRAILER || len < CORNER * n + TRAILER)
        return 23;
    for (uint32_t i = 1; i <= n; i++)
        if (!in_domain(get_corner(trailer - CORNER * i)))
            return 17;
    return 0;
}

static int is_counted(point p, point from, point to)
{
    double x = from.y * to.z - from.z * to.y;
    double y = from.z * to.x - from.x * to.z;
    double z = from.x * to.y - from.y * to.x;
    double north = p.x * x + p.y * y + p.z * z;
    int crosses_seam = fabs(to.lon - from.lon) > PI;
    int between = (from.lon > p.lon) != (to.lon > p.lon);
    return crosses_seam != between && (z < 0 ? north < 0 : north > 0);
}

static uint32_t answer_of(const uint8_t *file, uint64_t len, point p)
{
    uint32_t code = file_code(file, len);
    if (code != 0)
        return code;
    if (!in_domain(p))
        return 17;
    const uint8_t *trailer = file + len - TRAILER;
    uint32_t n = get32(trailer + 8), inside = get32(trailer + 4);
    const uint8_t *first = trailer - CORNER * n;
    for (uint32_t i = 0; i < n; i++)
        inside ^= (uint32_t)is_counted(p, get_corner(first + CORNER * ((i + n - 1) % n)), get_corner(first + CORNER * i));
    return inside;
}

/* ---- the doors */

static uint32_t contains(const uint8_t *file, uint64_t len, point p)
{
    return jigwandor_contains(file, len, p.x, p.y, p.z, p.lon, p.lat);
}

static uint32_t hold(uint8_t *file, uint64_t len, point p)
{
    return jigwandor_hold(file, len, p.x, p.y, p.z, p.lon, p.lat);
}

static int same(const uint8_t *a, const uint8_t *b, uint64_t len)
{
    return len == 0 || memcmp(a, b, len) == 0;
}

static void contains_at(const uint8_t *at, const uint8_t *file, uint64_t len, point p, uint32_t want)
{
    check_answer(contains(at, len, p), want, "contains");
    check(same(at, file, len), "contains changed a byte");
}

static void hold_at(uint8_t *at, const uint8_t *file, uint64_t len, point p, uint32_t want)
{
    static uint8_t after[ROOM];
    if (want >= 16) {
        check_answer(hold(at, len, p), want, "hold");
        check(same(at, file, len), "a refused hold changed a byte");
        return;
    }
    memcpy(after, file, len);
    if (want == 0)
        put32(after + len - 12, 1 - get32(file + len - 12));
    check_answer(hold(at, len, p), 0, "hold");
    check(same(at, after, len), "hold left other bytes than the file's with its flag set");
    check_answer(contains(at, len, p), 1, "contains after hold");
    check_answer(hold(at, len, p), 0, "hold again");
    check(same(at, after, len), "hold again changed a byte");
}

/* Two pages or more, with one before and one behind that may not be touched. */
static uint8_t *pages;
static size_t room;

static void open_pages(void)
{
    size_t page = (size_t)sysconf(_SC_PAGESIZE);
    room = (ROOM + page - 1) / page * page;
    uint8_t *all = mmap(NULL, room + 2 * page, PROT_NONE, MAP_PRIVATE | MAP_ANONYMOUS, -1, 0);
    now("guarded pages");
    check(all != MAP_FAILED, "no memory");
    pages = all + page;
    check(mprotect(pages, room, PROT_READ | PROT_WRITE) == 0, "not writable");
}

static void in_pages(size_t before, const uint8_t *file, uint64_t len, point p, uint32_t want)
{
    uint8_t *at = pages + before;
    memset(pages, 0x5A, room);
    if (len > 0)
        memcpy(at, file, len);
    if (mprotect(pages, room, PROT_READ) != 0)
        check(0, "pages not protected");
    contains_at(at, file, len, p, want);
    if (mprotect(pages, room, PROT_READ | PROT_WRITE) != 0)
        check(0, "pages not opened");
    hold_at(at, file, len, p, want);
    size_t wrong = 0;
    for (size_t i = 0; i < room; i++)
        wrong += (i < before || i >= before + len) && pages[i] != 0x5A;
    check(wrong == 0, "a byte outside the buffer changed");
}

/* `shift` bytes behind the start of a block that ends with the file */
static void in_heap(size_t shift, const uint8_t *file, uint64_t len, point p, uint32_t want)
{
    uint8_t *block = malloc(shift + len);
    if (block == NULL)
        check(0, "no memory");
    memset(block, 0x5A, shift);
    uint8_t *at = block + shift;
    if (len > 0)
        memcpy(at, file, len);
    contains_at(at, file, len, p, want);
    hold_at(at, file, len, p, want);
    for (size_t i = 0; i < shift; i++)
        if (block[i] != 0x5A)
            check(0, "a byte before the buffer changed");
    free(block);
}

/* Both doors on copies of the file. An empty one stands one past the end of its block. */
static void both(const uint8_t *file, uint64_t len, point p, uint32_t want)
{
    in_heap(len == 0, file, len, p, want);
    in_pages(0, file, len, p, want);
    in_pages(room - len, file, len, p, want);
}

/* An answer that was worked out by hand: it tests `answer_of` too. */
static void fixed(const char *what, const uint8_t *file, uint64_t len, point p, uint32_t want)
{
    now("%s", what);
    check_answer(answer_of(file, len, p), want, "this test itself");
    both(file, len, p, want);
}

/* ---- outlines */

static point at(double lon, double lat)
{
    point p = {cos(lat) * cos(lon), cos(lat) * sin(lon), sin(lat), lon, lat};
    return p;
}

static const point square[4] = {{1, 0, 0, 0, 0}, {0, 1, 0, 1.5, 0}, {-1, 0, 0, 3, 0}, {0, -1, 0, 4.5, 0}};
static const point north = {0, 0, 1, 0, 1.5}, south = {0, 0, -1, 0, -1.5};

static void ring(point *corners, uint32_t n, double lat)
{
    for (uint32_t i = 0; i < n; i++)
        corners[i] = at(0.01 + TWO_PI * i / n, lat);
}

/* ---- good files */

static void square_and_one_corner(void)
{
    static uint8_t file[ROOM];
    static const uint8_t trailer[TRAILER] = {1, 0, 0, 0, 0, 0, 0, 0, 4, 0, 0, 0, 0xB0, 0, 0, 0};
    const point corner = {1, 0, 0, 0, 0}, half = {0, 0.5, 0.5, 1.5, 0.5}, third = {0.5, 0.5, 0.25, 0.75, 0.3};

    for (uint32_t flag = 0; flag < 2; flag++) {
        uint64_t len = make(file, 0, square, 4, flag);
        fixed("square, north", file, len, north, 1 ^ flag);
        fixed("square, south", file, len, south, flag);
        fixed("square, a corner itself: dot product 0", file, len, corner, flag);
        fixed("square, one edge counts", file, len, half, 1 ^ flag);
        fixed("square before the put", file, len, third, 1 ^ flag);
    }
    uint64_t len = make(file, 0, square, 4, 0);
    now("square, trailer");
    check(same(file + len - TRAILER, trailer, TRAILER), "this test itself wrote another");

    point raised[4];
    memcpy(raised, square, sizeof raised);
    raised[1] = (point){0, 1, 1, 1.5, 0.5};
    for (uint32_t flag = 0; flag < 2; flag++) {
        len = make(file, 0, raised, 4, flag);
        fixed("square after the put", file, len, third, flag);
    }

    for (uint32_t flag = 0; flag < 2; flag++) {
        len = make(file, 0, square, 1, flag);
        fixed("one corner, north", file, len, north, flag);
        fixed("one corner, south", file, len, south, flag);
        fixed("one corner, itself", file, len, corner, flag);
        fixed("one corner, elsewhere", file, len, third, flag);
    }
}

/* Two corners whose edges have the opposite normals (0, 1, 0) and (0, -1, 0), so that at y = 1 one of them counts wherever
   both are in range. */
static void ranges(void)
{
    static uint8_t file[ROOM];
    static const struct {
        double from, to, lon;
        uint32_t want;
    } cases[] = {
        {0, PI, 1, 1},      /* up to PI the seam is not crossed */
        {0, PI, 4, 0},
        {0, PI, 0, 1},      /* the lower end is in range, the upper not */
        {0, PI, PI, 0},
        {0, PI, TWO_PI, 0},
        {0, 4, 4, 1},       /* across the seam */
        {0, 4, 3, 0},
        {0, 4, 0, 0},
        {0, 4, 5, 1},
        {0, 4, TWO_PI, 1},
        {4, 0, 4, 1},
        {4, 0, 3, 0},
        {1, 6, 0, 1},
        {1, 6, 0.5, 1},
        {1, 6, 1, 0},
        {1, 6, 5.9, 0},
        {1, 6, 6, 1},
        {1, 6, TWO_PI, 1},
        {1, 1, 1, 0},       /* equal longitudes are never in range */
        {1, 1, 4, 0},
        {0, TWO_PI, 1, 0},  /* a whole turn crosses the seam: only TWO_PI itself is left */
        {0, TWO_PI, 0, 0},
        {0, TWO_PI, TWO_PI, 1},
    };
    for (size_t i = 0; i < sizeof cases / sizeof *cases; i++) {
        char what[100];
        point corners[2] = {{1, 0, 0, cases[i].from, 0}, {0, 0, 1, cases[i].to, 0}};
        point p = {0, 1, 0, cases[i].lon, 0};
        snprintf(what, sizeof what, "longitudes %g to %g at %g", cases[i].from, cases[i].to, cases[i].lon);
        for (uint32_t flag = 0; flag < 2; flag++)
            fixed(what, file, make(file, 0, corners, 2, flag), p, cases[i].want ^ flag);
    }

    /* next to PI, and next to the ends */
    point corners[2] = {{1, 0, 0, 0, 0}, {0, 0, 1, nextafter(PI, 4), 0}};
    uint64_t len = make(file, 0, corners, 2, 0);
    fixed("a step just above PI, at 1", file, len, (point){0, 1, 0, 1, 0}, 0);
    fixed("a step just above PI, at 4", file, len, (point){0, 1, 0, 4, 0}, 1);
    corners[1].lon = PI;
    len = make(file, 0, corners, 2, 0);
    fixed("just below the upper end", file, len, (point){0, 1, 0, nextafter(PI, 0), 0}, 1);
    corners[0].lon = 1;
    corners[1].lon = 2;
    len = make(file, 0, corners, 2, 0);
    fixed("just below the lower end", file, len, (point){0, 1, 0, nextafter(1, 0), 0}, 0);
    fixed("the lower end", file, len, (point){0, 1, 0, 1, 0}, 1);
    fixed("a dot product of 0", file, len, (point){0, 0, 0, 1, 0}, 0);
    fixed("a dot product just above 0", file, len, (point){0, DBL_MIN, 0, 1, 0}, 1);
    fixed("a dot product of -0", file, len, (point){0, -0.0, 0, 1, 0}, 0);
}

static void seam_and_poles(void)
{
    static uint8_t file[ROOM];
    static const struct {
        double lon, lat;
        uint32_t want;
    } fixes[] = {
        {6.2, 0.9, 1}, {0.1, 0.9, 1}, {0, 0.9, 1},   {TWO_PI, 0.9, 1}, {5.9, 0.9, 1},  {0.4, 0.9, 1},
        {3, 0.9, 0},   {5.6, 0.9, 0}, {0.6, 0.9, 0}, {6.2, 0.3, 0},    {0.1, 1.3, 0},  {0, 0.3, 0},
        {0.1, -1, 0},  {6.2, 1.5, 0}, {5, 0, 0},     {0, HALF_PI, 0},  {0, -HALF_PI, 0},
    };
    const point corners[4] = {at(5.9, 0.6), at(0.4, 0.7), at(0.5, 1.1), at(5.8, 1.2)};
    point backwards[4];
    for (int i = 0; i < 4; i++)
        backwards[i] = corners[3 - i];
    for (size_t i = 0; i < sizeof fixes / sizeof *fixes; i++) {
        char what[100];
        snprintf(what, sizeof what, "across the seam, longitude %g, latitude %g", fixes[i].lon, fixes[i].lat);
        for (uint32_t flag = 0; flag < 2; flag++) {
            point p = at(fixes[i].lon, fixes[i].lat);
            fixed(what, file, make(file, 0, corners, 4, flag), p, fixes[i].want ^ flag);
            fixed(what, file, make(file, 0, backwards, 4, flag), p, fixes[i].want ^ flag);
        }
    }

    /* A ring at one latitude: exactly one edge is in range, and it counts north of it. */
    static const uint32_t counts[] = {3, 5, 16, 63, 64};
    static const double lats[] = {-1.2, -0.3, 0.7, 1.2};
    for (size_t i = 0; i < sizeof counts / sizeof *counts; i++)
        for (size_t j = 0; j < sizeof lats / sizeof *lats; j++)
            for (uint32_t flag = 0; flag < 2; flag++) {
                point corners64[MOST];
                char what[100];
                ring(corners64, counts[i], lats[j]);
                uint64_t len = make(file, 0, corners64, counts[i], flag);
                snprintf(what, sizeof what, "ring of %u at latitude %g, flag %u", (unsigned)counts[i], lats[j], (unsigned)flag);
                fixed(what, file, len, at(0, -HALF_PI), flag);
                fixed(what, file, len, at(0, HALF_PI), 1 ^ flag);
                for (int k = 0; k <= 8; k++) {
                    /* well away from the edges, which of three corners lie far off their parallel */
                    fixed(what, file, len, at(TWO_PI * k / 8, -1.5), flag);
                    fixed(what, file, len, at(TWO_PI * k / 8, 1.5), 1 ^ flag);
                }
            }
}

/* A maker's own bytes in front change no answer. */
static void fronts(void)
{
    static uint8_t file[ROOM];
    static const size_t lengths[] = {0, 1, 2, 3, 7, 15, 16, 39, 40, 41, 80, 1000, 4096};
    point corners[MOST];
    ring(corners, MOST, -1);
    for (size_t i = 0; i < sizeof lengths / sizeof *lengths; i++)
        for (size_t shift = 0; shift < 8; shift++) {
            char what[100];
            snprintf(what, sizeof what, "%lu bytes in front, %lu off", (unsigned long)lengths[i], (unsigned long)shift);
            uint64_t len = make(file, lengths[i], square, 4, 0);
            fixed(what, file, len, north, 1);
            in_heap(shift, file, len, north, 1);
            in_heap(shift, file, len, south, 0);
            len = make(file, lengths[i], corners, MOST, 1);
            fixed(what, file, len, at(6.2, -1.4), 1);
            in_heap(shift, file, len, at(6.2, -1.4), 1);
            in_heap(shift, file, len, at(0.1, 1), 0);
            in_heap(shift, file, len, at(7, 1), 17);
        }

    /* Another region file in front; without the one behind it, it is read. */
    uint64_t first = make(file, 0, square, 1, 1), len = first + make(file + first, 0, square, 4, 0);
    fixed("a file behind a file", file, len, south, 0);
    fixed("the file in front alone", file, first, south, 1);

    /* Corners that a smaller count leaves in front are skipped, bad ones too. */
    point bad[4];
    memcpy(bad, square, sizeof bad);
    bad[0].x = NAN;
    len = make(file, 0, bad, 4, 0);
    fixed("a bad corner", file, len, north, 17);
    put_trailer(file + len - TRAILER, 1, 0, 3, 3 * CORNER + TRAILER);
    fixed("a bad corner in front, no edge in range", file, len, north, 0);
    fixed("a bad corner in front, one edge counts", file, len, (point){0, 0.5, 0.5, 2, 0.5}, 1);
}

/* ---- damaged files */

static void trailer_by_hand(void)
{
    static uint8_t file[ROOM];
    static const struct {
        const char *what;
        uint32_t edition, flag, count, distance, want;
    } cases[] = {
        {"edition 0", 0, 0, 4, 176, 23},
        {"edition 2", 2, 0, 4, 176, 23},
        {"edition with its bytes turned round", 0x01000000, 0, 4, 176, 23},
        {"edition wrong, count 0", 2, 0, 0, 16, 23},
        {"edition wrong, count 65", 2, 0, 65, 2616, 23},
        {"flag 2", 1, 2, 4, 176, 23},
        {"flag with its bytes turned round", 1, 0x01000000, 4, 176, 23},
        {"flag of all ones", 1, 0xFFFFFFFF, 4, 176, 23},
        {"flag wrong, count 0", 1, 2, 0, 16, 23},
        {"flag wrong, count 65", 1, 2, 65, 2616, 23},
        {"count 0", 1, 0, 0, 16, 18},
        {"count 0, flag set", 1, 1, 0, 16, 18},
        {"count 0, distance wrong", 1, 0, 0, 176, 18},
        {"count 0, distance 0", 1, 0, 0, 0, 18},
        {"count 0, distance past the file", 1, 0, 0, 0xFFFFFFFF, 18},
        {"count 65", 1, 0, 65, 2616, 19},
        {"count 65, distance wrong", 1, 0, 65, 176, 19},
        {"count 65, distance 0", 1, 1, 65, 0, 19},
        {"count 66", 1, 0, 66, 2656, 19},
        {"count 256", 1, 0, 256, 10256, 19},
        {"count with its bytes turned round", 1, 0, 0x04000000, 176, 19},
        {"count of all ones", 1, 0, 0xFFFFFFFF, 0xFFFFFFE8, 19},
        {"count 107374183, 40 times which is 24 in 32 bits", 1, 0, 107374183, 40, 19},
        {"count 64 in a file for 4", 1, 0, 64, 2576, 23},
        {"count 5 in a file for 4", 1, 0, 5, 216, 23},
        {"count 3, distance for 4", 1, 0, 3, 176, 23},
        {"count 4, distance for 3", 1, 0, 4, 136, 23},
        {"distance without the trailer", 1, 0, 4, 160, 23},
        {"distance one less", 1, 0, 4, 175, 23},
        {"distance one more", 1, 0, 4, 177, 23},
        {"distance 0", 1, 0, 4, 0, 23},
        {"distance 16", 1, 0, 4, 16, 23},
        {"distance of all ones", 1, 0, 4, 0xFFFFFFFF, 23},
        {"distance with its bytes turned round", 1, 0, 4, 0xB0000000, 23},
        {"nothing wrong", 1, 0, 4, 176, 1},
        {"nothing wrong, flag set", 1, 1, 4, 176, 0},
    };
    const point bad = {NAN, NAN, NAN, NAN, NAN};
    for (size_t i = 0; i < sizeof cases / sizeof *cases; i++) {
        uint64_t len = make(file, 0, square, 4, 0);
        put_trailer(file + len - TRAILER, cases[i].edition, cases[i].flag, cases[i].count, cases[i].distance);
        fixed(cases[i].what, file, len, north, cases[i].want);
        /* the file is tested before the point */
        fixed(cases[i].what, file, len, bad, cases[i].want < 2 ? 17 : cases[i].want);
        /* and its trailer before its corners */
        put_corner(file, bad);
        fixed(cases[i].what, file, len, north, cases[i].want < 2 ? 17 : cases[i].want);
        /* the trailer alone: no corner is there */
        uint32_t alone = cases[i].want < 2 ? 23 : cases[i].want;
        fixed(cases[i].what, file + len - TRAILER, TRAILER, north, alone);
    }

    /* Counts around 64 where the file has room for more. */
    point corners[MOST];
    ring(corners, MOST, -1);
    uint64_t len = make(file, 400, corners, MOST, 1);
    fixed("count 64", file, len, at(0.1, -1.4), 1);
    put_trailer(file + len - TRAILER, 1, 1, 65, 65 * CORNER + TRAILER);
    fixed("count 65 with 65 corners' bytes", file, len, at(0.1, -1.4), 19);
    len = make(file, 0, corners, MOST, 1);
    fixed("one byte short of count 64", file + 1, len - 1, at(0.1, -1.4), 23);
}

static void every_trailer_byte(const char *what, const uint8_t *good, uint64_t len, point p)
{
    static uint8_t file[ROOM];
    for (size_t i = len - TRAILER; i < len; i++)
        for (unsigned change = 1; change < 256; change++) {
            memcpy(file, good, len);
            file[i] = (uint8_t)(file[i] ^ change);
            now("%s, trailer byte %lu changed by %u", what, (unsigned long)(i - (len - TRAILER)), change);
            both(file, len, p, answer_of(file, len, p));
        }
}

static void every_corner_bit(const char *what, const uint8_t *good, uint64_t len, point p)
{
    static uint8_t file[ROOM];
    for (size_t i = 0; i < len - TRAILER; i++)
        for (unsigned bit = 0; bit < 8; bit++) {
            memcpy(file, good, len);
            file[i] = (uint8_t)(file[i] ^ 1u << bit);
            now("%s, byte %lu, bit %u", what, (unsigned long)i, bit);
            both(file, len, p, answer_of(file, len, p));
        }
}

static void every_length(const char *what, const uint8_t *good, uint64_t len, point p)
{
    for (size_t cut = 0; cut <= len; cut++) {
        now("%s, %lu bytes cut off behind", what, (unsigned long)cut);
        both(good, len - cut, p, answer_of(good, len - cut, p));
        now("%s, %lu bytes cut off in front", what, (unsigned long)cut);
        both(good + cut, len - cut, p, answer_of(good + cut, len - cut, p));
    }
}

static void damage(void)
{
    static uint8_t file[ROOM];
    point corners[MOST];
    ring(corners, MOST, -1);
    uint64_t len = make(file, 0, square, 4, 0);
    every_trailer_byte("square", file, len, north);
    every_corner_bit("square", file, len, north);
    every_length("square", file, len, north);
    len = make(file, 7, square, 1, 1);
    every_trailer_byte("one corner behind 7 bytes", file, len, south);
    every_corner_bit("one corner behind 7 bytes", file, len, south);
    every_length("one corner behind 7 bytes", file, len, south);
    len = make(file, 40, corners, MOST, 1);
    every_trailer_byte("64 corners behind 40 bytes", file, len, at(0.1, -1.4));
    every_length("64 corners behind 40 bytes", file, len, at(0.1, -1.4));

    /* A file's corners may hold what looks like a trailer: cut off there, it is one. */
    len = make(file, 0, square, 1, 1);
    put_corner(file + len, square[0]);
    put_trailer(file + len + CORNER, 1, 0, 2, 96);
    every_length("a trailer among the corners", file, len + CORNER + TRAILER, south);

    for (int byte = 0; byte < 256; byte++) {
        now("64 bytes of %d", byte);
        memset(file, byte, 64);
        both(file, 64, north, 23);
    }
}

/* ---- the domain, of corners and of points */

static double *field(point *p, int i)
{
    double *fields[5] = {&p->x, &p->y, &p->z, &p->lon, &p->lat};
    return fields[i];
}

/* What field i may be: `low` to `high`. Entries past `good` are outside. */
static size_t borders(int i, double *values, size_t *good)
{
    static const double low[5] = {-2, -2, -2, 0, -HALF_PI}, high[5] = {2, 2, 2, TWO_PI, HALF_PI};
    size_t n = 0;
    values[n++] = low[i];
    values[n++] = high[i];
    values[n++] = 0;
    values[n++] = -0.0;
    values[n++] = DBL_MIN;
    values[n++] = nextafter(0, 1);
    values[n++] = nextafter(low[i], INFINITY);
    values[n++] = nextafter(high[i], 0);
    *good = n;
    values[n++] = nextafter(low[i], -INFINITY);
    values[n++] = nextafter(high[i], INFINITY);
    values[n++] = NAN;
    values[n++] = -NAN;
    values[n++] = INFINITY;
    values[n++] = -INFINITY;
    values[n++] = DBL_MAX;
    values[n++] = -DBL_MAX;
    return n;
}

/* NaN patterns in the file, the signalling ones included, are set by their bits. */
static void nan_patterns(uint8_t *file, uint64_t len, uint8_t *at_field)
{
    static const uint64_t patterns[] = {
        UINT64_C(0x7FF0000000000001), UINT64_C(0x7FF4000000000000), UINT64_C(0x7FF7FFFFFFFFFFFF), UINT64_C(0x7FF8000000000000),
        UINT64_C(0x7FFFFFFFFFFFFFFF), UINT64_C(0xFFF0000000000001), UINT64_C(0xFFF8000000000000), UINT64_C(0xFFFFFFFFFFFFFFFF),
    };
    for (size_t i = 0; i < sizeof patterns / sizeof *patterns; i++) {
        put64(at_field, patterns[i]);
        fixed("a corner with a NaN", file, len, north, 17);
    }
}

static void domain(void)
{
    static uint8_t file[ROOM];
    point corners[MOST], bad_point = {0, 0, 0, -1, 0};
    double values[32];
    static const uint32_t counts[] = {1, 4, 64};
    char what[100];

    for (size_t c = 0; c < sizeof counts / sizeof *counts; c++)
        for (uint32_t k = 0; k < counts[c]; k += counts[c] > 8 ? 21 : 1)
            for (int i = 0; i < 5; i++) {
                size_t good, n = borders(i, values, &good);
                for (size_t v = 0; v < n; v++) {
                    ring(corners, counts[c], 0.7);
                    *field(&corners[k], i) = values[v];
                    uint64_t len = make(file, 1, corners, counts[c], 1);
                    snprintf(what, sizeof what, "corner %u of %u, field %d is %a", (unsigned)k, (unsigned)counts[c], i, values[v]);
                    now("%s", what);
                    check(file_code(file, len) == (v < good ? 0 : 17), "this test itself");
                    both(file, len, south, answer_of(file, len, south));
                    both(file, len, at(6.2, 1), answer_of(file, len, at(6.2, 1)));
                    fixed(what, file, len, bad_point, 17);
                }
                ring(corners, counts[c], 0.7);
                uint64_t len = make(file, 1, corners, counts[c], 1);
                nan_patterns(file, len, file + 1 + CORNER * k + 8 * (size_t)i);
            }

    ring(corners, MOST, 0.7);
    for (uint32_t k = 0; k < MOST; k += 9)
        corners[k].lat = 2;
    fixed("several bad corners", file, make(file, 0, corners, MOST, 0), north, 17);
    for (uint32_t k = 0; k < MOST; k++)
        *field(&corners[k], (int)(k % 5)) = NAN;
    fixed("all corners bad", file, make(file, 0, corners, MOST, 0), bad_point, 17);

    for (int i = 0; i < 5; i++) {
        size_t good, n = borders(i, values, &good);
        for (size_t v = 0; v < n; v++) {
            point p = at(0.1, -1.4);
            *field(&p, i) = values[v];
            ring(corners, MOST, -1);
            uint64_t len = make(file, 0, corners, MOST, 1);
            snprintf(what, sizeof what, "a point, field %d is %a", i, values[v]);
            now("%s", what);
            check(in_domain(p) == (v < good), "this test itself");
            both(file, len, p, answer_of(file, len, p));
            /* one corner and the flag: inside is all that is no refusal */
            len = make(file, 3, square, 1, 1);
            fixed(what, file, len, p, v < good ? 1 : 17);
            len = make(file, 3, square, 1, 0);
            fixed(what, file, len, p, v < good ? 0 : 17);
            /* a wrong file is told first */
            put32(file + len - TRAILER, 3);
            fixed(what, file, len, p, 23);
        }
    }
}

static void nothing_at_all(void)
{
    static const point bad = {NAN, 0, 0, 0, 0};
    now("NULL, length 0");
    check_answer(contains(NULL, 0, north), 23, "contains");
    check_answer(contains(NULL, 0, bad), 23, "contains");
    check_answer(hold(NULL, 0, north), 23, "hold");
    check_answer(hold(NULL, 0, bad), 23, "hold");
    uint8_t byte = 0x5A;
    fixed("length 0", &byte, 0, north, 23);
    fixed("length 0", &byte, 0, bad, 23);
    now("length 0 before a good file");
    static uint8_t file[ROOM];
    make(file, 0, square, 4, 0);
    check_answer(contains(file, 0, north), 23, "contains");
    check_answer(hold(file, 0, north), 23, "hold");
}

int main(void)
{
    signal(SIGSEGV, on_fault);
    signal(SIGBUS, on_fault);
    open_pages();
    nothing_at_all();
    square_and_one_corner();
    ranges();
    seam_and_poles();
    fronts();
    trailer_by_hand();
    damage();
    domain();
    printf("%lu checks\n", checks);
    return 0;
}
