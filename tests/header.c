/*
 * What the header says, tried: the types of the two calls, the refusals' test and names, the outline itself, edges between
 * opposite meridians, how to tell whose 17 it is. C and C++ compile it, for x86-64 and for the camera's core, where a length
 * of another type than uint64_t does not compile.
 *
 * header_fault() gives NULL, or what is otherwise.
 */
#include "jigwandor.h"

#include <string.h>

#define PI 3.141592653589793 /* C++98 has no hexadecimal doubles */

#ifdef __cplusplus
#define NOTHING 0
extern "C" const char *header_fault(void);
#else
#define NOTHING ((void *)0)
const char *header_fault(void);
#endif

typedef struct {
    double x, y, z, lon, lat;
} point;

/* The prototypes, with the type that the compiled functions take. */
static uint32_t (*const contains)(const uint8_t *, uint64_t, double, double, double, double, double) = jigwandor_contains;
static uint32_t (*const hold)(uint8_t *, uint64_t, double, double, double, double, double) = jigwandor_hold;

static uint8_t file[64 * 40 + 16];
static uint64_t len;

static void make(const point *corners, uint32_t n, uint32_t flag)
{
    uint32_t trailer[4];
    trailer[0] = 1;
    trailer[1] = flag;
    trailer[2] = n;
    trailer[3] = 40 * n + 16;
    memcpy(file, corners, 40 * n);
    memcpy(file + 40 * n, trailer, sizeof trailer);
    len = 40 * n + 16;
}

static uint32_t ask(double x, double y, double z, double lon, double lat)
{
    return contains(file, len, x, y, z, lon, lat);
}

/* The header's picture. The numbers are exact, so that a fix 'on an edge' is. North is up. */
static const point picture[4] = {
    {1, -0.5, 0.5, 1, 0.4},  /* a */
    {1, 0.5, 0.5, 2, 0.4},   /* b */
    {1, 0.5, -0.5, 2, -0.4}, /* c */
    {1, -0.5, -0.5, 1, -0.4} /* d */
};

static const char *outline_itself(uint32_t flag)
{
    uint32_t in = 1 - flag, out = flag;
    make(picture, 4, flag);
    if (ask(1, 0, 0, 1.5, 0) != in)
        return "the middle";
    if (ask(0, 0, -1, 0, 0) != flag)
        return "the south pole";
    if (ask(1, 0, 0.5, 1.5, 0.4) != in || ask(1, 0, 0.5001, 1.5, 0.4) != out)
        return "the edge a-b";
    if (ask(1, 0, -0.5, 1.5, -0.4) != out || ask(1, 0, -0.4999, 1.5, -0.4) != in)
        return "the edge c-d";
    if (ask(1, -0.5, 0, 1, 0) != in || ask(1, -0.5, 0, 0.999, 0) != out)
        return "the edge d-a";
    if (ask(1, 0.5, 0, 2, 0) != out || ask(1, 0.5, 0, 1.999, 0) != in)
        return "the edge b-c";
    if (ask(1, -0.5, 0.5, 1, 0.4) != in || ask(1, 0.5, 0.5, 2, 0.4) != out || ask(1, 0.5, -0.5, 2, -0.4) != out ||
        ask(1, -0.5, -0.5, 1, -0.4) != out)
        return "the corners";
    return NOTHING;
}

/* An edge in common, a-b of the picture with the region north of it and b-c with the one east of it: one of the two has it. */
static const char *edge_in_common(void)
{
    static const point north[4] = {{1, -0.5, 1, 1, 0.8}, {1, 0.5, 1, 2, 0.8}, {1, 0.5, 0.5, 2, 0.4}, {1, -0.5, 0.5, 1, 0.4}};
    static const point east[4] = {{1, 0.5, 0.5, 2, 0.4}, {1, 1.5, 0.5, 3, 0.4}, {1, 1.5, -0.5, 3, -0.4}, {1, 0.5, -0.5, 2, -0.4}};
    uint32_t ours;
    make(picture, 4, 0);
    ours = ask(1, 0, 0.5, 1.5, 0.4);
    make(north, 4, 0);
    if (ask(1, 0, 0.75, 1.5, 0.6) != JIGWANDOR_INSIDE || ours + ask(1, 0, 0.5, 1.5, 0.4) != 1)
        return "an edge in common, north";
    make(picture, 4, 0);
    ours = ask(1, 0.5, 0, 2, 0);
    make(east, 4, 0);
    if (ask(1, 1, 0, 2.5, 0) != JIGWANDOR_INSIDE || ours + ask(1, 0.5, 0, 2, 0) != 1)
        return "an edge in common, east";
    return NOTHING;
}

/* Which way round an edge between opposite meridians runs: by the outline's direction, unless a corner stands in between. */
static const char *opposite_meridians(void)
{
    static const point there[3] = {{1, 0, 0.5, 0, 0.4}, {-1, 0, 0.5, PI, 0.4}, {0, -1, 0.5, 1.5 * PI, 0.4}};
    static const point back[3] = {{0, -1, 0.5, 1.5 * PI, 0.4}, {-1, 0, 0.5, PI, 0.4}, {1, 0, 0.5, 0, 0.4}};
    static const point between_there[4] = {
        {1, 0, 0.5, 0, 0.4}, {0, 1, 0.5, 0.5 * PI, 0.4}, {-1, 0, 0.5, PI, 0.4}, {0, -1, 0.5, 1.5 * PI, 0.4}};
    static const point between_back[4] = {
        {0, -1, 0.5, 1.5 * PI, 0.4}, {-1, 0, 0.5, PI, 0.4}, {0, 1, 0.5, 0.5 * PI, 0.4}, {1, 0, 0.5, 0, 0.4}};
    uint32_t one, other;
    make(there, 3, 0);
    one = ask(0, 0.5, 0.5, 1, 0.7);
    make(back, 3, 0);
    other = ask(0, 0.5, 0.5, 1, 0.7);
    if (one == other || JIGWANDOR_IS_REFUSAL(one) || JIGWANDOR_IS_REFUSAL(other))
        return "opposite meridians";
    make(between_there, 4, 0);
    one = ask(0.5, 0.5, 0.9, 1, 0.9);
    make(between_back, 4, 0);
    other = ask(0.5, 0.5, 0.9, 1, 0.9);
    return one == JIGWANDOR_INSIDE && other == JIGWANDOR_INSIDE ? (const char *)NOTHING : "a corner in between";
}

/* 17 of the fix and 17 of the file, told apart by the fix 0, 0, 0, 0, 0. */
static const char *whose_17(void)
{
    point corners[4];
    make(picture, 4, 0);
    if (ask(1, 0, 0, -1, 0) != JIGWANDOR_OUTSIDE_DOMAIN || JIGWANDOR_IS_REFUSAL(ask(0, 0, 0, 0, 0)))
        return "17 of the fix";
    memcpy(corners, picture, sizeof corners);
    corners[2].lon = 7;
    make(corners, 4, 0);
    if (ask(1, 0, 0, 1, 0) != JIGWANDOR_OUTSIDE_DOMAIN || ask(0, 0, 0, 0, 0) != JIGWANDOR_OUTSIDE_DOMAIN)
        return "17 of the file";
    return NOTHING;
}

static const char *refusals(void)
{
    static const struct {
        uint32_t answer;
        int refusal;
        const char *name;
    } rows[] = {
        {JIGWANDOR_OUTSIDE, 0, "no refusal"},
        {JIGWANDOR_INSIDE, 0, "no refusal"},
        {JIGWANDOR_HELD, 0, "no refusal"},
        {JIGWANDOR_OUTSIDE_DOMAIN, 1, "outside domain"},
        {JIGWANDOR_NO_CORNER, 1, "no corner"},
        {JIGWANDOR_TOO_MANY_CORNERS, 1, "too many corners"},
        {JIGWANDOR_WRONG_TRAILER, 1, "wrong trailer"},
        {99, 1, "unknown refusal"},
    };
    unsigned i;
    for (i = 0; i < sizeof rows / sizeof *rows; i++)
        if (JIGWANDOR_IS_REFUSAL(rows[i].answer) != (rows[i].refusal != 0) ||
            strcmp(jigwandor_refusal_name(rows[i].answer), rows[i].name) != 0)
            return rows[i].name;
    return NOTHING;
}

/* A hold changes inside and outside over, and nothing but the flag's bytes. */
static const char *held(void)
{
    make(picture, 4, 0);
    if (hold(file, len, 1, 0, 0, 3, 0) != JIGWANDOR_HELD || ask(1, 0, 0, 3, 0) != JIGWANDOR_INSIDE ||
        ask(1, 0, 0, 1.5, 0) != JIGWANDOR_OUTSIDE || file[4 * 40 + 4] != 1)
        return "hold";
    if (hold(file, len - 1, 1, 0, 0, 1.5, 0) != JIGWANDOR_WRONG_TRAILER || file[4 * 40 + 4] != 1)
        return "a refused hold";
    return NOTHING;
}

const char *header_fault(void)
{
    const char *fault = refusals();
    if (!fault)
        fault = outline_itself(0);
    if (!fault)
        fault = outline_itself(1);
    if (!fault)
        fault = edge_in_common();
    if (!fault)
        fault = opposite_meridians();
    if (!fault)
        fault = whose_17();
    if (!fault)
        fault = held();
    return fault;
}

#ifndef __arm__
#include <stdio.h>

int main(void)
{
    const char *fault = header_fault();
    if (fault)
        printf("header: otherwise than it says: %s\n", fault);
    return fault != NOTHING;
}
#endif
