/*
 * Searches for the containment that costs most on the camera's core, by the cycles of cycles.c, whose file it reads as it grows: dearest COUNTS.
 * It begins with the outline that costs most and goes on with every change of the point or of a corner that makes a call dearer: all edges stay in
 * range, or it is cheaper, and what is left to find is operands that libgcc takes longer over.
 *
 * Prints NAME CORNERS and the doubles' bits, of the corners and then of the point, five each. NAME is call, for `jigwandor_contains`, or loop, for a
 * region that is kept; with unit- in front the vectors fit their longitudes and latitudes, and without they are any that are legal.
 */
#include "bench.h"
#include "harness.h"
#include "jigwandor.h"

#include <math.h>
#include <string.h>

#define PI 0x1.921fb54442d18p+1
#define BEGIN() __asm__ volatile("mov r10, r10" ::: "memory")
#define END() __asm__ volatile("mov r11, r11" ::: "memory")

enum { MOST = 64, STEPS = 12000, SEED = 1 };

/* The corners, and behind them the point. */
typedef struct {
    double at[MOST + 1][5];
} candidate;

static int counts;
static uint64_t drawn = SEED;
static volatile uint64_t sum;

static uint64_t word64(void) /* splitmix64 */
{
    uint64_t x = drawn += 0x9E3779B97F4A7C15;
    x = (x ^ x >> 30) * 0xBF58476D1CE4E5B9;
    x = (x ^ x >> 27) * 0x94D049BB133111EB;
    return x ^ x >> 31;
}

static uint32_t below(uint32_t n)
{
    return (uint32_t)(word64() >> 33) % n;
}

static double of_bits(uint64_t bits)
{
    double x;
    memcpy(&x, &bits, sizeof x);
    return x;
}

static uint64_t bits_of(double x)
{
    uint64_t bits;
    memcpy(&bits, &x, sizeof bits);
    return bits;
}

/* The cycles of the count that has just ended: the second number of the file's next line. */
static uint32_t cycles(void)
{
    static char line[96];
    uint32_t len = 0, n = 0;
    while (len == 0 || line[len - 1] != '\n')
        if (len == sizeof line || read_file(counts, line + len++, 1) != 1)
            leave(71);
    const char *at = strchr(line, ' ') + 1;
    while (*at != ' ')
        n = 10 * n + (uint32_t)(*at++ - '0');
    return n;
}

static void normal(const double *a, const double *b, double *n)
{
    n[0] = a[1] * b[2] - a[2] * b[1];
    n[1] = a[2] * b[0] - a[0] * b[2];
    n[2] = a[0] * b[1] - a[1] * b[0];
    if (n[2] < 0)
        for (int i = 0; i < 3; i++)
            n[i] = -n[i];
}

static uint32_t loop_cost(const candidate *c, uint32_t n)
{
    static double normals[MOST][3];
    for (uint32_t i = 0; i < n; i++)
        normal(c->at[i ? i - 1 : n - 1], c->at[i], normals[i]);
    BEGIN();
    sum = bench_contains(c->at[0], 5 * n, normals[0], 3 * n, 0, c->at[n], 5);
    END();
    return cycles();
}

static uint32_t call_cost(const candidate *c, uint32_t n)
{
    static uint8_t file[40 * MOST + 16];
    const uint32_t len = 40 * n + 16, trailer[4] = {1, 0, n, len};
    const double *p = c->at[n];
    memcpy(file, c->at, 40 * n);
    memcpy(file + 40 * n, trailer, 16);
    BEGIN();
    sum = jigwandor_contains(file, len, p[0], p[1], p[2], p[3], p[4]);
    END();
    return cycles();
}

/* A legal number: a coordinate, or an angle from 0 on, of any size and with many bits, few or none. */
static double legal(int field)
{
    static const uint16_t exponents[] = {0, 1, 400, 500, 511, 520, 960, 1000, 1020, 1021, 1022, 1023};
    uint64_t significand = word64() >> 12, sign = field < 3 ? word64() << 63 : 0;
    uint32_t exponent = below(2) ? 1018 + below(6) : exponents[below(sizeof exponents / sizeof *exponents)];
    switch (below(4)) {
    case 0:
        significand = 0;
        break;
    case 1:
        significand |= 0x000FFFFFFFFFF000;
        break;
    case 2:
        significand &= 0x000FFF0000000000;
        break;
    }
    if (field == 4 && exponent > 1022)
        exponent = 1022;
    return of_bits(sign | (uint64_t)exponent << 52 | significand);
}

/* Of one corner or of the point: a number, the vector, or some bits; then, at times, what stands there for every second corner. */
static void change(candidate *c, uint32_t n)
{
    uint32_t k = below(3) ? below(n) : n;
    int field = (int)below(5);
    switch (below(4)) {
    case 0:
        for (int i = 0; i < 3; i++)
            c->at[k][i] = legal(i);
        break;
    case 1:
        c->at[k][field] = legal(field);
        break;
    case 2:
        c->at[k][field] = of_bits(bits_of(c->at[k][field]) ^ (uint64_t)1 << below(52));
        if (c->at[k][4] > 1.5)
            c->at[k][4] = 1.5;
        break;
    default: /* nearly the corner before it: products that cancel out */
        if (k > 0)
            for (int i = 0; i < 3; i++)
                c->at[k][i] = of_bits(bits_of(c->at[k - 1][i]) ^ (uint64_t)1 << below(20));
    }
    if (k < n && below(2))
        for (uint32_t i = k % 2; i < n; i += 2)
            memcpy(c->at[i], c->at[k], sizeof c->at[i]);
}

/* The same with vectors of length one: another place, or one beside it. */
static void change_place(candidate *c, uint32_t n)
{
    uint32_t k = below(3) ? below(n) : n;
    double lon = PI * (below(1 << 24) * 0x1p-23), lat = PI * (below(1 << 24) * 0x1p-24 - 0.5);
    if (below(2)) {
        lon = fabs(c->at[k][3] + 0.01 * (lon - PI));
        lat = c->at[k][4] + 0.01 * lat;
    }
    if (lon > 2 * PI || fabs(lat) > PI / 2)
        return;
    c->at[k][0] = cos(lat) * cos(lon);
    c->at[k][1] = cos(lat) * sin(lon);
    c->at[k][2] = sin(lat);
    c->at[k][3] = lon;
    c->at[k][4] = lat;
}

static void show(const char *name, const candidate *c, uint32_t n)
{
    static char text[18];
    say(name);
    say(" ");
    say_number(n);
    for (uint32_t i = 0; i < 5 * (n + 1); i++) {
        uint64_t bits = bits_of(c->at[i / 5][i % 5]);
        text[0] = ' ';
        for (int k = 0; k < 16; k++)
            text[1 + k] = "0123456789abcdef"[bits >> (60 - 4 * k) & 15];
        say(text);
    }
    say("\n");
}

static void search(const char *name, uint32_t (*cost)(const candidate *, uint32_t), void (*change_one)(candidate *, uint32_t))
{
    static candidate best, next, before;
    uint32_t had = 0;
    for (uint32_t n = 4; n <= MOST; had = n, n *= 4) {
        for (uint32_t i = 0; i <= n; i++)
            for (uint32_t k = 0; k < 5; k++)
                best.at[i][k] = of_bits(bench_costliest_outline(n, i, k));
        uint32_t most = cost(&best, n), dearest = most;
        for (uint32_t step = 0; step < STEPS; step++) {
            next = best;
            if (step == 0 && had) { /* what was found with fewer corners, over and over */
                for (uint32_t i = 0; i < n; i++)
                    memcpy(next.at[i], before.at[i % had], sizeof next.at[i]);
                memcpy(next.at[n], before.at[had], sizeof next.at[n]);
            } else
                change_one(&next, n);
            uint32_t of_next = cost(&next, n);
            if (of_next > dearest) {
                best = next;
                dearest = of_next;
            }
        }
        before = best;
        show(name, &best, n);
        say("# ");
        say(name);
        say(", ");
        say_number(n);
        say(" corners: ");
        say_number(dearest);
        say(" cycles beside ");
        say_number(most);
        say("\n");
    }
}

int main(void)
{
    counts = open_file(word(1), 0);
    if (counts < 0)
        leave(72);
    say("# seed ");
    say_number(SEED);
    say(", ");
    say_number(STEPS);
    say(" changes for each line; a loop's cycles have its set-up in them\n");
    search("unit-call", call_cost, change_place);
    search("unit-loop", loop_cost, change_place);
    search("call", call_cost, change);
    search("loop", loop_cost, change);
    leave(0);
    return 0;
}
