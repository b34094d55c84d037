/*
 * What calls cost on the camera's core: each count is between the marks of cycles.c, whose lines come in the same order as the lines
 * that this prints: KIND NAME CALLS STACK. A call from C is counted one by one; of a loop of crates/bench, which makes CALLS calls, the
 * difference of two counts is that of 16 calls.
 */
#include "bench.h"
#include "cases.h"
#include "example/seal.h"
#include "harness.h"
#include "jigwandor.h"

#include <math.h>
#include <string.h>

#define BEGIN() __asm__ volatile("mov r10, r10" ::: "memory")
#define END() __asm__ volatile("mov r11, r11" ::: "memory")
#define LEN(a) (sizeof(a) / sizeof *(a))

enum { PAINTED = 65536 };

static volatile uint64_t sum;
static uint8_t file[4096];

static void line(const char *kind, const char *name, uint32_t calls, uint32_t stack)
{
    say(kind);
    say(" ");
    say(name);
    say(" ");
    say_number(calls);
    say(" ");
    say_number(stack);
    say("\n");
}

/* STATEMENT runs twice: once counted, once on a painted stack. BEFORE comes before each. */
#define MEASURE(kind, name, calls, before, statement)                                                                          \
    do {                                                                                                                       \
        before;                                                                                                                \
        BEGIN();                                                                                                               \
        statement;                                                                                                             \
        END();                                                                                                                 \
        before;                                                                                                                \
        uint32_t *from = stack_pointer();                                                                                      \
        paint_stack(PAINTED);                                                                                                  \
        statement;                                                                                                             \
        line(kind, name, calls, (uint32_t)((char *)from - (char *)painted_over()));                                            \
    } while (0)

static void calls(const char *contains, const char *hold, const unsigned char *from_file, uint32_t len, const double *points)
{
    for (uint32_t i = 0; i < 32; i++) {
        const double *p = points + 5 * i;
        MEASURE("call", contains, 1, memcpy(file, from_file, len), sum = jigwandor_contains(file, len, p[0], p[1], p[2], p[3], p[4]));
        MEASURE("call", hold, 1, memcpy(file, from_file, len), sum = jigwandor_hold(file, len, p[0], p[1], p[2], p[3], p[4]));
    }
}

/* Of one fix, at which all edges are in range. */
static void call(const char *name, const unsigned char *from_file, uint32_t len, const double *p)
{
    MEASURE("call", name, 1, memcpy(file, from_file, len), sum = jigwandor_contains(file, len, p[0], p[1], p[2], p[3], p[4]));
}

#define CALLS(name, set)                                                                                                       \
    call(name "-4", file_##set##_4, sizeof file_##set##_4, points_##set##_4);                                                  \
    call(name "-16", file_##set##_16, sizeof file_##set##_16, points_##set##_16);                                              \
    call(name "-64", file_##set##_64, sizeof file_##set##_64, points_##set##_64)

/* What the caller does beside: the vector of a fix, and a seal's test. */
static __attribute__((noinline)) void vector(double lon, double lat, volatile double *v)
{
    v[0] = cos(lat) * cos(lon);
    v[1] = cos(lat) * sin(lon);
    v[2] = sin(lat);
}

static void beside(void)
{
    static volatile double v[3];
    for (uint32_t i = 0; i < 32; i++)
        MEASURE("call", "vector", 1, (void)0, vector(points_64[5 * i + 3], points_64[5 * i + 4], v));
    MEASURE("call", "seal-64", 1, (void)0, sum = crc_32(file_64, sizeof file_64));
}

#define LOOP(name, expression)                                                                                                 \
    for (uint32_t n = 16; n <= 32; n += 16)                                                                                    \
    MEASURE("loop", name, n, (void)0, sum = (expression))

#define REGION(n) corners_##n, LEN(corners_##n), normals_##n, LEN(normals_##n), flag_##n

#define LOOPS(name, set)                                                                                                       \
    LOOP(name "-4", bench_contains(REGION(set##_4), points_##set##_4, 5 * n));                                                 \
    LOOP(name "-16", bench_contains(REGION(set##_16), points_##set##_16, 5 * n));                                              \
    LOOP(name "-64", bench_contains(REGION(set##_64), points_##set##_64, 5 * n))

#define FILES(name, read)                                                                                                      \
    LOOP(name "-1", read(file_1, sizeof file_1, sizeof file_1, n));                                                            \
    LOOP(name "-4", read(file_4, sizeof file_4, sizeof file_4, n));                                                            \
    LOOP(name "-16", read(file_16, sizeof file_16, sizeof file_16, n));                                                        \
    LOOP(name "-64", read(file_64, sizeof file_64, sizeof file_64, n))

/* Numbers of at most so many binary digits. */
static uint64_t numbers[32];

static void draw(uint32_t digits)
{
    uint64_t x = digits;
    for (uint32_t i = 0; i < LEN(numbers); i++) {
        x = x * 6364136223846793005 + 1442695040888963407;
        numbers[i] = x >> (64 - digits);
    }
}

#define WHOLE_ROOTS(digits)                                                                                                    \
    draw(digits);                                                                                                              \
    LOOP("whole-root-" #digits, bench_whole_root(numbers, n))

int main(void)
{
    calls("contains-4", "hold-4", file_4, sizeof file_4, points_4);
    calls("contains-16", "hold-16", file_16, sizeof file_16, points_16);
    calls("contains-64", "hold-64", file_64, sizeof file_64, points_64);
    calls("contains-zigzag", "hold-zigzag", file_zigzag, sizeof file_zigzag, points_zigzag);
    CALLS("contains-most", most);
    CALLS("contains-unit", unit_call);
    CALLS("contains-found", call);
    beside();
    LOOP("idle-region", bench_idle_region(REGION(64), points_64, 5 * n));
    LOOP("idle-corners", bench_idle_corners(corners_64, LEN(corners_64), points_64, 5 * n));
    LOOP("build-4", bench_build(corners_4, LEN(corners_4), moved_4, 5 * n));
    LOOP("build-16", bench_build(corners_16, LEN(corners_16), moved_16, 5 * n));
    LOOP("build-64", bench_build(corners_64, LEN(corners_64), moved_64, 5 * n));
    LOOP("contains-4", bench_contains(REGION(4), points_4, 5 * n));
    LOOP("contains-16", bench_contains(REGION(16), points_16, 5 * n));
    LOOP("contains-64", bench_contains(REGION(64), points_64, 5 * n));
    LOOP("contains-zigzag", bench_contains(REGION(zigzag), points_zigzag, 5 * n));
    LOOPS("contains-most", most);
    LOOPS("contains-unit", unit_loop);
    LOOPS("contains-found", loop);
    LOOP("arc-first-64", bench_arc_first(REGION(64), near_64, 5 * n, ends_64, 5 * n));
    LOOP("arc-all-64", bench_arc_all(REGION(64), near_64, 5 * n, ends_64, 5 * n));
    LOOP("circle-all-64", bench_circle_all(REGION(64), circles_64, 3 * n));
    LOOP("parallel-first-64", bench_parallel_first(REGION(64), parallels_64, 3 * n));
    LOOP("parallel-all-64", bench_parallel_all(REGION(64), parallels_64, 3 * n));
    LOOP("put-64", bench_put(REGION(64), moved_64, 5 * n));
    LOOP("insert-16", bench_insert(REGION(16), moved_16, 5 * n));
    LOOP("remove-64", bench_remove(REGION(64), n));
    LOOP("turn-64", bench_turn(REGION(64), n));
    LOOP("hold-64", bench_hold(REGION(64), points_64, 5 * n));
    LOOP("hold-lent-64", bench_hold_lent(REGION(64), points_64, 5 * n));
    LOOP("rule-default-64", bench_rule(REGION(64), 0, points_64, 5 * n));
    LOOP("rule-control-64", bench_rule(REGION(64), 4, points_64, 5 * n));
    LOOP("cone-64", bench_cone(corners_64, LEN(corners_64), moved_64, 5 * n));
    FILES("read-straight", bench_read_straight);
    FILES("read-copying", bench_read);
    LOOP("write-64", bench_write(REGION(64), moved_64, 5 * n, file, sizeof file));
    LOOP("zone-new", bench_zone_new(bounds, 5 * n));
    LOOP("zone-questions", bench_zone_questions(bounds, LEN(bounds), triples, 3 * n));
    LOOP("root", bench_root(radicands, n));
    WHOLE_ROOTS(8);
    WHOLE_ROOTS(16);
    WHOLE_ROOTS(32);
    WHOLE_ROOTS(64);
    leave(0);
    return 0;
}
