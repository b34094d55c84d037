/*
 * Asks both calls about each pair of a file and a fix, and writes down all that they answer and every byte that they leave.
 * One source for the host and for the camera's core: the two outputs must be the same bytes.
 *
 * In: uint32 count, then of each pair: uint32 len, uint32 offset 0 to 7 (the file's place in the buffer), five doubles, the
 * file. Out, of each pair: uint32 contains, hold, contains after it, trouble (1: contains wrote; 2: a byte outside was
 * written), then the file after the hold.
 */
#include "jigwandor.h"

#include <string.h>

enum { ROOM = 8192, GUARD = 64, GUARD_BYTE = 0xC3 };

#ifdef __arm__
#include "harness.h"
static int in, out;
static int open_both(const char *from, const char *to)
{
    in = open_file(from, 0);
    out = open_file(to, 1);
    return in >= 0 && out >= 0;
}
static int get(void *to, uint32_t len)
{
    return read_file(in, to, len) == len;
}
static int put(const void *from, uint32_t len)
{
    return write_file(out, from, len) == len;
}
#else
#include <stdio.h>
static FILE *in, *out;
static int open_both(const char *from, const char *to)
{
    in = fopen(from, "rb");
    out = fopen(to, "wb");
    return in && out;
}
static int get(void *to, uint32_t len)
{
    return fread(to, 1, len, in) == len;
}
static int put(const void *from, uint32_t len)
{
    return fwrite(from, 1, len, out) == len;
}
#endif

static uint8_t space[GUARD + 8 + ROOM + GUARD] __attribute__((aligned(8))), original[ROOM];

static int guards_hold(uint32_t offset, uint32_t len)
{
    for (uint32_t i = 0; i < sizeof space; i++)
        if ((i < GUARD + offset || i >= GUARD + offset + len) && space[i] != GUARD_BYTE)
            return 0;
    return 1;
}

/* 0, or what went wrong. */
static int run_pairs(const char *from, const char *to, uint32_t *done)
{
    uint32_t count;
    if (!open_both(from, to) || !get(&count, 4))
        return 1;
    for (*done = 0; *done < count; ++*done) {
        uint32_t head[2], answer[4];
        double fix[5];
        if (!get(head, sizeof head) || !get(fix, sizeof fix) || head[0] > ROOM || head[1] > 7)
            return 2;
        uint32_t len = head[0];
        uint8_t *file = space + GUARD + head[1];
        memset(space, GUARD_BYTE, sizeof space);
        if (len && !get(file, len))
            return 3;
        memcpy(original, file, len);
        answer[0] = jigwandor_contains(file, len, fix[0], fix[1], fix[2], fix[3], fix[4]);
        answer[3] = memcmp(original, file, len) != 0;
        answer[1] = jigwandor_hold(file, len, fix[0], fix[1], fix[2], fix[3], fix[4]);
        answer[2] = jigwandor_contains(file, len, fix[0], fix[1], fix[2], fix[3], fix[4]);
        answer[3] |= guards_hold(head[1], len) ? 0 : 2;
        if (!put(answer, sizeof answer) || !put(file, len))
            return 4;
    }
    return 0;
}

#ifdef __arm__
int main(void)
{
    uint32_t done = 0;
    int wrong = run_pairs(word(1), word(2), &done);
    if (wrong) {
        say("pairs: trouble after ");
        say_number(done);
        say("\n");
    }
    leave((uint32_t)wrong);
    return 0;
}
#else
int main(int argc, char **argv)
{
    uint32_t done = 0;
    int wrong = argc == 3 ? run_pairs(argv[1], argv[2], &done) : 9;
    if (wrong)
        printf("pairs: trouble after %u\n", (unsigned)done);
    return wrong;
}
#endif
