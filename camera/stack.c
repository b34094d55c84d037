/*
 * stack PAIRS: the most stack that a call takes on pairs of a file and a fix (pairs.c says how they stand in the file): how far below its
 * caller's stack pointer it writes, and the 40 bytes in which its caller hands it the five doubles. Two numbers, of contains and of hold.
 */
#include "harness.h"
#include "jigwandor.h"

enum { ROOM = 8192, PAINTED = 65536, ARGUMENTS = 40 };

static uint8_t file[ROOM];
static uint32_t most[2];

static __attribute__((noinline)) void measure(int which, uint32_t len, const double *fix)
{
    uint32_t *from = stack_pointer(), taken;
    paint_stack(PAINTED);
    if (which)
        jigwandor_hold(file, len, fix[0], fix[1], fix[2], fix[3], fix[4]);
    else
        jigwandor_contains(file, len, fix[0], fix[1], fix[2], fix[3], fix[4]);
    taken = (uint32_t)((char *)from - (char *)painted_over()) + ARGUMENTS;
    if (taken > most[which])
        most[which] = taken;
}

int main(void)
{
    int in = open_file(word(1), 0);
    uint32_t count, head[2];
    double fix[5];
    if (in < 0 || read_file(in, &count, 4) != 4)
        leave(1);
    while (count-- > 0) {
        if (read_file(in, head, sizeof head) != sizeof head || read_file(in, fix, sizeof fix) != sizeof fix || head[0] > ROOM ||
            read_file(in, file, head[0]) != head[0])
            leave(2);
        measure(0, head[0], fix);
        measure(1, head[0], fix);
    }
    say_number(most[0]);
    say(" ");
    say_number(most[1]);
    say("\n");
    leave(0);
    return 0;
}
