/*
 * replay IN OUT: the program crates/replay on the camera's core; its standard input and output are two files of the host. It prints the bytes
 * of stack that it took.
 *
 * In the program's module a length has 64 bits: it calls `i64 read(i32, ptr, i64)`. A C library of this core has `int read(int, void *,
 * size_t)`, whose answer leaves the upper half of the 64 bits to chance. So its calls are renamed to the two below. What else it asks of a C
 * library is in libc.c.
 */
#include "harness.h"

int replay_main(void);
int64_t read_64(int32_t fd, void *to, uint64_t len);
int64_t write_64(int32_t fd, const void *from, uint64_t len);

static int in, out;

int64_t read_64(int32_t fd, void *to, uint64_t len)
{
    return fd != 0 || len > 0x7FFFFFFF ? -1 : (int64_t)read_file(in, to, (uint32_t)len);
}

int64_t write_64(int32_t fd, const void *from, uint64_t len)
{
    return fd != 1 || len > 0x7FFFFFFF ? -1 : (int64_t)write_file(out, from, (uint32_t)len);
}

int main(void)
{
    in = open_file(word(1), 0);
    out = open_file(word(2), 1);
    if (in < 0 || out < 0)
        leave(1);
    uint32_t *from = stack_pointer();
    paint_stack(UINT32_MAX);
    int status = replay_main();
    uint32_t taken = (uint32_t)((char *)from - (char *)painted_over());
    close_file(out);
    say_number(taken);
    say("\n");
    leave((uint32_t)status);
    return 0;
}
