/* Semihosting and a painted stack, for a Cortex-M0 under QEMU. */
#include "harness.h"

#include <string.h>

extern uint32_t stack_low[];

void fault(void);

enum {
    SYS_OPEN = 1,
    SYS_CLOSE = 2,
    SYS_WRITE0 = 4,
    SYS_WRITE = 5,
    SYS_READ = 6,
    SYS_GET_CMDLINE = 0x15,
    SYS_EXIT_EXTENDED = 0x20,
    APPLICATION_EXIT = 0x20026
};

static uint32_t semihost(uint32_t number, const void *block)
{
    register uint32_t r0 __asm__("r0") = number;
    register const void *r1 __asm__("r1") = block;
    __asm__ volatile("bkpt 0xab" : "+r"(r0) : "r"(r1) : "memory");
    return r0;
}

void say(const char *text)
{
    semihost(SYS_WRITE0, text);
}

void say_number(uint32_t n)
{
    char text[12], *at = text + sizeof text;
    *--at = 0;
    do
        *--at = (char)('0' + n % 10);
    while (n /= 10);
    say(at);
}

void leave(uint32_t status)
{
    uint32_t block[2] = {APPLICATION_EXIT, status};
    semihost(SYS_EXIT_EXTENDED, block);
    for (;;)
        ;
}

/* start.c's handler of all faults ends here. */
void fault(void)
{
    say("camera: hard fault\n");
    leave(70);
}

int open_file(const char *name, int writes)
{
    uint32_t block[3] = {(uint32_t)name, writes ? 5 : 1, (uint32_t)strlen(name)}; /* "wb", "rb" */
    return (int)semihost(SYS_OPEN, block);
}

/* How many bytes were moved. */
uint32_t read_file(int file, void *to, uint32_t len)
{
    uint32_t block[3] = {(uint32_t)file, (uint32_t)to, len};
    return len - semihost(SYS_READ, block);
}

uint32_t write_file(int file, const void *from, uint32_t len)
{
    uint32_t block[3] = {(uint32_t)file, (uint32_t)from, len};
    return len - semihost(SYS_WRITE, block);
}

void close_file(int file)
{
    uint32_t block[1] = {(uint32_t)file};
    semihost(SYS_CLOSE, block);
}

/* Word i of QEMU's -semihosting-config arg=WORD,.. , or the empty one. A word stays until the program ends. */
const char *word(int i)
{
    static char line[256];
    static uint32_t len;
    if (len == 0) {
        uint32_t block[2] = {(uint32_t)line, sizeof line};
        semihost(SYS_GET_CMDLINE, block);
        len = (uint32_t)strlen(line);
        for (uint32_t k = 0; k < len; k++)
            if (line[k] == ' ')
                line[k] = 0;
    }
    const char *at = line;
    for (; i > 0 && at < line + len; i--)
        at += strlen(at) + 1;
    return at < line + len ? at : "";
}

enum { PAINT = 0x5AC396E1 };

static uint32_t *painted;

/* Paints so many bytes below this function's own frame, or all that there is. */
__attribute__((noinline)) void paint_stack(uint32_t bytes)
{
    uint32_t *own = stack_pointer();
    uint32_t left = (uint32_t)((char *)own - (char *)stack_low);
    painted = own - (bytes < left ? bytes : left) / 4;
    for (volatile uint32_t *at = painted; at < own; at++)
        *at = PAINT;
}

/* The lowest place that was written since. */
__attribute__((noinline)) uint32_t *painted_over(void)
{
    uint32_t *at = painted;
    while (at < stack_pointer() && *at == PAINT)
        at++;
    return at;
}
