/* The emulated core's ways out: files and words of the host, by semihosting, and how far down a call's stack goes. */
#ifndef HARNESS_H
#define HARNESS_H

#include <stdint.h>

void say(const char *text);
void say_number(uint32_t n);
void leave(uint32_t status);
int open_file(const char *name, int writes);
uint32_t read_file(int file, void *to, uint32_t len);
uint32_t write_file(int file, const void *from, uint32_t len);
void close_file(int file);
const char *word(int i);

void paint_stack(uint32_t bytes);
uint32_t *painted_over(void);

static inline __attribute__((always_inline)) uint32_t *stack_pointer(void)
{
    uint32_t *sp;
    __asm__ volatile("mov %0, sp" : "=r"(sp));
    return sp;
}

#endif
