/* Start-up of a Cortex-M0 or M0+: the vector table, .data and .bss, then main. */
#include <stdint.h>

extern uint32_t data_from[], data_start[], data_end[], bss_start[], bss_end[], stack_top[];

int main(void);
void reset(void);
void fault(void);

void reset(void)
{
    for (uint32_t *to = data_start, *from = data_from; to < data_end;)
        *to++ = *from++;
    for (uint32_t *to = bss_start; to < bss_end;)
        *to++ = 0;
    main();
    for (;;)
        ;
}

/* A program may have its own. */
__attribute__((weak)) void fault(void)
{
    for (;;)
        ;
}

/* The stack's start, reset, NMI, hard fault; the interrupts of your part follow behind these sixteen. */
__attribute__((section(".vectors"), used)) static const uintptr_t vectors[16] = {
    (uintptr_t)stack_top, (uintptr_t)reset, (uintptr_t)fault, (uintptr_t)fault, 0, 0, 0, 0, 0, 0, 0,
    (uintptr_t)fault, 0, 0, (uintptr_t)fault, (uintptr_t)fault,
};
