/* What the machine must not let pass, one at a time: each ends in a hard fault on a Cortex-M0. A Cortex-M3 lets all of it pass. */
#include "harness.h"

static volatile uint8_t bytes[16] __attribute__((aligned(8)));

int main(void)
{
    uint32_t value = 0, at = (uint32_t)bytes;
    switch (*word(1)) {
    case '1': /* a word at an odd address */
        __asm__ volatile("ldr %0, [%1]" : "=l"(value) : "l"(at + 1));
        break;
    case '2': /* an instruction of v7-M: sdiv r0, r1, r1 */
        __asm__ volatile(".hword 0xfb91, 0xf0f1" ::: "r0");
        break;
    case '3': /* behind the 256 KB */
        __asm__ volatile("ldr %0, [%1]" : "=l"(value) : "l"(0x20040000));
        break;
    case '4': /* the last word of the 256 KB is there: no fault */
        __asm__ volatile("ldr %0, [%1]" : "=l"(value) : "l"(0x2003FFFC));
        break;
    default:
        leave(2);
    }
    (void)value;
    leave(0);
    return 0;
}
