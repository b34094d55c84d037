/* tests/header.c on the camera's core. */
#include "harness.h"

const char *header_fault(void);

int main(void)
{
    const char *fault = header_fault();
    if (fault) {
        say("header: otherwise than it says: ");
        say(fault);
        say("\n");
    }
    leave(fault ? 1 : 0);
    return 0;
}
