/* examples FILE: the C examples of docs/CALLS.md on a region file, that of the demo. What they print is c/examples.expected. */
#include "jigwandor.h"

#include <math.h>
#include <stdio.h>

static uint8_t file[65536];
static uint64_t len;

static void say(uint32_t answer)
{
    printf("  %lu\n", (unsigned long)answer);
}

static void say_bytes(const uint8_t *bytes, size_t count)
{
    printf(" ");
    for (size_t i = 0; i < count; i++)
        printf(" %02x", bytes[i]);
    printf("\n");
}

static void contains(void)
{
    puts("doors::jigwandor_contains");
    double lon = 0.06, lat = -0.95; /* Bouvet Island */
    double x = cos(lat) * cos(lon), y = cos(lat) * sin(lon), z = sin(lat);
    say(jigwandor_contains(file, len, x, y, z, lon, lat));
    say(jigwandor_contains(file, len, 0.0, 0.0, 1.0, 0.0, 1.5));
    say(jigwandor_contains(file, len, x, y, z, lon - 7.0, lat));
    say(jigwandor_contains(file, len - 1, x, y, z, lon - 7.0, lat));
}

static void hold(void)
{
    puts("doors::jigwandor_hold");
    double lon = 0.32, lat = -0.59; /* Cape Town */
    double x = cos(lat) * cos(lon), y = cos(lat) * sin(lon), z = sin(lat);
    say(jigwandor_contains(file, len, x, y, z, lon, lat));
    say(jigwandor_hold(file, len, x, y, z, lon, lat));
    say(jigwandor_contains(file, len, x, y, z, lon, lat));
    say_bytes(file + len - 16, 16);
    say(jigwandor_hold(file, len, x, y, 3.0, lon, lat));
}

int main(int argc, char **argv)
{
    FILE *in = argc == 2 ? fopen(argv[1], "rb") : NULL;
    if (in == NULL) {
        fprintf(stderr, "usage: examples FILE\n");
        return 2;
    }
    len = fread(file, 1, sizeof file, in);
    fclose(in);
    if (len < 16)
        return 2;
    contains();
    hold();
    return 0;
}
