/*
 * flips FILE: of all single bits of a region file, how many make the file refused when they flip, and how many change an answer on a
 * grid of whole degrees, and on the grid of the points between these. Three numbers.
 */
#include "jigwandor.h"

#include <math.h>
#include <stdio.h>

#define PI 0x1.921fb54442d18p+1

enum { LONS = 360, LATS = 181 };

static struct {
    double x, y, z, lon, lat;
    uint32_t answer;
} grid[LONS * LATS];

static int points;

static uint32_t ask(const uint8_t *file, uint64_t len, int i)
{
    return jigwandor_contains(file, len, grid[i].x, grid[i].y, grid[i].z, grid[i].lon, grid[i].lat);
}

static void make_grid(const uint8_t *file, uint64_t len, double shift)
{
    points = 0;
    for (double row = -90 + shift; row <= 90; row++)
        for (double column = shift; column < 360; column++, points++) {
            double lon = column * PI / 180, lat = row * PI / 180;
            grid[points].x = cos(lat) * cos(lon);
            grid[points].y = cos(lat) * sin(lon);
            grid[points].z = sin(lat);
            grid[points].lon = lon;
            grid[points].lat = lat;
            grid[points].answer = ask(file, len, points);
        }
}

/* A change is seen soonest where one was seen before. */
static int differs(const uint8_t *file, uint64_t len)
{
    static int start;
    for (int k = 0; k < points; k++) {
        int i = (start + k) % points;
        if (ask(file, len, i) != grid[i].answer) {
            start = i;
            return 1;
        }
    }
    return 0;
}

int main(int argc, char **argv)
{
    static uint8_t file[65536];
    FILE *in = argc == 2 ? fopen(argv[1], "rb") : NULL;
    if (in == NULL)
        return 2;
    uint64_t len = fread(file, 1, sizeof file, in);
    fclose(in);

    unsigned refused = 0, changed[2] = {0, 0};
    for (int which = 0; which < 2; which++) {
        make_grid(file, len, 0.5 * which);
        refused = 0;
        for (uint64_t bit = 0; bit < 8 * len; bit++) {
            file[bit / 8] = (uint8_t)(file[bit / 8] ^ 1u << bit % 8);
            if (JIGWANDOR_IS_REFUSAL(ask(file, len, 0)))
                refused++;
            else
                changed[which] += (unsigned)differs(file, len);
            file[bit / 8] = (uint8_t)(file[bit / 8] ^ 1u << bit % 8);
        }
    }
    printf("%u %u %u\n", refused, changed[0], changed[1]);
    return 0;
}
