/*
 * Asks the C function where the edges of a ring along a southern parallel run. Of each line 'latitude corners km' of the
 * standard input: with that many corners the outline lies within that distance of the parallel, and with one fewer it does
 * not. With no line more: 12 corners along 60 S reach 60.85 S, which the header says.
 */
#include "jigwandor.h"

#include <math.h>
#include <stdio.h>
#include <string.h>

#define PI 0x1.921fb54442d18p+1
#define DEGREE (PI / 180)

static const double earth = 6371; /* km */

static void put_corner(uint8_t *at, double lon, double lat)
{
    double fields[5] = {cos(lat) * cos(lon), cos(lat) * sin(lon), sin(lat), lon, lat};
    memcpy(at, fields, sizeof fields);
}

/* The southernmost latitude of the edge from corner 0 to corner 1, by halving. */
static double reached(double lat, unsigned corners)
{
    uint8_t file[64 * 40 + 16];
    uint32_t trailer[4] = {1, 1, corners, 40 * corners + 16};
    for (unsigned i = 0; i < corners; i++)
        put_corner(file + 40 * i, 2 * PI * i / corners, lat);
    memcpy(file + 40 * corners, trailer, sizeof trailer);
    double lon = PI / corners, inside = -PI / 2, outside = lat;
    for (int i = 0; i < 60; i++) {
        double half = (inside + outside) / 2;
        uint32_t answer = jigwandor_contains(file, 40 * corners + 16, cos(half) * cos(lon), cos(half) * sin(lon), sin(half), lon, half);
        if (answer == JIGWANDOR_INSIDE)
            inside = half;
        else
            outside = half;
    }
    return inside;
}

int main(void)
{
    double degrees, km;
    unsigned corners, rows = 0;
    while (scanf("%lf %u %lf", &degrees, &corners, &km) == 3) {
        double lat = -degrees * DEGREE;
        if ((lat - reached(lat, corners)) * earth > km || (corners > 3 && (lat - reached(lat, corners - 1)) * earth <= km)) {
            printf("parallels: %g degrees, %u corners, %g km: the function says otherwise\n", degrees, corners, km);
            return 1;
        }
        rows++;
    }
    double south = -reached(-60 * DEGREE, 12) / DEGREE;
    printf("parallels: %u rows; 12 corners along 60 S reach %.2f S, %.0f km further\n", rows, south, (south - 60) * DEGREE * earth);
    return rows > 0 && fabs(south - 60.85) < 0.005 ? 0 : 1;
}
