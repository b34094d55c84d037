/*
 * demo FILE [FIXES]: a map of a region file in characters, drawn by asking jigwandor_contains cell by cell, and below it what
 * the call answers at the poles, how many edges cross the meridian 0, and the answers for fixes: lines 'longitude latitude
 * name' of the file FIXES, in degrees.
 */
#include "jigwandor.h"

#include <math.h>
#include <stdio.h>
#include <string.h>

#define PI 0x1.921fb54442d18p+1
#define DEGREE (PI / 180)

enum { COLUMNS = 72, ROWS = 26, MOST_FIXES = 26, TRAILER = 16, CORNER = 40 };

typedef struct {
    double lon, lat; /* degrees */
    char name[40];
} fix;

static uint8_t file[65536];
static uint64_t len;

static uint32_t ask(const uint8_t *bytes, double lon_degrees, double lat_degrees)
{
    double lon = lon_degrees * DEGREE, lat = lat_degrees * DEGREE;
    return jigwandor_contains(bytes, len, cos(lat) * cos(lon), cos(lat) * sin(lon), sin(lat), lon, lat);
}

static uint32_t hold(uint8_t *bytes, double lon_degrees, double lat_degrees)
{
    double lon = lon_degrees * DEGREE, lat = lat_degrees * DEGREE;
    return jigwandor_hold(bytes, len, cos(lat) * cos(lon), cos(lat) * sin(lon), sin(lat), lon, lat);
}

static void say_answer(uint32_t answer)
{
    if (answer == JIGWANDOR_INSIDE)
        printf("INSIDE");
    else if (answer == JIGWANDOR_OUTSIDE)
        printf("outside");
    else
        printf("refused: %s", jigwandor_refusal_name(answer));
}

/* ---- the part of the world that is drawn */

static uint32_t corner_count(void)
{
    const uint8_t *at = file + len - 8;
    return at[0] | (uint32_t)at[1] << 8 | (uint32_t)at[2] << 16 | (uint32_t)at[3] << 24;
}

/* A corner's longitude (field 3) or latitude (field 4) as it is, and in degrees. This demo runs where doubles are little-endian. */
static double radians(uint32_t i, int field)
{
    double value;
    memcpy(&value, file + len - TRAILER - CORNER * (corner_count() - i) + 8 * field, sizeof value);
    return value;
}

static double corner(uint32_t i, int field)
{
    return radians(i, field) / DEGREE;
}

static double east_of(double from, double lon)
{
    double east = fmod(lon - from, 360);
    return east < 0 ? east + 360 : east;
}

static double west, south, width, height; /* of the map and of a cell, degrees */

/* All corners with a margin, or the whole world where they span more than half of it. */
static void choose_window(void)
{
    double first = 0, span = 360, low = 90, high = -90;
    for (uint32_t i = 0; i < corner_count(); i++) {
        double east = 0;
        for (uint32_t k = 0; k < corner_count(); k++)
            east = fmax(east, east_of(corner(i, 3), corner(k, 3)));
        if (east < span) {
            span = east;
            first = corner(i, 3);
        }
        low = fmin(low, corner(i, 4));
        high = fmax(high, corner(i, 4));
    }
    if (span > 180 || corner_count() < 3) {
        west = 0;
        south = -90;
        width = 360.0 / COLUMNS;
        height = 180.0 / ROWS;
        return;
    }
    /* a character is about twice as high as it is wide */
    double squeeze = 2 * cos((low + high) / 2 * DEGREE);
    width = fmax(1.7 * span / COLUMNS, 1.5 * (high - low) / ROWS / squeeze);
    width = fmax(width, 1e-6);
    height = fmin(width * squeeze, 180.0 / ROWS);
    west = first + span / 2 - width * COLUMNS / 2;
    south = fmin(fmax((low + high) / 2 - height * ROWS / 2, -90), 90 - height * ROWS);
}

/* Where a place stands on the map: its column and row, or no. */
static int cell_of(double lon, double lat, int *column, int *row)
{
    *column = (int)(east_of(west, lon) / width);
    *row = (int)floor((south + height * ROWS - lat) / height);
    return *column < COLUMNS && *row >= 0 && *row < ROWS;
}

static char map[ROWS][COLUMNS];

static int is_inside(int row, int column)
{
    double lon = east_of(0, west + (column + 0.5) * width), lat = south + (ROWS - row - 0.5) * height;
    return ask(file, lon, lat) == JIGWANDOR_INSIDE;
}

/* '+' inside, '#' inside with a cell beside it that is not, '.' outside */
static void draw(void)
{
    static int inside[ROWS][COLUMNS];
    for (int r = 0; r < ROWS; r++)
        for (int c = 0; c < COLUMNS; c++)
            inside[r][c] = is_inside(r, c);
    for (int r = 0; r < ROWS; r++)
        for (int c = 0; c < COLUMNS; c++) {
            int border = (r > 0 && !inside[r - 1][c]) || (r + 1 < ROWS && !inside[r + 1][c]) || (c > 0 && !inside[r][c - 1]) ||
                         (c + 1 < COLUMNS && !inside[r][c + 1]);
            map[r][c] = !inside[r][c] ? '.' : border ? '#' : '+';
        }
}

static void print_map(void)
{
    for (int r = 0; r < ROWS; r++) {
        if (r % 5 == 2)
            printf("%7.1f", south + (ROWS - r - 0.5) * height);
        else
            printf("%7s", "");
        printf("  %.*s\n", COLUMNS, map[r]);
    }
    printf("         ");
    for (int c = 0; c < COLUMNS; c += 12)
        printf(c + 12 < COLUMNS ? "|%-11.1f" : "|%.1f", east_of(0, west + (c + 0.5) * width));
    printf("\n\n");
}

/* ---- the poles: docs/POLES.md says what to make of these */

static uint32_t seam_count(void)
{
    uint32_t n = corner_count(), crossings = 0;
    for (uint32_t i = 0; i < n; i++)
        if (fabs(radians(i, 3) - radians(i > 0 ? i - 1 : n - 1, 3)) > PI)
            crossings++;
    return crossings;
}

static void print_poles(void)
{
    uint32_t crossings = seam_count();
    printf("   south pole  ");
    say_answer(jigwandor_contains(file, len, 0, 0, -1, 0, 0));
    printf("\n   north pole  ");
    say_answer(jigwandor_contains(file, len, 0, 0, 1, 0, 0));
    printf("\n   seam count  %u, %s\n\n", (unsigned)crossings, crossings % 2 != 0 ? "odd: round a pole" : "even: round neither pole, or twice");
}

/* ---- fixes */

static int read_fixes(const char *name, fix *fixes)
{
    FILE *in = name ? fopen(name, "r") : NULL;
    int n = 0;
    if (in == NULL)
        return 0;
    while (n < MOST_FIXES && fscanf(in, "%lf %lf %39[^\n]", &fixes[n].lon, &fixes[n].lat, fixes[n].name) == 3)
        n++;
    fclose(in);
    return n;
}

static void print_table(const fix *fixes, int n)
{
    static uint8_t copy[sizeof file];
    int held = -1;
    memcpy(copy, file, len);
    for (int i = 0; i < n && held < 0; i++)
        if (ask(file, fixes[i].lon, fixes[i].lat) == JIGWANDOR_OUTSIDE && hold(copy, fixes[i].lon, fixes[i].lat) == JIGWANDOR_HELD)
            held = i;
    printf("   %-32s%9s%10s   %-10s%s\n", "fix", "longitude", "latitude", "answer", held < 0 ? "" : "after hold");
    for (int i = 0; i < n; i++) {
        uint32_t before = ask(file, fixes[i].lon, fixes[i].lat), after = ask(copy, fixes[i].lon, fixes[i].lat);
        printf("%c  %-32s%9.1f%10.1f   ", 'A' + i, fixes[i].name, fixes[i].lon, fixes[i].lat);
        say_answer(before);
        if (before != after) {
            printf("%*s", before == JIGWANDOR_INSIDE ? 4 : 3, "");
            say_answer(after);
        }
        printf("\n");
    }
    if (held >= 0)
        printf("\n'after hold': a copy of the file made to hold %c. The outline stays; the other side of it is inside.\n", 'A' + held);
}

int main(int argc, char **argv)
{
    static fix fixes[MOST_FIXES];
    FILE *in = argc == 2 || argc == 3 ? fopen(argv[1], "rb") : NULL;
    if (in == NULL) {
        fprintf(stderr, "usage: demo FILE [FIXES]\n");
        return 2;
    }
    len = fread(file, 1, sizeof file, in);
    fclose(in);
    int n = read_fixes(argc == 3 ? argv[2] : NULL, fixes);

    uint32_t answer = ask(file, 0, 0);
    if (JIGWANDOR_IS_REFUSAL(answer)) {
        printf("%s: refused as %u, %s\n", argv[1], (unsigned)answer, jigwandor_refusal_name(answer));
        return 1;
    }
    choose_window();
    draw();
    printf("%s, %lu bytes, %u corners: + and # are filmed, # is the outline's inner side, o its corners%s\n\n", argv[1],
           (unsigned long)len, (unsigned)corner_count(), n > 0 ? ", letters are fixes" : "");
    int column, row;
    for (uint32_t i = 0; i < corner_count(); i++)
        if (cell_of(corner(i, 3), corner(i, 4), &column, &row))
            map[row][column] = 'o';
    for (int i = 0; i < n; i++)
        if (!JIGWANDOR_IS_REFUSAL(ask(file, fixes[i].lon, fixes[i].lat)) && cell_of(fixes[i].lon, fixes[i].lat, &column, &row))
            map[row][column] = (char)('A' + i);
    print_map();
    print_poles();
    if (n > 0)
        print_table(fixes, n);
    return 0;
}
