/*
 * seal FILE OUT: writes FILE with a seal in front (camera/example/seal.h), and tries the seal: its CRC-32 is the usual one, the calls
 * answer as before, every single flipped bit is seen, and a hold asks for a new seal.
 */
#include "jigwandor.h"
#include "seal.h"

#include <stdio.h>
#include <string.h>

static int check(int holds, const char *what)
{
    if (!holds)
        printf("seal: %s\n", what);
    return !holds;
}

int main(int argc, char **argv)
{
    static uint8_t file[65536];
    FILE *in = argc == 3 ? fopen(argv[1], "rb") : NULL, *out = argc == 3 ? fopen(argv[2], "wb") : NULL;
    if (in == NULL || out == NULL)
        return 2;
    uint64_t len = 4 + fread(file + 4, 1, sizeof file - 4, in);
    seal(file, len);
    if (fwrite(file, 1, len, out) != len || fclose(out) != 0)
        return 2;
    fclose(in);

    int wrong = check(crc_32((const uint8_t *)"123456789", 9) == 0xCBF43926, "another CRC-32 than the usual one");
    wrong |= check(is_sealed(file, len), "what was sealed is not");
    for (int lat = -1; lat <= 1; lat++)
        for (int lon = 0; lon < 6; lon++)
            wrong |= check(jigwandor_contains(file, len, 0.5, 0.1, -0.8, lon, lat) == jigwandor_contains(file + 4, len - 4, 0.5, 0.1, -0.8, lon, lat),
                           "another answer with the seal in front");
    for (uint64_t bit = 0; bit < 8 * len; bit++) {
        file[bit / 8] = (uint8_t)(file[bit / 8] ^ 1u << bit % 8);
        wrong |= check(!is_sealed(file, len), "a flipped bit was not seen");
        file[bit / 8] = (uint8_t)(file[bit / 8] ^ 1u << bit % 8);
    }
    for (uint64_t cut = 1; cut <= len; cut++)
        wrong |= check(!is_sealed(file, len - cut), "a cut file was not seen");
    /* the fix 0, 0, 0, 0, 0 is outside the example: its flag changes */
    wrong |= check(jigwandor_hold(file, len, 0, 0, 0, 0, 0) == JIGWANDOR_HELD && !is_sealed(file, len), "a hold was not seen");
    seal(file, len);
    wrong |= check(is_sealed(file, len) && jigwandor_contains(file, len, 0, 0, 0, 0, 0) == JIGWANDOR_INSIDE, "not sealed after the hold");
    return wrong;
}
