/* Films inside the region whose file stands in flash, and nowhere else. */
#include "board.h"
#include "seal.h"

#include <jigwandor.h>
#include <math.h>

#define PI 0x1.921fb54442d18p+1

/* The file, put there by region.S. */
extern const uint8_t region_file[], region_file_end[];

int main(void)
{
    uint64_t len = (uint64_t)(region_file_end - region_file);
    struct fix fix;

    set_camera(0);
    if (!is_sealed(region_file, len)) {
        log_text("the region file is damaged");
        return 1;
    }
    while (next_fix(&fix)) {
        double lon = fix.lon * (PI / 180), lat = fix.lat * (PI / 180);
        if (lon < 0)
            lon += 2 * PI;
        uint32_t answer = jigwandor_contains(region_file, len, cos(lat) * cos(lon), cos(lat) * sin(lon), sin(lat), lon, lat);
        set_camera(answer == JIGWANDOR_INSIDE);
        if (JIGWANDOR_IS_REFUSAL(answer))
            log_text(jigwandor_refusal_name(answer));
    }
    return 0;
}
