/* The board of camera/example/film.c under QEMU: a few fixes, and what the camera does, as text. */
#include "example/board.h"

#include "harness.h"

static const struct {
    const char *name;
    struct fix fix;
} fixes[] = {
    {"Bouvet Island", {3.4, -54.4}},     {"just west of the seam", {-0.1, -54.0}}, {"Cape Town", {18.4, -33.9}},
    {"South Georgia", {-36.5, -54.3}},   {"the south pole", {0, -90}},             {"no fix yet", {0, 200}},
    {"west of the water", {-15, -54.0}}, {"east in the water", {5.7, -54.0}},
};

static unsigned done;

int next_fix(struct fix *fix)
{
    if (done == sizeof fixes / sizeof *fixes)
        leave(0);
    *fix = fixes[done++].fix;
    return 1;
}

void set_camera(int on)
{
    say(done ? fixes[done - 1].name : "at the start");
    say(on ? ": films\n" : ": does not film\n");
}

void log_text(const char *text)
{
    say("  log: ");
    say(text);
    say("\n");
    if (!done)
        leave(0);
}
