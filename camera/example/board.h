/* What the program asks of the board. */
#ifndef BOARD_H
#define BOARD_H

struct fix {
    double lon, lat; /* degrees, as a receiver gives them: west and south below 0 */
};

int next_fix(struct fix *fix); /* waits for one; 0 where there will be none */
void set_camera(int on);
void log_text(const char *text);

#endif
