/* Times runs in turn: medians of processor time. */
#ifndef TURNS_H
#define TURNS_H

#include "shared.h"

/* The frames of the lines of standard input, and how many; a line that spells none ends them. */
size_t read_frames(struct frame **frames);

/* Runs each of `count` in turn, `rounds` times, and sets its median in seconds. */
void time_in_turn(void (*const runs[])(void), int count, int rounds, double medians[]);

#endif
