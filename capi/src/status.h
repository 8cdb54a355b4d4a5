/*
 * status.h: mg-lock --status.
 */
#ifndef MG_STATUS_H
#define MG_STATUS_H

#include <stdio.h>

enum status_form { FOR_PEOPLE, AS_JSON, FOR_PROMETHEUS };

/* What is wrong, and the exit status where the table was read: nothing; something, and it goes on; no command gets into the log. */
enum health { IS_WELL = 0, IS_WORSE = 1, IS_STUCK = 3 };

/* Prints what a folder's images tell, and what this machine knows of it. It takes no host number, locks nothing and writes nothing. But where
 * the log has no end it takes the greatest number that is free for a moment, and looks by that. The status is MG_OK, or says why the images
 * were refused, and `*disk` which one; -1 is none. Where no majority of them answers, the rest is printed all the same. For Prometheus it is
 * also printed that they were refused. `*health` is the worst of what is wrong. */
int show_status(const char *folder, enum status_form form, FILE *out, int *disk, enum health *health);

#endif
