/* Device calls of the library that fail, or at which this process dies. device_faults.c says how it is linked. */
#ifndef DEVICE_FAULTS_H
#define DEVICE_FAULTS_H

#include <stdbool.h>

/* After so many device calls each further one fails. What sleeps then comes back at once, with the clock as late as after the sleep. */
void fail_after(long calls);

/* After so many device calls the next one kills this process. */
void die_after(long calls);

/* Ends that. Whether a call was due that failed. */
bool end_faults(void);

/* From now on, or no more: what sleeps comes back at once, with the clock as late as after the sleep. */
void skip_sleeps(bool skips);

/* How long each sync of an image lasts from now on, if this process has written to it: not at all at first, whatever the disk is. */
void set_sync(long microseconds);

#endif
