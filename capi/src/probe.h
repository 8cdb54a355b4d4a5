/*
 * probe.h: how long a disk takes to answer.
 */
#ifndef MG_PROBE_H
#define MG_PROBE_H

#include <stdint.h>

/* Reads an image's first 4,096 bytes past the machine's cache, and tells how long that took, in microseconds. -1: it cannot be read so. It waits as long as the disk
 * does. */
int64_t probe(const char *folder, unsigned disk);

#endif
