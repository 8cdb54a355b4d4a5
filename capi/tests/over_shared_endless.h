/* To be included before a test: its folders are formatted for several machines, their logs have no end, and the test goes on as over logs that end. */
#ifndef OVER_ENDLESS_H
#define OVER_ENDLESS_H
#define SHARED_DEVICES

#include <midgegalena.h>

#include "endless.h"

#define mg_format(folder, disks, slots, cluster, disk) ((void)(slots), lay_out_as(folder, disks, cluster) ? MG_OK : MG_UNREADABLE)

#endif
