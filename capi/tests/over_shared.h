/* To be included before a test: its folders are formatted for several machines, and the test goes on as over ordinary images. */
#ifndef OVER_SHARED_H
#define OVER_SHARED_H

#include <midgegalena.h>

#define mg_format(folder, disks, slots, cluster, disk) mg_format_shared(folder, disks, slots, cluster, MG_HOSTS, 512, MG_FILES, disk)

#endif
