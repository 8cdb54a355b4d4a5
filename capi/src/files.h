/*
 * What midgegalena.c has for format.c: files, as FileDisk of crates/disk, and what there is to add to a refusal.
 */
#ifndef MG_FILES_H
#define MG_FILES_H

#include "device.h"

#include <stdbool.h>
#include <stddef.h>
#include <stdint.h>

enum { HEADER_LENGTH = 1024, NO_FILE = -1 };

int32_t dlm_c_header(uint32_t disks, uint32_t slots, uint64_t cluster, uint32_t disk, struct header *into);
bool dlm_c_is_formatted(const struct header *header);

int status_of(int32_t told);

/* "FOLDER/NAMEnumberEND", or "FOLDER/NAME" where the number is below 0, to be freed, or NULL. */
char *path_of(const char *folder, const char *name, int number, const char *end);

/* Never 0, 1 or 2: where the program has closed one of these, what it or another library prints would go into the image. */
int open_file(const char *path, int flags);

/* Reads until two reads in a row tell the same: a read that another process's write overlaps may tell some of the old bytes
 * and some of the new. `length` is up to that of a row. */
bool read_settled(int file, uint8_t *into, size_t length, uint64_t at);
bool write_whole(int file, const uint8_t *from, size_t length, uint64_t at);

/* What mg_cause tells: nothing, or more, as far as there is room. errno stays. */
void no_cause(void);
__attribute__((format(printf, 1, 2))) void because(const char *format, ...);

#endif
