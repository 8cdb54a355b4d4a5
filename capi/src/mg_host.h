/*
 * mg_host.h: the host number of mg, where none is given.
 */
#ifndef MG_HOST_H
#define MG_HOST_H

#include <midgegalena.h>

#include <stdbool.h>

enum choice { IS_CHOSEN, ARE_DEVICES, IS_ELSEWHERE, ARE_ALL_IN_USE, IS_REFUSED };

/* The least number that nobody keeps: each is tried for a third of a second, so that processes that have it for a moment are waited for, and one that has it
 * all the time is passed. Devices, and files of a file system of several machines, may have hosts elsewhere, whose locks on numbers are perhaps not seen here.
 * So of these none is chosen. IS_REFUSED: `*status` says why, and `*disk` of which image, or is -1. */
enum choice choose_number(const char *folder, unsigned *number, int *status, int *disk);

/* Waits until no other mg works under a number that it has chosen. The turn lasts until this process ends, whatever program it becomes. Where the folder
 * takes no file there is no turn. */
void wait_for_turn(const char *folder);

/* Of which host numbers the table has locks that sessions took, as far as marks tell. */
int find_hosts(const char *folder, bool has[MG_HOSTS], int *disk);

/* Whether the number is free, within a third of a second. */
bool is_free(const char *folder, unsigned number);

#endif
