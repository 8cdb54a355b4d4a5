/*
 * device.h: the calls on a device that several machines use at once (versions 3 and 5 of docs/FORMAT.md). What its bytes say, where its sectors are, what a write
 * makes of one, and whose a host number is, the proved library tells (crates/dlm_c, over crates/sectors). The file is opened with O_DIRECT, and with O_DSYNC
 * where the device says so. `room` is device_room's. A place `at` is one of the image that the device shows.
 */
#ifndef MG_DEVICE_H
#define MG_DEVICE_H

#include <stdbool.h>
#include <stddef.h>
#include <stdint.h>

enum { DEVICE_VERSION = 3, ENDLESS_DEVICE_VERSION = 5, DEVICE_FIRST = 4096, DEVICE_LONGEST_SECTOR = 4096, DEVICE_HOSTS = 16, DEVICE_DISKS = 7, DEVICE_ROW = 4096, DEVICE_BLOCK = 256 };

/* ---- crates/dlm_c/src, and crates/c_host/src below it ---- */

/* Device, FirstBytes and Sectors of device.rt. A sector size of 0: it is none such. */
struct device {
    uint32_t sector_size;
    uint32_t hosts;
    uint32_t slots;
    uint32_t dsync;
    uint32_t endless; /* 1: its log has no end, and the slots are those of an epoch */
};

struct first_bytes {
    uint8_t bytes[DEVICE_FIRST];
};

struct sectors {
    uint64_t place;
    uint64_t length;
    uint64_t offset;
};

/* HeaderBytes of header.rt, and Row of call.rt */
struct header {
    uint64_t size;
    uint8_t bytes[1024];
};

struct row {
    uint8_t bytes[DEVICE_ROW];
};

/* NameBytes, Heard and AllHeard of owner.rt */
struct machine {
    uint8_t bytes[16];
};

struct heard {
    uint32_t is_heard;
    struct machine name;
};

struct all_heard {
    struct heard all[DEVICE_DISKS];
    uint32_t disks;
};

/* The sizes of the structs there. That each field lies where it does there is tried by tests/devices.c. */
typedef char devices_are_as_there[sizeof(struct device) == 20 && sizeof(struct first_bytes) == 4096 && sizeof(struct sectors) == 24 &&
                                          sizeof(struct header) == 1032 && sizeof(struct row) == 4096 && sizeof(struct machine) == 16 &&
                                          sizeof(struct heard) == 20 && sizeof(struct all_heard) == 144
                                      ? 1
                                      : -1];

int32_t dlm_c_device_header(const struct device *device, uint32_t disks, uint64_t cluster, uint32_t disk, struct first_bytes *into, uint64_t *size);
int32_t dlm_c_device(uint32_t disk, uint64_t size, const struct first_bytes *first, struct device *device, struct header *image);
int32_t dlm_c_device_row(const struct device *device, uint64_t at, struct sectors *into);
int32_t dlm_c_device_block(const struct device *device, uint64_t at, size_t length, struct sectors *into);
int32_t dlm_c_device_agreed(const struct device *device, const uint8_t *one, size_t one_length, const uint8_t *other, size_t other_length, struct row *row);
int32_t dlm_c_device_put(uint8_t *sector, size_t length, uint64_t offset, const uint8_t *from, size_t from_length);
int32_t dlm_c_device_name(const uint8_t *sector, size_t length, struct machine *into);
int32_t dlm_c_device_put_name(uint8_t *sector, size_t length, const struct machine *name);
int32_t dlm_c_device_owner(const struct all_heard *heard, const struct machine *machine, struct machine *other);

/* What dlm_c_device_owner returns: 0 where the number is this machine's. */
enum { IS_OURS = 0, IS_UNHEARD = 7, IS_OTHERS = 36 };

/* ---- device.c ---- */

/* Room for two rows as they lie on a device, to be freed, or NULL. */
uint8_t *device_room(void);

bool sync_data(int file);

/* Whether an image with this version, its second byte, may be such a device. */
static inline bool device_version(uint8_t version) { return version == DEVICE_VERSION || version == ENDLESS_DEVICE_VERSION; }

/* Reads the first bytes of any file into the room. */
bool device_first(int file, uint8_t *room);

/* Whether a file is such a device, and right as that of this disk; the header of the image that it shows. Its own first bytes are in the room then. */
bool device_find(int file, unsigned disk, uint8_t *room, struct device *device, struct header *image);

/* The bytes of a block device's physical sectors; and where it begins, in bytes, as far as the system tells: a partition on its disk, a loop device in its file, a
 * volume from the next place before it where its disks' sectors begin. Of another file both are 0. */
uint32_t device_sector(int file);
uint64_t device_begin(int file);

/* What makes two files one device: two names of a file, two nodes of a block device, two loop devices over one place of a file. */
struct identity {
    uint64_t is_block, of, number, at;
};
bool device_identity(int file, struct identity *into);

/* Whether nobody may write to it: the device is read only, or the file system of the file is. */
bool device_is_read_only(int file);

/* The steps of a format: zeros throughout; the header with a closed gate; the gate. Each ends with a sync. All images of a set make a step before any makes the
 * next, so no gate is open before all are whole. Or the first bytes become zeros again. Of these, `first` with an open gate, so many are written at once. It serves
 * images for one machine, too. */
enum step { ZEROS, HEADER, GATE, UNDONE };
bool device_lay_out(int file, const struct first_bytes *first, size_t length, uint64_t size, enum step step, uint8_t *room);

/* How far such a format came, by the first bytes of the file, which are in the room: they are all of the header; or all but its gate, and zeros are after them; or
 * neither. */
enum state { OTHER_BYTES, GATE_CLOSED, GATE_OPEN };
enum state device_state(int file, const struct first_bytes *first, uint64_t size, uint8_t *room);

/* A row is read until two reads in a row agree in all blocks and stamps, nine times at most. A write is of bytes of one block; of none it is no call. It fails
 * where fewer bytes than those of the sector were written. */
bool device_read(int file, const struct device *device, uint8_t *room, uint64_t at, struct row *row);
bool device_write(int file, const struct device *device, uint8_t *room, uint64_t at, const uint8_t *from, size_t length);

/* Tells whose a host number is, by the names that the disks keep. CLAIM: where it is this machine's each device that was heard gets the name. TAKE: they get
 * it in any case. TELL: nothing is written. A file below 0 is no device. */
enum claim_of { TELL, CLAIM, TAKE };
int device_claim(const int *files, const struct device *devices, unsigned disks, unsigned host, enum claim_of kind, const struct machine *machine,
                 struct machine *other, uint8_t *room);

#endif
