/*
 * mg-lock --status: prints what was looked at (looked.c), for people, for programs and for Prometheus. man man/mg-lock.1 says what it prints.
 */
#ifndef _GNU_SOURCE
#define _GNU_SOURCE
#endif
#include "status.h"

#include "looked.h"

#include <inttypes.h>
#include <stdlib.h>
#include <string.h>

static const char *const MODES[] = {"NL", "CR", "CW", "PR", "PW", "EX"};
static const char *const SIGNS[] = {"held", "free", "none", NULL};
static const char *const KINDS[] = {NULL, "file", "device", "shared"};

/* ---- for people ---- */

/* "5 slots or more" between two texts: so many commands have come since. */
static void print_slots_since(FILE *out, const struct status *status, const struct since *since, const char *before, const char *after) {
    uint64_t slots = slots_since(status->followed, since);
    fprintf(out, "%s%" PRIu64 " slot%s%s%s", before, slots, slots == 1 ? "" : "s", since->is_earlier ? " or more" : "", after);
}

static void print_since(FILE *out, const struct status *status, const struct since *since) {
    if (since->is_known)
        print_slots_since(out, status, since, " for ", "");
}

static void print_lock(FILE *out, const struct status *status, size_t place) {
    const struct mg_lock_view *lock = &status->locks[place];
    fprintf(out, "  lock %u of client %u, host %u:", (unsigned)lock->lock, (unsigned)lock->client, (unsigned)lock->host);
    if (lock->held != MG_NONE) {
        fprintf(out, " has %s", MODES[lock->held]);
        print_since(out, status, since_of(status, place, false));
        fputs(lock->wanted == MG_NONE ? "" : ",", out);
    }
    if (lock->wanted != MG_NONE) {
        fprintf(out, " waits for %s", MODES[lock->wanted]);
        print_since(out, status, since_of(status, place, true));
    }
    fputs(status->signs[place] == IS_FREE ? "; no process here has its sign of life\n" : "\n", out);
}

static void print_locks(FILE *out, const struct status *status) {
    const char *name = "";
    fprintf(out, "locks: %zu\n", status->count);
    for (size_t i = 0; i < status->count; i++) {
        const struct mg_lock_view *lock = &status->locks[i];
        if (strcmp(name, lock->name) != 0)
            fprintf(out, "%s\n", lock->name);
        name = lock->name;
        print_lock(out, status, i);
    }
}

static void print_disks(FILE *out, const struct status *status) {
    fprintf(out, "disks: %zu of %u answer, ", status->answering, (unsigned)status->facts.disks);
    if (status->answering <= status->facts.disks / 2)
        fputs("which is no majority\n", out);
    else if (status->writable <= status->facts.disks / 2)
        fprintf(out, "and no majority may be written\n");
    else
        fprintf(out, "%zu more may fail\n", spare(status));
    for (size_t i = 0; i < status->facts.disks; i++) {
        if (status->disks[i].status == MG_NOT_YET)
            fprintf(out, "  disk%zu takes part from a later epoch on", i);
        else if (status->disks[i].status != MG_OK)
            fprintf(out, "  disk%zu %d %s", i, (int)status->disks[i].status, mg_name(status->disks[i].status));
        else if (status->images[i].read_only)
            fprintf(out, "  disk%zu is read only", i);
        else if (is_slow(status, i))
            fprintf(out, "  disk%zu is slow: a read took %.1f seconds", i, (double)status->took[i] / 1e6);
        else
            continue;
        if (status->images[i].other >= 0)
            fprintf(out, ": it is formatted as disk%d", (int)status->images[i].other);
        fputc('\n', out);
    }
}

/* Whether machines may share them: of block devices nothing else tells. */
static void print_kinds(FILE *out, const struct status *status) {
    const struct mg_image_view *shared = first_of(status, MG_SHARED_IMAGE);
    if (shared)
        fprintf(out, "  for several machines: host numbers 0 to %u, sectors of %u bytes\n", (unsigned)shared->hosts - 1, (unsigned)shared->sector);
    if (first_of(status, MG_DEVICE_IMAGE))
        fputs("  block devices for the processes of one machine: where several machines work on them, commands are lost\n", out);
}

static void print_hosts(FILE *out, const struct status *status) {
    const char *some = " none";
    fputs("host numbers in use on this machine:", out);
    for (unsigned host = 0; host < MG_HOSTS && status->knows_hosts; host++)
        if (status->hosts[host] == IS_HELD) {
            fprintf(out, " %u", host);
            some = "";
        }
    fprintf(out, "%s\n", status->knows_hosts ? some : " not known, /proc/locks cannot be read");
}

static void print_machines(FILE *out, const struct status *status) {
    const char *between = "host numbers of machines: ";
    for (unsigned host = 0; host < MG_HOSTS; host++)
        if (status->machines[host][0]) {
            fprintf(out, "%s%u of %s", between, host, status->machines[host]);
            between = ", ";
        }
    fputs(between[0] == ',' ? "\n" : "", out);
}

/* Through which host numbers locks came, as far as the look goes back. */
static void print_seen(FILE *out, const struct status *status) {
    const char *between = "host numbers in the log: ";
    for (unsigned host = 0; host < MG_HOSTS; host++) {
        const struct since *since = &status->followed->asked[host];
        if (!since->is_known)
            continue;
        fprintf(out, "%s%u ", between, host);
        print_slots_since(out, status, since, "(", " ago)");
        between = ", ";
    }
    fputs(between[0] == ',' ? "\n" : "", out);
}

static void print_slots(FILE *out, const struct status *status) {
    unsigned slots = (unsigned)status->facts.slots, used = (unsigned)status->facts.learned;
    if (status->refusal != MG_OK)
        fprintf(out, "slots: %u%s\n", slots, status->facts.endless ? " in each epoch" : "");
    else
        fprintf(out, "slots: %u of %u are used, %u are left%s\n", used, slots, slots - used, used == slots ? ": the log is full" : "");
}

static void print_epoch(FILE *out, const struct status *status) {
    fprintf(out, "epoch: %" PRIu64 ", of a log without an end\n", status->epoch);
    fprintf(out, "slots: %" PRIu64 " are used, %" PRIu64 " of %u in this epoch\n", status->facts.learned, status->taken, (unsigned)status->facts.slots);
}

static void print_wrong(FILE *out, const struct status *status) {
    const char *between = "wrong: ";
    for (size_t i = 0; i < WRONGS; i++)
        if (WRONG[i].is_so(status)) {
            fprintf(out, "%s%s", between, WRONG[i].sentence);
            between = "; ";
        }
    fputs(between[0] == ';' ? "\n" : "", out);
}

static void print_status(FILE *out, const struct status *status) {
    fprintf(out, "cluster: %" PRIu64 "\n", status->facts.cluster);
    (status->refusal == MG_OK && status->facts.endless ? print_epoch : print_slots)(out, status);
    print_disks(out, status);
    print_kinds(out, status);
    print_hosts(out, status);
    print_machines(out, status);
    if (status->refusal == MG_OK) {
        print_seen(out, status);
        print_locks(out, status);
    }
    print_wrong(out, status);
}

/* ---- for programs ---- */

/* Names have bytes from 0x21 to 0x7E, of which JSON has two escaped. */
static void put_text(FILE *out, const char *text) {
    if (!text) {
        fputs("null", out);
        return;
    }
    fputc('"', out);
    for (; *text; text++) {
        if (*text == '"' || *text == '\\')
            fputc('\\', out);
        fputc(*text, out);
    }
    fputc('"', out);
}

/* mg_name has the names of refusals that dlm prints. */
static const char *name_of(int refusal) { return refusal == MG_NOT_YET ? "NotYet" : mg_name(refusal); }

static void put_refusal(FILE *out, int status) {
    if (status == MG_OK) {
        fputs("null", out);
        return;
    }
    fprintf(out, "{\"number\": %d, \"name\": ", status);
    put_text(out, name_of(status));
    fputc('}', out);
}

static void put_disks(FILE *out, const struct status *status) {
    fputs("  \"disks\": [", out);
    for (size_t i = 0; i < status->facts.disks; i++) {
        fprintf(out, "%s{\"disk\": %zu, \"refusal\": ", i == 0 ? "" : ", ", i);
        put_refusal(out, status->disks[i].status);
        fputs(", \"kind\": ", out);
        put_text(out, KINDS[status->images[i].kind]);
        fprintf(out, ", \"read_only\": %s, \"microseconds\": ", status->images[i].read_only ? "true" : "false");
        if (status->took[i] >= 0)
            fprintf(out, "%" PRId64 "}", status->took[i]);
        else
            fputs("null}", out);
    }
    fprintf(out, "],\n  \"answering\": %zu,\n  \"may_fail\": %zu,\n", status->answering, spare(status));
}

static void put_hosts(FILE *out, const struct status *status) {
    const char *between = "";
    fputs(status->knows_hosts ? "  \"hosts\": [" : "  \"hosts\": null,\n", out);
    for (unsigned host = 0; host < MG_HOSTS && status->knows_hosts; host++)
        if (status->hosts[host] == IS_HELD) {
            fprintf(out, "%s%u", between, host);
            between = ", ";
        }
    fputs(status->knows_hosts ? "],\n" : "", out);
}

/* How many slots ago; null where that is not known. */
static void put_since(FILE *out, const struct status *status, const char *key, const struct since *since) {
    if (since->is_known)
        fprintf(out, ", \"%s\": {\"slots\": %" PRIu64 ", \"or_more\": %s}", key, slots_since(status->followed, since), since->is_earlier ? "true" : "false");
    else
        fprintf(out, ", \"%s\": null", key);
}

static void put_machines(FILE *out, const struct status *status) {
    const char *between = "";
    fputs("  \"machines\": [", out);
    for (unsigned host = 0; host < MG_HOSTS; host++)
        if (status->machines[host][0]) {
            fprintf(out, "%s{\"host\": %u, \"machine\": \"%s\"}", between, host, status->machines[host]);
            between = ", ";
        }
    fputs("],\n", out);
}

static void put_seen(FILE *out, const struct status *status) {
    const char *between = "";
    fputs("  \"hosts_seen\": [", out);
    for (unsigned host = 0; host < MG_HOSTS; host++) {
        const struct since *since = &status->followed->asked[host];
        if (!since->is_known)
            continue;
        fprintf(out, "%s{\"host\": %u", between, host);
        put_since(out, status, "asked", since);
        fputc('}', out);
        between = ", ";
    }
    fputs("],\n", out);
}

static void put_lock(FILE *out, const struct status *status, size_t place) {
    const struct mg_lock_view *lock = &status->locks[place];
    fputs("{\"name\": ", out);
    put_text(out, lock->name);
    fprintf(out, ", \"lock\": %u, \"client\": %u, \"host\": %u, \"held\": ", (unsigned)lock->lock, (unsigned)lock->client, (unsigned)lock->host);
    put_text(out, lock->held == MG_NONE ? NULL : MODES[lock->held]);
    fputs(", \"wanted\": ", out);
    put_text(out, lock->wanted == MG_NONE ? NULL : MODES[lock->wanted]);
    put_since(out, status, "has_for", since_of(status, place, false));
    put_since(out, status, "waits_for", since_of(status, place, true));
    fputs(", \"sign\": ", out);
    put_text(out, SIGNS[status->signs[place]]);
    fputc('}', out);
}

static void put_locks(FILE *out, const struct status *status) {
    fputs("  \"locks\": [", out);
    for (size_t i = 0; i < status->count; i++) {
        fputs(i == 0 ? "\n    " : ",\n    ", out);
        put_lock(out, status, i);
    }
    fputs(status->count == 0 ? "]\n" : "\n  ]\n", out);
}

/* A number, or null where there is none. */
static void put_number(FILE *out, const char *key, bool is_there, uint64_t number) {
    if (is_there)
        fprintf(out, "  \"%s\": %" PRIu64 ",\n", key, number);
    else
        fprintf(out, "  \"%s\": null,\n", key);
}

static void put_wrong(FILE *out, const struct status *status) {
    const char *between = "";
    fputs(",\n  \"wrong\": [", out);
    for (size_t i = 0; i < WRONGS; i++)
        if (WRONG[i].is_so(status)) {
            fputs(between, out);
            put_text(out, WRONG[i].name);
            between = ", ";
        }
    fputc(']', out);
}

static void put_status(FILE *out, const struct status *status) {
    bool is_known = status->refusal == MG_OK, ends = !status->facts.endless;
    fprintf(out, "{\n  \"cluster\": \"%" PRIu64 "\",\n  \"refusal\": ", status->facts.cluster);
    put_refusal(out, status->refusal);
    put_wrong(out, status);
    fprintf(out, ",\n  \"endless\": %s,\n", ends ? "false" : "true");
    put_number(out, "epoch", is_known && !ends && status->is_in_epoch, status->epoch);
    put_number(out, "epoch_used", is_known && !ends && status->is_in_epoch, status->taken);
    put_number(out, "slots", true, status->facts.slots);
    put_number(out, "used", is_known, status->facts.learned);
    put_number(out, "left", is_known && ends, status->facts.slots - status->facts.learned);
    put_disks(out, status);
    put_hosts(out, status);
    put_machines(out, status);
    put_seen(out, status);
    put_number(out, "clients", is_known, status->clients);
    if (is_known)
        put_locks(out, status);
    else
        fputs("  \"locks\": null\n", out);
    fputs("}\n", out);
}

/* ---- for Prometheus: https://prometheus.io/docs/instrumenting/exposition_formats ---- */

/* How many bytes a character of UTF-8 has that begins here. 0: none does. */
static size_t character_at(const char *text) {
    const unsigned char *bytes = (const unsigned char *)text;
    unsigned first = bytes[0];
    size_t length = first < 0x80 ? 1 : first < 0xC2 ? 0 : first < 0xE0 ? 2 : first < 0xF0 ? 3 : first < 0xF5 ? 4 : 0;
    for (size_t i = 1; i < length; i++)
        if ((bytes[i] & 0xC0) != 0x80)
            return 0;
    /* Longer than it has to be, half of a pair of UTF-16, above the last character. */
    if ((first == 0xE0 && bytes[1] < 0xA0) || (first == 0xED && bytes[1] > 0x9F) || (first == 0xF0 && bytes[1] < 0x90) ||
        (first == 0xF4 && bytes[1] > 0x8F))
        return 0;
    return length;
}

/* A label has characters alone. A byte that is of none is put as four of them, as \xff. */
static void put_label(FILE *out, const char *label, const char *text) {
    fprintf(out, "%s=\"", label);
    while (*text) {
        size_t length = character_at(text);
        if (length == 0)
            fprintf(out, "\\\\x%02x", (unsigned)(unsigned char)*text);
        else if (*text == '\n')
            fputs("\\n", out);
        else if (*text == '"' || *text == '\\')
            fprintf(out, "\\%c", *text);
        else
            fwrite(text, 1, length, out);
        text += length > 0 ? length : 1;
    }
    fputc('"', out);
}

/* One more label. */
static void add_label(FILE *out, const char *label, const char *text) {
    fputc(',', out);
    put_label(out, label, text);
}

static void add_number(FILE *out, const char *label, int number) { fprintf(out, ",%s=\"%d\"", label, number); }

static void add_refusal(FILE *out, int refusal) {
    add_number(out, "number", refusal);
    add_label(out, "name", name_of(refusal));
}

/* All samples of this metric come next. */
static void put_metric(FILE *out, const char *metric, const char *help) {
    fprintf(out, "# HELP midgegalena_%s %s\n# TYPE midgegalena_%s gauge\n", metric, help, metric);
}

/* Folders of one machine are told apart by their names. */
static void begin_sample(FILE *out, const struct status *status, const char *metric) {
    fprintf(out, "midgegalena_%s{", metric);
    put_label(out, "folder", status->folder);
}

static void end_sample(FILE *out, uint64_t value) { fprintf(out, "} %" PRIu64 "\n", value); }

/* A sample of a disk or of a host. */
static void put_numbered(FILE *out, const struct status *status, const char *metric, const char *label, size_t number, uint64_t value) {
    begin_sample(out, status, metric);
    add_number(out, label, (int)number);
    end_sample(out, value);
}

/* A metric that is one sample. */
static void put_sample(FILE *out, const struct status *status, const char *metric, const char *help, uint64_t value) {
    put_metric(out, metric, help);
    begin_sample(out, status, metric);
    end_sample(out, value);
}

static void put_samples_of_look(FILE *out, const struct status *status, int refusal) {
    put_sample(out, status, "up", "Whether the lock table was read (1) or refused (0).", refusal == MG_OK);
    if (refusal == MG_OK)
        return;
    put_metric(out, "refusal_info", "Why the lock table was refused, by number and name.");
    begin_sample(out, status, "refusal_info");
    add_refusal(out, refusal);
    end_sample(out, 1);
}

static void put_samples_of_disks(FILE *out, const struct status *status) {
    put_sample(out, status, "disks", "How many disks there are.", status->facts.disks);
    put_sample(out, status, "disks_answering", "How many disks answer.", status->answering);
    put_sample(out, status, "disks_may_fail", "How many more disks may fail before no majority is left.", spare(status));
    put_metric(out, "disk_answering", "Whether a disk answers (1), or is missing, damaged or takes no part yet (0).");
    for (size_t i = 0; i < status->facts.disks; i++)
        put_numbered(out, status, "disk_answering", "disk", i, status->disks[i].status == MG_OK);
    put_metric(out, "disk_read_only", "Whether nobody may write to a disk (1).");
    for (size_t i = 0; i < status->facts.disks; i++)
        put_numbered(out, status, "disk_read_only", "disk", i, status->images[i].read_only);
    put_metric(out, "disk_read_seconds", "How long a read of a disk took that passed by the machine's cache.");
    for (size_t i = 0; i < status->facts.disks; i++) {
        if (status->took[i] < 0)
            continue;
        begin_sample(out, status, "disk_read_seconds");
        add_number(out, "disk", (int)i);
        fprintf(out, "} %" PRId64 ".%06" PRId64 "\n", status->took[i] / 1000000, status->took[i] % 1000000);
    }
    put_metric(out, "disk_refusal_info", "Why a disk does not answer, by number and name.");
    for (size_t i = 0; i < status->facts.disks; i++) {
        if (status->disks[i].status == MG_OK)
            continue;
        begin_sample(out, status, "disk_refusal_info");
        add_number(out, "disk", (int)i);
        add_refusal(out, status->disks[i].status);
        end_sample(out, 1);
    }
}

static void put_samples_of_hosts(FILE *out, const struct status *status) {
    put_metric(out, "host_in_use", "Whether a process of this machine has a host number (1).");
    for (size_t host = 0; host < MG_HOSTS; host++)
        put_numbered(out, status, "host_in_use", "host", host, status->hosts[host] == IS_HELD);
}

static void put_samples_of_machines(FILE *out, const struct status *status) {
    put_metric(out, "host_machine_info", "Which machine has a host number, of devices that several machines use.");
    for (size_t host = 0; host < MG_HOSTS; host++) {
        if (!status->machines[host][0])
            continue;
        begin_sample(out, status, "host_machine_info");
        add_number(out, "host", (int)host);
        add_label(out, "machine", status->machines[host]);
        end_sample(out, 1);
    }
}

static void put_samples_of_folder(FILE *out, const struct status *status) {
    char cluster[21];
    snprintf(cluster, sizeof cluster, "%" PRIu64, status->facts.cluster);
    put_metric(out, "cluster_info", "The cluster number of the folder.");
    begin_sample(out, status, "cluster_info");
    add_label(out, "cluster", cluster);
    end_sample(out, 1);
    put_sample(out, status, "log_endless", "Whether the log has no end (1), or ends (0).", status->facts.endless);
    put_sample(out, status, "slots", "How many slots the log has, or an epoch of a log without an end.", status->facts.slots);
}

static void put_samples_of_log(FILE *out, const struct status *status) {
    put_sample(out, status, "slots_used", "How many slots hold commands, of a log without an end in all epochs.", status->facts.learned);
    if (!status->facts.endless)
        put_sample(out, status, "slots_left", "How many slots of a log that ends are left.", status->facts.slots - status->facts.learned);
    if (status->facts.endless && status->is_in_epoch) {
        put_sample(out, status, "epoch", "In which epoch a log without an end is.", status->epoch);
        put_sample(out, status, "epoch_slots_used", "How many slots of this epoch hold commands.", status->taken);
    }
    put_sample(out, status, "clients", "How many clients the lock table knows, of 32.", status->clients);
}

/* How many locks have a mode, or wait for one. */
static unsigned locks_in(const struct mg_lock_view *locks, size_t count, int mode, bool waits) {
    unsigned found = 0;
    for (size_t i = 0; i < count; i++)
        found += (waits ? locks[i].wanted : locks[i].held) == mode;
    return found;
}

/* A sample of each name and mode that there is. The locks of a name are together. */
static void put_samples_of_names(FILE *out, const struct status *status, const char *metric, bool waits) {
    for (size_t first = 0, end; first < status->count; first = end) {
        const struct mg_lock_view *locks = &status->locks[first];
        for (end = first + 1; end < status->count && strcmp(status->locks[end].name, locks->name) == 0; end++)
            ;
        for (int mode = MG_NL; mode <= MG_EX; mode++) {
            unsigned found = locks_in(locks, end - first, mode, waits);
            if (found == 0)
                continue;
            begin_sample(out, status, metric);
            add_label(out, "name", locks->name);
            add_label(out, "mode", MODES[mode]);
            end_sample(out, found);
        }
    }
}

/* Of each name the lock that has its mode, or waits, for most slots. */
static void put_longest(FILE *out, const struct status *status, const char *metric, bool waits) {
    for (size_t first = 0, end; first < status->count; first = end) {
        const char *name = status->locks[first].name;
        uint64_t longest = 0;
        bool any = false;
        for (end = first; end < status->count && strcmp(status->locks[end].name, name) == 0; end++) {
            const struct since *since = since_of(status, end, waits);
            uint64_t slots = since->is_known ? slots_since(status->followed, since) : 0;
            any |= since->is_known;
            longest = slots > longest ? slots : longest;
        }
        if (!any)
            continue;
        begin_sample(out, status, metric);
        add_label(out, "name", name);
        end_sample(out, longest);
    }
}

static void put_samples_of_ages(FILE *out, const struct status *status) {
    put_metric(out, "name_granted_slots", "How many slots ago the oldest grant of a name was, or more: what an epoch began with is older.");
    put_longest(out, status, "name_granted_slots", false);
    put_metric(out, "name_waiting_slots", "How many slots ago the oldest wait of a name began, or more: what an epoch began with is older.");
    put_longest(out, status, "name_waiting_slots", true);
    put_metric(out, "host_seen_slots", "How many slots ago a lock last came through a host, or more: what an epoch began with is older.");
    for (size_t host = 0; host < MG_HOSTS; host++)
        if (status->followed->asked[host].is_known)
            put_numbered(out, status, "host_seen_slots", "host", host, slots_since(status->followed, &status->followed->asked[host]));
}

static void put_samples_of_signs(FILE *out, const struct status *status) {
    size_t left = 0;
    for (size_t i = 0; i < status->count; i++) {
        if (status->signs[i] == NOT_KNOWN)
            return;
        left += status->signs[i] == IS_FREE;
    }
    put_sample(out, status, "locks_left_over", "How many locks have a sign of life that no process of this machine has.", left);
}

static void put_samples_of_locks(FILE *out, const struct status *status) {
    unsigned hosts[MG_HOSTS] = {0};
    for (size_t i = 0; i < status->count; i++)
        hosts[status->locks[i].host]++;
    put_sample(out, status, "locks", "How many locks there are, of 256.", status->count);
    put_sample(out, status, "locks_granted", "How many locks have a mode.", status->count - locks_in(status->locks, status->count, MG_NONE, false));
    put_sample(out, status, "locks_waiting", "How many locks wait for a mode, also those that have another.",
               status->count - locks_in(status->locks, status->count, MG_NONE, true));
    put_samples_of_signs(out, status);
    put_metric(out, "name_locks_granted", "How many locks of a name have the mode.");
    put_samples_of_names(out, status, "name_locks_granted", false);
    put_metric(out, "name_locks_waiting", "How many locks of a name wait for the mode.");
    put_samples_of_names(out, status, "name_locks_waiting", true);
    put_samples_of_ages(out, status);
    put_metric(out, "host_locks", "How many locks came through a host that has some.");
    for (size_t host = 0; host < MG_HOSTS; host++)
        if (hosts[host] > 0)
            put_numbered(out, status, "host_locks", "host", host, hosts[host]);
}

/* What is known, where the table was refused, too. A folder that could not be opened has no disks. */
static void put_samples(FILE *out, const struct status *status, int refusal) {
    put_samples_of_look(out, status, refusal);
    if (status->facts.disks > 0) {
        put_samples_of_folder(out, status);
        put_samples_of_disks(out, status);
    }
    if (status->knows_hosts)
        put_samples_of_hosts(out, status);
    if (first_of(status, MG_SHARED_IMAGE))
        put_samples_of_machines(out, status);
    if (refusal == MG_OK) {
        put_samples_of_log(out, status);
        put_samples_of_locks(out, status);
    }
}

int show_status(const char *folder, enum status_form form, FILE *out, int *disk, enum health *health) {
    struct status *status = begin_status(folder);
    char *followed;
    int result;
    *disk = -1;
    *health = IS_STUCK;
    if (!status)
        return MG_NO_MEMORY;
    /* A link is followed once, so that all is of one folder. */
    followed = realpath(folder, NULL);
    result = look_at_all(status, followed ? followed : folder, disk);
    *health = health_of(status);
    if (form == FOR_PROMETHEUS)
        put_samples(out, status, result);
    else if (result == MG_OK || status->refusal != MG_OK)
        (form == AS_JSON ? put_status : print_status)(out, status);
    free(followed);
    end_status(status);
    return result;
}
