/*
 * Each call once where it goes well, and once for each argument that is none. Prints nothing where all is as it should be.
 *
 *   calls FOLDER      an empty folder
 */
#include <midgegalena.h>

#include "expect.h"

#include <stdio.h>
#include <string.h>

/* Is told of each command, from the one of this number on. */
static void follows(struct mg_host *host, void *more) {
    struct mg_host_view facts;
    uint64_t *next = (uint64_t *)more;
    IS(mg_host_facts(host, &facts), MG_OK);
    IS(facts.learned, *next);
    ++*next;
}

static void bad_arguments(const char *folder) {
    struct mg_host *host = (struct mg_host *)&failures;
    int disk = 5;
    IS(mg_format(NULL, 3, 8, 7, &disk), MG_BAD_ARGUMENT);
    IS(disk, -1);
    IS(mg_format(folder, 0, 8, 7, NULL), MG_BAD_ARGUMENT);
    IS(mg_format(folder, 8, 8, 7, NULL), MG_BAD_ARGUMENT);
    IS(mg_format(folder, 256 + 3, 8, 7, NULL), MG_BAD_ARGUMENT);
    IS(mg_format(folder, 3, 0, 7, NULL), MG_BAD_ARGUMENT);
    IS(mg_format(folder, 3, 4097, 7, NULL), MG_BAD_ARGUMENT);
    IS(mg_format(folder, 3, 65536 + 8, 7, NULL), MG_BAD_ARGUMENT);
    IS(mg_format("/nowhere at all", 3, 8, 7, &disk), MG_UNREADABLE);
    IS(disk, 0);
    IS(mg_format("\xff", 3, 8, 7, &disk), MG_UNREADABLE);
    IS(mg_open(NULL, 0, &host, NULL), MG_BAD_ARGUMENT);
    IS(host == NULL, 1);
    IS(mg_open(folder, 0, NULL, NULL), MG_BAD_ARGUMENT);
    IS(mg_open(folder, 16, &host, NULL), MG_BAD_ARGUMENT);
    IS(mg_open(folder, 256, &host, NULL), MG_BAD_ARGUMENT);
    IS(mg_open("/nowhere at all", 0, &host, &disk), MG_UNREADABLE);
    IS(disk, 0);
    IS(mg_open(folder, 0, &host, &disk), MG_UNREADABLE);
    IS(disk, 0);
    IS(mg_open_to_look(NULL, &host, NULL), MG_BAD_ARGUMENT);
    IS(host == NULL, 1);
    IS(mg_open_to_look(folder, NULL, NULL), MG_BAD_ARGUMENT);
    IS(mg_open_to_look(folder, &host, &disk), MG_UNREADABLE);
    IS(disk, 0);
    mg_close(NULL);
    IS(mg_set_tries(NULL, 1), MG_BAD_ARGUMENT);
    IS(mg_enqueue(NULL, 1, 1, 1, MG_EX, "a", 0, NULL), MG_BAD_ARGUMENT);
    IS(mg_convert(NULL, 1, 1, 1, MG_EX, 0, NULL), MG_BAD_ARGUMENT);
    IS(mg_release(NULL, 1, 1, 1, NULL), MG_BAD_ARGUMENT);
    IS(mg_cancel(NULL, 1, 1, 1, NULL), MG_BAD_ARGUMENT);
    IS(mg_status(NULL, 1, 1, 1, NULL), MG_BAD_ARGUMENT);
    IS(mg_purge(NULL, 1, 1, 1, NULL), MG_BAD_ARGUMENT);
    IS(mg_forget(NULL, 1, 1, 1, NULL), MG_BAD_ARGUMENT);
    IS(mg_refresh(NULL, NULL), MG_BAD_ARGUMENT);
    IS(mg_look(NULL, NULL), MG_BAD_ARGUMENT);
    IS(mg_look_each(NULL, follows, NULL, NULL), MG_BAD_ARGUMENT);
    IS(mg_mark(NULL, NULL), MG_BAD_ARGUMENT);
    IS(mg_wait(NULL, 1, 1, 1, NULL), MG_BAD_ARGUMENT);
    IS(mg_host_facts(NULL, NULL), MG_BAD_ARGUMENT);
    IS(mg_lock(NULL, 1, NULL), MG_BAD_ARGUMENT);
    IS(mg_locks(NULL, NULL, 0, NULL), MG_BAD_ARGUMENT);
    IS(mg_clients(NULL, NULL, 0, NULL), MG_BAD_ARGUMENT);
    IS(mg_text(NULL, NULL, 0, NULL), MG_BAD_ARGUMENT);
    IS(mg_disks(NULL, NULL, 0, NULL), MG_BAD_ARGUMENT);
}

/* What a command is asked, and the commands that are to refuse it: those that read the argument which is none. */
struct asked {
    unsigned commands;
    unsigned client;
    uint64_t request;
    unsigned lock;
    int mode;
    const char *name;
    unsigned flags;
    unsigned gone; /* the host that is purged, or the client that is forgotten */
};

enum { ENQUEUE = 1, CONVERT = 2, RELEASE = 4, CANCEL = 8, STATUS = 16, PURGE = 32, FORGET = 64, ALL = 127, OF_A_LOCK = ALL - PURGE - FORGET };

static int ask(struct mg_host *host, unsigned command, const struct asked *a, struct mg_answer *answer) {
    switch (command) {
    case ENQUEUE: return mg_enqueue(host, a->client, a->request, a->lock, a->mode, a->name, a->flags, answer);
    case CONVERT: return mg_convert(host, a->client, a->request, a->lock, a->mode, a->flags, answer);
    case RELEASE: return mg_release(host, a->client, a->request, a->lock, answer);
    case CANCEL: return mg_cancel(host, a->client, a->request, a->lock, answer);
    case STATUS: return mg_status(host, a->client, a->request, a->lock, answer);
    case PURGE: return mg_purge(host, a->client, a->request, a->gone, answer);
    default: return mg_forget(host, a->client, a->request, a->gone, answer);
    }
}

/* In each line one argument is none: below the least, above the greatest, and such that fewer bits of it would do. */
static void bad_commands(struct mg_host *host) {
    static const struct asked BAD[] = {
        {ALL, 256, 1, 1, MG_EX, "a", 0, 1},
        {ALL, (unsigned)-1, 1, 1, MG_EX, "a", 0, 1},
        {ALL, 1, 0, 1, MG_EX, "a", 0, 1},
        {ALL, 1, ((uint64_t)1 << 62) + 1, 1, MG_EX, "a", 0, 1},
        {ALL, 1, UINT64_MAX, 1, MG_EX, "a", 0, 1},
        {OF_A_LOCK, 1, 1, 0, MG_EX, "a", 0, 1},
        {OF_A_LOCK, 1, 1, 65536, MG_EX, "a", 0, 1},
        {OF_A_LOCK, 1, 1, 65537, MG_EX, "a", 0, 1},
        {ENQUEUE | CONVERT, 1, 1, 1, MG_NONE, "a", 0, 1},
        {ENQUEUE | CONVERT, 1, 1, 1, 6, "a", 0, 1},
        {ENQUEUE | CONVERT, 1, 1, 1, 256, "a", 0, 1},
        {ENQUEUE | CONVERT, 1, 1, 1, MG_EX, "a", 2, 1},
        {ENQUEUE | CONVERT, 1, 1, 1, MG_EX, "a", 256 + MG_NO_QUEUE, 1},
        {ENQUEUE, 1, 1, 1, MG_EX, NULL, 0, 1},
        {ENQUEUE, 1, 1, 1, MG_EX, "", 0, 1},
        {ENQUEUE, 1, 1, 1, MG_EX, "sixteen_bytes_ab", 0, 1},
        {ENQUEUE, 1, 1, 1, MG_EX, "a b", 0, 1},
        {ENQUEUE, 1, 1, 1, MG_EX, "a\x7f", 0, 1},
        {ENQUEUE, 1, 1, 1, MG_EX, "\xc3\xa4", 0, 1},
        {PURGE, 1, 1, 1, MG_EX, "a", 0, 16},
        {PURGE, 1, 1, 1, MG_EX, "a", 0, 256},
        {FORGET, 1, 1, 1, MG_EX, "a", 0, 256},
        {FORGET, 1, 1, 1, MG_EX, "a", 0, (unsigned)-1},
    };
    static char long_name[300];
    const struct asked long_named = {ENQUEUE, 1, 1, 1, MG_EX, long_name, 0, 1};
    struct mg_answer answer;
    uint64_t learned;
    for (unsigned command = ENQUEUE; command <= FORGET; command *= 2)
        for (size_t i = 0; i < sizeof BAD / sizeof BAD[0]; i++)
            if (BAD[i].commands & command) {
                memset(&answer, 9, sizeof answer);
                is_at((int)i + 1, ask(host, command, &BAD[i], &answer), MG_BAD_ARGUMENT);
                IS(answer.slot, -1);
                IS(answer.reply, MG_NO_REPLY);
                IS(answer.purged, 0);
                IS(answer.held, MG_NONE);
                IS(answer.wanted, MG_NONE);
                IS(ask(host, command, &BAD[i], NULL), MG_BAD_ARGUMENT);
            }
    memset(long_name, 'a', sizeof long_name - 1);
    IS(ask(host, ENQUEUE, &long_named, &answer), MG_BAD_ARGUMENT);
    IS(mg_set_tries(host, 0), MG_BAD_ARGUMENT);
    IS(mg_set_tries(host, 256), MG_BAD_ARGUMENT);
    IS(mg_wait(host, 1, 0, 1, NULL), MG_BAD_ARGUMENT);
    IS(mg_wait(host, 1, -1, 1, NULL), MG_BAD_ARGUMENT);
    IS(mg_wait(host, 0, 1, 1, NULL), MG_NO_SUCH_LOCK);
    IS(mg_wait(host, 65537, 1, 1, NULL), MG_NO_SUCH_LOCK);
    IS(mg_host_facts(host, NULL), MG_BAD_ARGUMENT);
    IS(mg_lock(host, 1, NULL), MG_BAD_ARGUMENT);
    IS(mg_locks(host, NULL, 1, NULL), MG_BAD_ARGUMENT);
    IS(mg_clients(host, NULL, 1, NULL), MG_BAD_ARGUMENT);
    IS(mg_text(host, NULL, 1, NULL), MG_BAD_ARGUMENT);
    IS(mg_disks(host, NULL, 1, NULL), MG_BAD_ARGUMENT);
    IS(mg_look(host, &learned), MG_OK);
    IS(learned, 0);
    IS(mg_refresh(host, &learned), MG_OK);
    IS(learned, 0);
    IS(mg_mark(host, &learned), MG_OK);
    IS(learned, 0);
}

static void commands(struct mg_host *first, struct mg_host *second) {
    struct mg_answer answer;
    struct mg_lock_view view, views[3];
    struct mg_client_view clients[4];
    struct mg_host_view facts;
    size_t count;
    uint64_t learned;
    char text[MG_TEXT_SIZE];
    int mode;
    IS(mg_set_tries(first, 255), MG_OK);
    IS(mg_enqueue(first, 1, 1, 1, MG_PR, "db", 0, &answer), MG_OK);
    IS(answer.slot, 0);
    IS(answer.reply, MG_GRANTED);
    IS(mg_enqueue(first, 1, 1, 1, MG_PR, "db", 0, &answer), MG_OK); /* again: the same reply, a slot of its own */
    IS(answer.slot, 1);
    IS(answer.reply, MG_GRANTED);
    IS(mg_enqueue(second, 2, 1, 2, MG_EX, "db", MG_NO_QUEUE, &answer), MG_NOT_QUEUED);
    IS(answer.slot, 2);
    IS(answer.reply, MG_REFUSED);
    IS(mg_enqueue(second, 2, 2, 2, MG_EX, "db", 0, &answer), MG_OK);
    IS(answer.reply, MG_QUEUED);
    IS(mg_wait(second, 2, 1, 5, &mode), MG_TIMED_OUT);
    IS(mode, MG_NONE);
    IS(mg_wait(second, 77, 1, 5, &mode), MG_NO_SUCH_LOCK);
    IS(mg_status(second, 2, 3, 2, &answer), MG_OK);
    IS(answer.reply, MG_STATE);
    IS(answer.held, MG_NONE);
    IS(answer.wanted, MG_EX);
    IS(mg_convert(first, 1, 2, 1, MG_NL, 0, &answer), MG_OK);
    IS(answer.reply, MG_GRANTED);
    IS(mg_wait(second, 2, 1, 1000, &mode), MG_OK);
    IS(mode, MG_EX);
    IS(mg_convert(first, 1, 3, 1, MG_CR, 0, &answer), MG_OK);
    IS(answer.reply, MG_QUEUED);
    IS(mg_wait(first, 1, 2, 3, &mode), MG_TIMED_OUT);
    IS(mg_lock(first, 0, &view), MG_NO_SUCH_LOCK);
    IS(mg_lock(first, 65537, &view), MG_NO_SUCH_LOCK); /* not lock 1 */
    IS(mg_lock(first, 1, &view), MG_OK);
    IS(view.held, MG_NL);
    IS(view.wanted, MG_CR);
    IS(view.client, 1);
    IS(view.host, 0);
    IS_TEXT(view.name, "db");
    IS(mg_cancel(first, 1, 4, 1, &answer), MG_OK);
    IS(answer.reply, MG_CANCELLED);
    IS(mg_wait(first, 1, 2, 1000, &mode), MG_OK); /* it converts no longer, and holds what it held */
    IS(mode, MG_NL);
    IS(mg_cancel(first, 1, 5, 1, &answer), MG_NOTHING_TO_CANCEL);
    IS(mg_release(first, 1, 4, 1, &answer), MG_STALE);
    IS(mg_release(first, 1, 6, 9, &answer), MG_NO_SUCH_LOCK);
    IS(mg_release(first, 1, 7, 2, &answer), MG_NOT_OWNER);
    IS(mg_enqueue(first, 1, 8, 3, MG_PR, "db", 0, &answer), MG_OK);
    IS(answer.reply, MG_QUEUED);
    IS(mg_cancel(first, 1, 9, 3, &answer), MG_OK);
    IS(mg_wait(first, 3, 1, 1000, &mode), MG_NO_SUCH_LOCK); /* it waited, and is gone */
    IS(mode, MG_NONE);
    IS(mg_enqueue(first, 1, 10, 1, MG_NL, "x", 0, &answer), MG_LOCK_IN_USE);
    IS(mg_look(second, &learned), MG_OK);
    IS(learned, 15);
    IS(mg_refresh(second, &learned), MG_OK);
    IS(learned, 15);
    IS(mg_locks(second, NULL, 0, &count), MG_OK);
    IS(count, 2);
    memset(views, 9, sizeof views);
    IS(mg_locks(second, views, 1, &count), MG_OK);
    IS(count, 2);
    IS(views[0].lock, 1);
    IS(views[1].lock, 0x09090909);
    IS(mg_locks(second, views, 3, &count), MG_OK);
    IS(views[1].lock, 2);
    IS(views[1].held, MG_EX);
    IS(mg_clients(second, clients, 4, &count), MG_OK);
    IS(count, 2);
    IS(clients[0].client, 1);
    IS(clients[0].request, 10);
    IS(clients[0].reply, MG_REFUSED);
    IS(clients[0].refusal, MG_LOCK_IN_USE);
    IS(clients[1].reply, MG_STATE);
    IS(clients[1].refusal, 0);
    IS(mg_text(second, text, sizeof text, &count), MG_OK);
    IS_TEXT(text, "db\n  granted 1 1 0 NL\n  granted 2 2 1 EX\n");
    IS(count, strlen(text));
    IS(mg_text(second, text, 4, &count), MG_OK);
    IS_TEXT(text, "db\n");
    IS(count, 41);
    IS(mg_text(second, NULL, 0, &count), MG_OK);
    IS(count, 41);
    IS(mg_host_facts(second, &facts), MG_OK);
    IS(facts.cluster, 7);
    IS(facts.host, 1);
    IS(facts.disks, 3);
    IS(facts.slots, 18);
    IS(facts.learned, 15);
    IS(mg_purge(first, 1, 11, 1, &answer), MG_OK);
    IS(answer.reply, MG_PURGED);
    IS(answer.purged, 1);
    IS(mg_release(first, 1, 12, 1, NULL), MG_OK);
    IS(mg_status(first, 1, 13, 1, &answer), MG_NO_SUCH_LOCK);
    IS(mg_status(first, 1, 14, 1, &answer), MG_LOG_FULL);
    IS(answer.slot, -1);
    IS(mg_text(first, text, sizeof text, NULL), MG_OK);
    IS_TEXT(text, "empty\n");
}

/* Without a number, beside those that have theirs: it learns what is marked, and does no more. */
static void only_looks(const char *folder) {
    struct mg_host *eye, *other;
    struct mg_answer answer;
    struct mg_value value = {{0}, 0};
    uint64_t learned = 5, next = 0;
    IS(mg_open_to_look(folder, &eye, NULL), MG_OK);
    IS(mg_open_to_look(folder, &other, NULL), MG_OK);
    IS(mg_look(eye, &learned), MG_OK);
    IS(learned, 18);
    IS(mg_look_each(other, NULL, NULL, NULL), MG_BAD_ARGUMENT);
    IS(mg_look_each(other, follows, &next, &learned), MG_OK);
    IS(learned, 18);
    IS(next, 19);
    next = 18; /* nothing is new */
    IS(mg_look_each(other, follows, &next, NULL), MG_OK);
    IS(next, 19);
    IS(mg_look(other, NULL), MG_OK);
    IS(next, 19);
    mg_close(other);
    IS(mg_wait(eye, 1, 1, 0, NULL), MG_NO_SUCH_LOCK);
    IS(mg_value(eye, 1, &value), MG_NO_SUCH_LOCK);
    IS(mg_refresh(eye, &learned), MG_ONLY_LOOKS);
    IS(learned, 0);
    IS(mg_mark(eye, NULL), MG_ONLY_LOOKS);
    IS(mg_enqueue(eye, 1, 99, 1, MG_EX, "db", 0, &answer), MG_ONLY_LOOKS);
    IS(answer.slot, -1);
    IS(mg_convert(eye, 1, 99, 1, MG_EX, 0, NULL), MG_ONLY_LOOKS);
    IS(mg_convert_value(eye, 1, 99, 1, MG_EX, 0, "0123456789abcdef", NULL), MG_ONLY_LOOKS);
    IS(mg_release(eye, 1, 99, 1, NULL), MG_ONLY_LOOKS);
    IS(mg_release_value(eye, 1, 99, 1, "0123456789abcdef", NULL), MG_ONLY_LOOKS);
    IS(mg_cancel(eye, 1, 99, 1, NULL), MG_ONLY_LOOKS);
    IS(mg_status(eye, 1, 99, 1, NULL), MG_ONLY_LOOKS);
    IS(mg_purge(eye, 1, 99, 1, NULL), MG_ONLY_LOOKS);
    IS(mg_forget(eye, 1, 99, 1, NULL), MG_ONLY_LOOKS);
    mg_close(eye);
}

int main(int argc, char **argv) {
    struct mg_host *first, *second;
    int status, disk;
    if (argc != 2)
        return 2;
    bad_arguments(argv[1]);
    IS(mg_format(argv[1], 3, 18, 7, &disk), MG_OK);
    IS(disk, -1);
    IS(mg_format(argv[1], 3, 18, 7, &disk), MG_ALREADY_THERE);
    IS(mg_open(argv[1], 0, &first, &disk), MG_OK);
    IS(disk, -1);
    IS(mg_open(argv[1], 0, &second, &disk), MG_HOST_IN_USE);
    IS(second == NULL, 1);
    IS(disk, -1);
    IS(mg_open(argv[1], 1, &second, NULL), MG_OK);
    bad_commands(first);
    commands(first, second);
    only_looks(argv[1]);
    mg_close(first);
    IS(mg_open(argv[1], 0, &first, NULL), MG_OK);
    mg_close(first);
    IS(mg_open(argv[1], 11, &first, NULL), MG_OK); /* not the number of the second, which is 1 */
    mg_close(first);
    mg_close(second);
    for (status = -100; status < 100; status++)
        IS(mg_strerror(status) != NULL && mg_name(status) != NULL, 1);
    IS_TEXT(mg_name(7), "NoMajority");
    IS_TEXT(mg_version(), "0.8");
    if (failures == 0)
        puts("calls: as they should be");
    return failures != 0;
}
