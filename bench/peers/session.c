/*
 * session.c: what bench/peers/peers.py cannot do by itself.
 *
 *     session time KIND TARGET TURNS SECONDS   holds one session open, takes and releases a lock again and again, and prints the
 *                                              nanoseconds of each turn, one a line. It ends after TURNS turns or SECONDS seconds
 *     session contend KIND TARGET CLIENTS TURNS SECONDS
 *                                              so many processes want one lock, each with a session of its own. Prints the nanoseconds from
 *                                              their common start to their end, over the turns of all. Each ends as above
 *     session note FILE [hold]                 makes the file; with `hold` it then waits until it is killed
 *
 * KIND is one of the table near the end. TARGET is a folder of images, a file, ADDRESS:PORT, or words for libpq.
 */
#ifndef _GNU_SOURCE
#define _GNU_SOURCE
#endif
#include <arpa/inet.h>
#include <errno.h>
#include <fcntl.h>
#include <netinet/tcp.h>
#include <stdbool.h>
#include <stdint.h>
#include <stdio.h>
#include <stdlib.h>
#include <string.h>
#include <sys/file.h>
#include <sys/mman.h>
#include <sys/socket.h>
#include <sys/wait.h>
#include <time.h>
#include <unistd.h>

#include <libpq-fe.h>
#include <mg_session.h>
#include <sanlock.h>
#include <sanlock_resource.h>

enum { AREA = 1 << 20, LOCK_NUMBERS = 1000 };

static const char *target;
static unsigned client; /* of those that contend; it is the number of its host, too */

/* Ends the program where something failed. */
static void expect(bool holds, const char *what, long status) {
    if (!holds) {
        fprintf(stderr, "session: %s: %ld, errno %d\n", what, status, errno);
        exit(1);
    }
}

/* Between two tries where others have the lock, and nobody can wait. */
static void pause_shortly(void) {
    const struct timespec length = {0, 1000000};
    nanosleep(&length, NULL);
}

static int64_t nanoseconds(void) {
    struct timespec at = {0, 0};
    clock_gettime(CLOCK_MONOTONIC, &at);
    return (int64_t)at.tv_sec * 1000000000 + at.tv_nsec;
}

/* ---- this project: a session, and the commands that sessions are made of ---- */

static struct mg_session *session;
static struct mg_held held;
static struct mg_host *host;
static uint64_t request;
static unsigned lock_number;

static void session_begin(void) {
    int status;
    do
        status = mg_begin(target, client, 0, &session, NULL);
    while (status == MG_OUTRUN);
    expect(status == MG_OK, "mg_begin", status);
}

static void session_take(void) {
    int status = mg_take(session, "db", MG_EX, -1, &held);
    expect(status == MG_OK, "mg_take", status);
}

static void session_give(void) {
    int status;
    do
        status = mg_give(session, held.lock, NULL);
    while (status == MG_OUTRUN);
    expect(status == MG_OK, "mg_give", status);
}

static void commands_begin(void) {
    int status = mg_open(target, client, &host, NULL);
    expect(status == MG_OK, "mg_open", status);
    do
        status = mg_refresh(host, NULL);
    while (status == MG_OUTRUN);
    expect(status == MG_OK, "mg_refresh", status);
}

static void commands_take(void) {
    struct mg_answer answer = {0};
    int status;
    lock_number = 1 + client * LOCK_NUMBERS + (unsigned)(request / 2 % LOCK_NUMBERS);
    request++;
    do
        status = mg_enqueue(host, 1 + client, request, lock_number, MG_EX, "db", 0, &answer);
    while (status == MG_OUTRUN);
    expect(status == MG_OK, "mg_enqueue", status);
    if (answer.reply == MG_QUEUED)
        status = mg_wait(host, lock_number, 5, -1, NULL);
    expect(status == MG_OK, "mg_wait", status);
}

static void commands_give(void) {
    int status;
    request++;
    do
        status = mg_release(host, 1 + client, request, lock_number, NULL);
    while (status == MG_OUTRUN);
    expect(status == MG_OK, "mg_release", status);
}

/* ---- flock: a lock of the kernel ---- */

static int file;

static void file_begin(void) {
    file = open(target, O_RDWR | O_CREAT | O_CLOEXEC, 0600);
    expect(file >= 0, target, file);
}

static void flock_take(void) { expect(flock(file, LOCK_EX) == 0, "flock", LOCK_EX); }
static void flock_give(void) { expect(flock(file, LOCK_UN) == 0, "flock", LOCK_UN); }

/* ---- sanlock: the lease n0 in the second MiB of a file, behind the lockspace ---- */

static int registered;
static char room[sizeof(struct sanlk_resource) + sizeof(struct sanlk_disk)];
static struct sanlk_resource *lease = (struct sanlk_resource *)room;

static void sanlock_begin(void) {
    registered = sanlock_register();
    expect(registered >= 0, "sanlock_register", registered);
    strcpy(lease->lockspace_name, "peers");
    strcpy(lease->name, "n0");
    lease->num_disks = 1;
    snprintf(lease->disks[0].path, sizeof lease->disks[0].path, "%s", target);
    lease->disks[0].offset = AREA;
}

/* -EEXIST: another process of this host has it. */
static void sanlock_take(void) {
    int status;
    while ((status = sanlock_acquire(registered, -1, 0, 1, &lease, NULL)) == -EEXIST || status == -EBUSY || status == -EAGAIN)
        pause_shortly();
    expect(status >= 0, "sanlock_acquire", status);
}

static void sanlock_give(void) {
    int status = sanlock_release(registered, -1, 0, 1, &lease);
    expect(status >= 0, "sanlock_release", status);
}

/* ---- servers over one connection ---- */

static int wire;
static char got[65536];
static size_t have;

static void wire_begin(void) {
    struct sockaddr_in to = {.sin_family = AF_INET};
    char address[64];
    int port, one = 1;
    expect(sscanf(target, "%63[^:]:%d", address, &port) == 2 && inet_pton(AF_INET, address, &to.sin_addr) == 1, target, 0);
    to.sin_port = htons((uint16_t)port);
    wire = socket(AF_INET, SOCK_STREAM | SOCK_CLOEXEC, 0);
    setsockopt(wire, IPPROTO_TCP, TCP_NODELAY, &one, sizeof one);
    expect(connect(wire, (struct sockaddr *)&to, sizeof to) == 0, target, wire);
}

static void put(const char *text) {
    for (size_t length = strlen(text); length > 0;) {
        ssize_t written = write(wire, text, length);
        expect(written > 0, "write", written);
        text += written;
        length -= (size_t)written;
    }
    have = 0;
}

static void get_more(void) {
    ssize_t more = read(wire, got + have, sizeof got - 1 - have);
    expect(more > 0, "read", more);
    have += (size_t)more;
    got[have] = '\0';
}

/* Sends etcd's HTTP gateway one request, and gives the body of its answer. */
static const char *ask_etcd(const char *path, const char *body) {
    static char text[2048];
    char *end, *length;
    snprintf(text, sizeof text, "POST %s HTTP/1.1\r\nHost: etcd\r\nContent-Length: %zu\r\n\r\n%s", path, strlen(body), body);
    put(text);
    do {
        get_more();
        end = strstr(got, "\r\n\r\n");
        length = end ? strcasestr(got, "content-length:") : NULL;
        expect(!end || (length && length < end && strncmp(got, "HTTP/1.1 200", 12) == 0), got, 0);
    } while (!end || strlen(end + 4) < strtoul(length + 15, NULL, 10));
    return end + 4;
}

static void copy_field(const char *body, const char *field, char *into, size_t size) {
    const char *at = strstr(body, field);
    size_t length = at ? strcspn(at += strlen(field), "\"") : size;
    expect(length < size, body, 0);
    memcpy(into, at, length);
    into[length] = '\0';
}

static char etcd_lease[64], etcd_key[256];

static void etcd_begin(void) {
    wire_begin();
    copy_field(ask_etcd("/v3/lease/grant", "{\"TTL\":600}"), "\"ID\":\"", etcd_lease, sizeof etcd_lease);
}

/* ZGI= is "db" in base 64. */
static void etcd_take(void) {
    char body[256];
    snprintf(body, sizeof body, "{\"name\":\"ZGI=\",\"lease\":\"%s\"}", etcd_lease);
    copy_field(ask_etcd("/v3/lock/lock", body), "\"key\":\"", etcd_key, sizeof etcd_key);
}

static void etcd_give(void) {
    char body[512];
    snprintf(body, sizeof body, "{\"key\":\"%s\"}", etcd_key);
    ask_etcd("/v3/lock/unlock", body);
}

static bool ask_redis(const char *text, const char *wanted) {
    put(text);
    do
        get_more();
    while (!strstr(got, "\r\n"));
    return strncmp(got, wanted, strlen(wanted)) == 0;
}

static void redis_take(void) {
    while (!ask_redis("SET db 1 NX PX 600000\r\n", "+OK")) {
        expect(strncmp(got, "$-1", 3) == 0, got, 0);
        pause_shortly();
    }
}

static void redis_give(void) { expect(ask_redis("DEL db\r\n", ":1"), got, 0); }

static PGconn *postgres;

static void postgres_begin(void) {
    postgres = PQconnectdb(target);
    expect(PQstatus(postgres) == CONNECTION_OK, PQerrorMessage(postgres), 0);
}

static void ask_postgres(const char *text) {
    PGresult *result = PQexec(postgres, text);
    expect(PQresultStatus(result) == PGRES_TUPLES_OK, PQerrorMessage(postgres), 0);
    PQclear(result);
}

static void postgres_take(void) { ask_postgres("SELECT pg_advisory_lock(1)"); }
static void postgres_give(void) { ask_postgres("SELECT pg_advisory_unlock(1)"); }

/* ---- turns ---- */

static const struct kind {
    const char *name;
    void (*begin)(void), (*take)(void), (*give)(void);
} KINDS[] = {
    {"session", session_begin, session_take, session_give},
    {"commands", commands_begin, commands_take, commands_give},
    {"flock", file_begin, flock_take, flock_give},
    {"sanlock", sanlock_begin, sanlock_take, sanlock_give},
    {"etcd", etcd_begin, etcd_take, etcd_give},
    {"redis", wire_begin, redis_take, redis_give},
    {"postgres", postgres_begin, postgres_take, postgres_give},
};

static const struct kind *kind_of(const char *name) {
    const struct kind *kind = NULL;
    for (size_t i = 0; i < sizeof KINDS / sizeof KINDS[0]; i++)
        if (strcmp(KINDS[i].name, name) == 0)
            kind = &KINDS[i];
    expect(kind, name, 0);
    return kind;
}

/* How many turns there were; where `times` is not NULL the nanoseconds of each. */
static long take_turns(const struct kind *kind, long turns, double seconds, int64_t *times) {
    int64_t began = nanoseconds();
    long done = 0;
    while (done < turns && (double)(nanoseconds() - began) < seconds * 1e9) {
        int64_t before = nanoseconds();
        kind->take();
        kind->give();
        if (times)
            times[done] = nanoseconds() - before;
        done++;
    }
    mg_end(session);
    mg_close(host);
    return done;
}

static void time_turns(const char *name, long turns, double seconds) {
    const struct kind *kind = kind_of(name);
    int64_t *times = calloc((size_t)turns, sizeof *times);
    long done;
    expect(times, name, turns);
    kind->begin();
    done = take_turns(kind, turns, seconds, times);
    for (long i = 0; i < done; i++)
        printf("%lld\n", (long long)times[i]);
}

static void contend(const char *name, int clients, long turns, double seconds) {
    const struct kind *kind = kind_of(name);
    struct {
        int ready;
        long turns;
        int64_t began, ended;
    } *all = mmap(NULL, sizeof *all, PROT_READ | PROT_WRITE, MAP_SHARED | MAP_ANONYMOUS, -1, 0);
    expect(all != MAP_FAILED, "mmap", 0);
    for (int number = 0; number < clients; number++)
        if (fork() == 0) {
            client = (unsigned)number;
            kind->begin();
            if (__atomic_add_fetch(&all->ready, 1, __ATOMIC_SEQ_CST) == clients)
                __atomic_store_n(&all->began, nanoseconds(), __ATOMIC_SEQ_CST);
            while (__atomic_load_n(&all->began, __ATOMIC_SEQ_CST) == 0)
                pause_shortly();
            __atomic_add_fetch(&all->turns, take_turns(kind, turns, seconds, NULL), __ATOMIC_SEQ_CST);
            _exit(0);
        }
    for (int number = 0, status; number < clients; number++)
        expect(wait(&status) > 0 && status == 0, name, status);
    printf("%lld\n", (long long)(nanoseconds() - all->began) / (all->turns > 0 ? all->turns : 1));
}

int main(int argc, char **argv) {
    const char *word = argc > 1 ? argv[1] : "";
    if (strcmp(word, "time") == 0 && argc == 6 && atol(argv[4]) > 0) {
        target = argv[3];
        time_turns(argv[2], atol(argv[4]), atof(argv[5]));
    } else if (strcmp(word, "contend") == 0 && argc == 7 && atoi(argv[4]) > 0 && atol(argv[5]) > 0) {
        target = argv[3];
        contend(argv[2], atoi(argv[4]), atol(argv[5]), atof(argv[6]));
    } else if (strcmp(word, "note") == 0 && argc >= 3) {
        int made = open(argv[2], O_WRONLY | O_CREAT | O_CLOEXEC, 0600);
        expect(made >= 0, argv[2], made);
        while (argc > 3)
            pause();
    } else {
        fputs("session: the head of session.c says its words\n", stderr);
        return 2;
    }
    return fflush(stdout) != 0;
}
