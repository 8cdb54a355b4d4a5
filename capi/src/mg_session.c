/*
 * Sessions, over midgegalena.h and claim.h. No proof covers this file. What keeps it right:
 *
 * - A *talk* is what a session does while it has the host number. Talks of a number do not overlap. Without MG_SHARE a session is one
 *   talk, but for the moment in which it opens the folder anew after a failure. With it each call opens the folder for a talk, and a
 *   wait looks by a handle that has no number. If marks do not tell the table of a log without an end, it takes the number for that look.
 * - What a session does for a lock is decided by a proved claim (claim.h, crates/session), and which locks of processes that are gone it releases or purges
 *   by a proved cleanup (crates/cleanup). Here is done what these order, and they are told what came of it.
 * - As long as a lock is somebody's, its sign of life is locked by flock: the file mg-lock.SET.HOST.LOCK in the folder, SET being the
 *   cluster number. Signs are made before the lock is asked for and removed after it is gone, within talks. A lock whose sign is there, and
 *   nobody's, is left over. What sets of an earlier life of the folder left there are no signs of its locks. A lock without a sign may be
 *   somebody's: a renewal carries locks over, and no signs.
 * - A lock's number follows from its request's. It is odd with MG_SHARE, even without. A session with MG_SHARE leaves even ones alone:
 *   they may be kept for a session that begins again.
 */
#ifndef _DEFAULT_SOURCE
#define _DEFAULT_SOURCE
#endif
#ifndef _XOPEN_SOURCE
#define _XOPEN_SOURCE 700
#endif

#include "mg_session.h"

#include "claim.h"

#include <dirent.h>
#include <errno.h>
#include <fcntl.h>
#include <inttypes.h>
#include <stdbool.h>
#include <stdio.h>
#include <stdlib.h>
#include <string.h>
#include <sys/file.h>
#include <sys/random.h>
#include <sys/stat.h>
#include <time.h>
#include <unistd.h>

enum { FIRST_CLIENT = 240, FIRST_LOCK = 1536, LOCKS_OF_A_HOST = 4000, NO_SIGN = -1, LEAST_FILE = 3, MOST_REMOVALS = 9 };
enum { PATIENCE = 60000, LITTLE_PATIENCE = 5000, GRACE = 100, FIRST_INTERVAL = 5, SHORT_PAUSE = 20, LONGEST_PAUSE = 200, TIDY_TIME = 200 }; /* milliseconds */
enum { BETWEEN_TALKS = 1000, WITHOUT_NEWS = 2000 }; /* the same */
enum { OF_A_WAIT = 8 }; /* whoever waited for its turn to look pauses so many times as long, so that others have theirs */

static const struct claim_value NO_VALUE = {{0}};

/* OURS: taken, or being taken. KEPT: a former run left it. UNWANTED: to be released once that can be done. */
enum state { FREE, OURS, KEPT, UNWANTED };

/* Whose a sign of life is: this session's, which has locked it; another process's; nobody's, since it is not there; or that could not be seen, and errno
 * tells why. */
enum owner { MINE, OTHERS, NOBODYS, UNKNOWN };

struct entry {
    enum state state;
    struct claim claim;
    uint32_t lock;    /* 0: none is chosen yet */
    int mode;
    int sign;
    char name[MG_NAME_LENGTH + 1];
};

struct mg_session {
    char *at;             /* the folder's own path: a link is followed once */
    bool is_begun;        /* its images were opened once */
    uint64_t set;         /* their cluster number */
    struct mg_host *host; /* of a talk */
    struct mg_host *eye;  /* with MG_SHARE, to look */
    bool is_endless;      /* the log of the folder that was opened last */
    bool is_worn;         /* the host is to be opened anew */
    bool has_unwanted;    /* an entry is UNWANTED, or was */
    bool has_unmarked;    /* a mark was refused, and was not made up for */
    bool is_told;         /* to stop, in the take that is under way */
    bool is_resting;      /* by the caller's function */
    unsigned number, flags;
    unsigned stay; /* locks of processes that are gone, or may be, which could not be released */
    int cause;     /* errno, where the sign of life of one of these could not be locked */
    uint64_t request; /* the last */
    int interval;
    int (*rest)(void *with, int milliseconds);
    void *with;
    struct entry entries[MG_LOCKS];
    struct mg_lock_view table[MG_LOCKS]; /* as it was looked at last */
};

/* ---- time ---- */

static int64_t milliseconds(void) { return microseconds() / 1000; }

static unsigned any_below(unsigned bound) {
    uint32_t part;
    if (getrandom(&part, sizeof part, 0) != (ssize_t)sizeof part)
        part = (uint32_t)getpid() * 2654435761u;
    return part % bound;
}

/* Pauses by the caller's function. Whether the caller wants it to go on. */
static bool rests(struct mg_session *session, int64_t length) {
    session->is_resting = true;
    session->is_told = session->rest(session->with, (int)length) != 0;
    session->is_resting = false;
    return !session->is_told;
}

/* MG_OK after so long, or at `until`; MG_TIMED_OUT where that is past. A wait that may be stopped pauses as the caller wants it, until it is told to stop. */
static int pause_for(struct mg_session *session, int64_t length, int64_t until, bool stops) {
    int64_t left = until - milliseconds();
    if (left <= 0)
        return MG_TIMED_OUT;
    if (length > left)
        length = left;
    if (stops && session->rest && !session->is_told) {
        /* By short pauses: only between two of them the caller is asked. */
        for (; length > SHORT_PAUSE; length -= SHORT_PAUSE)
            if (!rests(session, SHORT_PAUSE))
                return MG_STOPPED;
        return rests(session, length) ? MG_OK : MG_STOPPED;
    }
    sleep_for(length * 1000);
    return MG_OK;
}

/* ---- talks ---- */

static bool is_shared(const struct mg_session *session) { return (session->flags & MG_SHARE) != 0; }

static void close_all(struct mg_session *session) {
    mg_close(session->host);
    mg_close(session->eye);
    session->host = session->eye = NULL;
}

/* Closes what is open where the folder has other images by now. */
static void look_at_images(struct mg_session *session) {
    struct mg_host *open = session->host ? session->host : session->eye;
    if (open && !has_images_of(open, session->at))
        close_all(session);
}

/* What claims know is of the log of one set. */
static int accept_set(struct mg_session *session, struct mg_host *host) {
    struct mg_host_view facts = {0, 0, 0, 0, 0, 0};
    int status = mg_host_facts(host, &facts);
    if (status != MG_OK)
        return status;
    if (session->is_begun && facts.cluster != session->set)
        return MG_WRONG_HEADER;
    /* The log was made endless in place. */
    if (session->eye && session->eye != host && session->is_endless != (facts.endless == 1)) {
        mg_close(session->eye);
        session->eye = NULL;
    }
    session->is_begun = true;
    session->set = facts.cluster;
    session->is_endless = facts.endless == 1;
    return MG_OK;
}

/* Opens the folder under the host number, unless it is open there. What it has learned then is all, or with MG_SHARE what marks tell. */
static int open_once(struct mg_session *session, int *disk) {
    int status;
    look_at_images(session);
    if (session->host && session->is_worn) {
        mg_close(session->host);
        session->host = NULL;
    }
    if (session->host)
        return MG_OK;
    session->is_worn = false;
    status = mg_open(session->at, session->number, &session->host, disk);
    if (status == MG_OK)
        status = accept_set(session, session->host);
    if (status == MG_OK)
        (void)mg_set_late_marks(session->host, (session->flags & MG_LATE) != 0);
    if (status == MG_OK)
        status = is_shared(session) ? mg_look(session->host, NULL) : learn_all(session->host, LONGEST_PAUSE);
    /* As an epoch began. The host does not know the table then, and what is done next finds it. */
    if (status == MG_OUTRUN && is_shared(session))
        status = MG_OK;
    if (status != MG_OK) {
        mg_close(session->host);
        session->host = NULL;
    }
    return status;
}

/* Learns all that was acknowledged, and marks it. */
static int mark_all(struct mg_host *host, int64_t until) {
    int status;
    do
        status = mg_mark(host, NULL);
    while (status == MG_OUTRUN && milliseconds() < until);
    return status;
}

/* An image that failed is given up by its host. */
static void wear(struct mg_session *session, int status) { session->is_worn |= status == MG_NO_MAJORITY || status == MG_BROKEN; }

static void end_talk(struct mg_session *session) {
    if (is_shared(session)) {
        mg_close(session->host);
        session->host = NULL;
    }
}

/* Marks what the host that is open has left without a mark. */
static int mark_taken(struct mg_session *session) {
    int status;
    if ((session->flags & MG_LATE) == 0 || !session->host)
        return MG_OK;
    status = mg_mark_now(session->host);
    session->has_unmarked |= status != MG_OK;
    wear(session, status);
    end_talk(session);
    return status;
}

/* The same, and with MG_SHARE it waits for its turn, unless the number is another machine's. */
static int begin_talk(struct mg_session *session, int64_t until, int *disk) {
    (void)mark_taken(session);
    for (;;) {
        int status = open_once(session, disk);
        bool may_pass = status == MG_OUTRUN || (status == MG_HOST_IN_USE && is_shared(session) && errno != EREMOTE);
        if (!may_pass || pause_for(session, 1 + any_below(16), until, false) != MG_OK)
            return status;
    }
}

static int open_eye(struct mg_session *session, int *disk) {
    int status = open_to_visit(session->at, session->number, &session->eye, disk);
    if (status == MG_OK)
        status = accept_set(session, session->eye);
    if (status != MG_OK) {
        mg_close(session->eye);
        session->eye = NULL;
    }
    return status;
}

/* What a wait looks by: with MG_SHARE without the host number. */
static int open_to_look(struct mg_session *session, struct mg_host **looks) {
    int status = is_shared(session) ? MG_OK : open_once(session, NULL);
    if (is_shared(session))
        look_at_images(session);
    if (is_shared(session) && !session->eye)
        status = open_eye(session, NULL);
    *looks = status != MG_OK ? NULL : is_shared(session) ? session->eye : session->host;
    return status;
}

/* Whether a look by that may take the number for a moment. */
static bool looks_in_talks(const struct mg_session *session) { return is_shared(session) && session->is_endless; }

/* ---- the table ---- */

/* How many locks the table has, which are in session->table then; none where memory was refused. */
static size_t read_table(struct mg_session *session, struct mg_host *host, int *status) {
    size_t count = 0;
    *status = mg_locks(host, session->table, MG_LOCKS, &count);
    if (*status != MG_OK)
        return 0;
    return count < MG_LOCKS ? count : MG_LOCKS;
}

/* Whether a session of this host number asked for the lock. */
static bool is_of(const struct mg_lock_view *view, unsigned number) {
    uint32_t first = FIRST_LOCK + LOCKS_OF_A_HOST * number;
    return view->client == FIRST_CLIENT + number && view->host == number && view->lock >= first && view->lock < first + LOCKS_OF_A_HOST;
}

/* Whether it was asked for with MG_SHARE. */
static bool was_shared(uint32_t lock) { return lock % 2 == 1; }

static struct entry *entry_of(struct mg_session *session, uint32_t lock) {
    for (size_t i = 0; i < MG_LOCKS; i++)
        if (lock != 0 && session->entries[i].state != FREE && session->entries[i].lock == lock)
            return &session->entries[i];
    return NULL;
}

/* ---- signs of life ---- */

/* The path of a lock's sign in the folder that is open. Where there is none, for lack of room or memory, it is empty: nothing is found or made there. */
static bool path_of_sign(const struct mg_session *session, unsigned number, uint32_t lock, char *into, size_t size) {
    struct mg_host *open = session->host ? session->host : session->eye;
    size_t length = (size_t)snprintf(into, size, "%s/", session->at);
    int status = open && length < size ? sign_name(open, number, lock, into + length, size - length) : MG_BAD_ARGUMENT;
    if (status == MG_OK)
        return true;
    into[0] = '\0';
    errno = status == MG_NO_MEMORY ? ENOMEM : ENAMETOOLONG;
    return false;
}

/* It follows no link, which may lead to what is no sign, and waits for nobody, as opening a pipe would. */
static int open_sign(const char *path, int flags) {
    int file = open(path, flags | O_CLOEXEC | O_NOCTTY | O_NOFOLLOW | O_NONBLOCK, 0666), low = file;
    if (file < 0 || file >= LEAST_FILE)
        return file;
    file = fcntl(low, F_DUPFD_CLOEXEC, LEAST_FILE);
    close(low);
    return file;
}

static bool is_same(const struct stat *one, const struct stat *other) { return one->st_dev == other->st_dev && one->st_ino == other->st_ino; }

/* Whether the file has this name no more: somebody removed it before it was locked. Elsewhere it may have one. */
static bool is_removed(int file, const char *path) {
    struct stat ours, there;
    if (fstat(file, &ours) != 0 || ours.st_nlink == 1)
        return false;
    return ours.st_nlink == 0 || (stat(path, &there) == 0 ? !is_same(&ours, &there) : errno == ENOENT);
}

static enum owner take_once(const char *path, bool makes, int *sign) {
    int file = open_sign(path, O_RDWR | (makes ? O_CREAT : 0)), done, cause;
    if (file < 0 && errno == EACCES)
        file = open_sign(path, O_RDONLY);
    if (file < 0)
        return errno == ENOENT && !makes ? NOBODYS : UNKNOWN;
    do
        done = flock(file, LOCK_EX | LOCK_NB);
    while (done != 0 && errno == EINTR);
    if (done == 0 && !is_removed(file, path)) {
        *sign = file;
        return MINE;
    }
    cause = errno;
    close(file);
    errno = cause;
    if (done == 0)
        return NOBODYS;
    return cause == EWOULDBLOCK ? OTHERS : UNKNOWN;
}

/* Locks a file, which is made where `makes`, and tells whose it is. Where it is not this session's, `*sign` is NO_SIGN. UNKNOWN with EBUSY: somebody removed it
 * each time before it was locked. */
static enum owner take_file(const char *path, bool makes, int *sign) {
    *sign = NO_SIGN;
    for (int tries = 0; tries < MOST_REMOVALS; tries++) {
        enum owner owner = take_once(path, makes, sign);
        if (owner != NOBODYS || !makes)
            return owner;
    }
    errno = EBUSY;
    return UNKNOWN;
}

/* The same of a lock's sign. UNKNOWN with ENOMEM: there is no memory for its path. */
static enum owner take_sign(const struct mg_session *session, unsigned number, uint32_t lock, bool makes, int *sign) {
    char path[4200];
    *sign = NO_SIGN;
    return path_of_sign(session, number, lock, path, sizeof path) ? take_file(path, makes, sign) : UNKNOWN;
}

/* Why a sign is UNKNOWN, by session->cause. */
static int unknown(const struct mg_session *session) { return session->cause == ENOMEM ? MG_NO_MEMORY : MG_NO_LOCK; }

static void end_sign(const struct mg_session *session, uint32_t lock, int sign) {
    char path[4200];
    if (sign == NO_SIGN)
        return;
    path_of_sign(session, session->number, lock, path, sizeof path);
    (void)unlink(path);
    close(sign);
}

/* Whether the name is that of a sign of this host number which is no lock's: of no lock in the table, of another set, or as the version before
 * this one named them, without a set. */
static bool is_old_sign(struct mg_session *session, const char *name) {
    unsigned long long set = 0;
    unsigned number, lock;
    struct mg_lock_view view;
    int length = 0;
    bool has_set = sscanf(name, "mg-lock.%20llu.%5u.%5u%n", &set, &number, &lock, &length) == 3;
    if (!has_set && sscanf(name, "mg-lock.%5u.%5u%n", &number, &lock, &length) != 2)
        return false;
    if (name[length] != '\0' || number != session->number)
        return false;
    return !has_set || set != session->set ||
           (!entry_of(session, lock) && mg_lock(session->host, lock, &view) == MG_NO_SUCH_LOCK);
}

/* Removes such signs that nobody has. A command that comes into the log all the same leaves a lock without a sign. So they stay elsewhere: of a
 * set there are no more of them than a host has lock numbers, and each serves the next lock of its number. */
static void remove_old_signs(struct mg_session *session) {
    DIR *folder = opendir(session->at);
    struct dirent *found;
    while (folder && (found = readdir(folder))) {
        char path[4400];
        int sign;
        if (!is_old_sign(session, found->d_name))
            continue;
        (void)snprintf(path, sizeof path, "%s/%s", session->at, found->d_name);
        if (take_file(path, false, &sign) != MINE)
            continue;
        (void)unlink(path);
        close(sign);
    }
    if (folder)
        closedir(folder);
}

/* ---- locks that are left over ---- */

/* Whether a lock that nobody has any more holds a mode on the name. */
static bool holds_nobodys(struct mg_session *session, struct mg_host *looks, const char *name) {
    int status;
    size_t count = read_table(session, looks, &status);
    for (size_t i = 0; i < count; i++) {
        const struct mg_lock_view *view = &session->table[i];
        int sign;
        if (view->held == MG_NONE || strcmp(view->name, name) != 0 || !is_of(view, session->number) || entry_of(session, view->lock))
            continue;
        if (is_shared(session) && !was_shared(view->lock))
            continue;
        if (take_sign(session, session->number, view->lock, false, &sign) != MINE)
            continue;
        close(sign);
        return true;
    }
    return false;
}

/* ---- what a claim orders ---- */

/* An operation on a claim: until when, and whether the caller may stop it; how it ended, and what it did besides. */
struct work {
    int64_t until;
    bool stops;
    bool is_part; /* of another operation, whose talk goes on */
    bool is_take; /* it may be marked later, and its talk ends then */
    bool is_over; /* it was told to end soon */
    bool is_vain; /* the host number is another machine's, or was somebody else's for too long */
    int64_t in_use_since; /* the host number is somebody else's, and nothing goes on without it; 0: it is not */
    uint64_t seen;        /* the last write to the images before a look that took the number; 0: it took none, or that is not known */
    int64_t waited;       /* how long it waited for its turn to look, in milliseconds */
    uint64_t learned;     /* how many commands such a look had learned when there was news last */
    int64_t recovers;     /* when it recovers, unless there is news before; 0: nothing was learned yet */
    int cause;            /* errno, where the folder could not be opened */
    struct due_order end;
    unsigned released;
    uint64_t slots_left;
    struct mg_value value;
};

static void release_unwanted(struct mg_session *session, int64_t until, bool is_part, bool stops);
static struct cleanup release_left(struct mg_session *session, bool all, int64_t until, bool stops);
static bool release_some(struct mg_session *session, const char *name, int64_t last, struct work *work);

static struct asker asker_of(const struct mg_session *session) {
    struct asker asker = {0, 0, 0, 0, 0};
    asker.request = session->request;
    asker.host = session->number;
    asker.shares = is_shared(session) ? 1 : 0;
    asker.interval = (uint32_t)session->interval;
    return asker;
}

static void free_entry(struct entry *entry) {
    if (entry->sign != NO_SIGN)
        close(entry->sign);
    dlm_c_forget(&entry->claim);
    memset(entry, 0, sizeof *entry);
    entry->sign = NO_SIGN;
}

static void take_sign_for(struct mg_session *session, struct entry *entry, struct work *work, struct mg_host *host, uint32_t lock) {
    int sign = NO_SIGN;
    switch (entry_of(session, lock) ? OTHERS : take_sign(session, session->number, lock, true, &sign)) {
    case MINE:
        entry->lock = lock;
        entry->sign = sign;
        claim_hears(&entry->claim, host, SIGN_IS_OURS, 0, false);
        break;
    case OTHERS: claim_hears(&entry->claim, host, SIGN_IS_HELD, 0, false); break;
    default:
        work->cause = errno;
        (void)dlm_c_hear_alone(&entry->claim, work->cause == ENOMEM ? IS_CLOSED : SIGN_FAILED, MG_NO_MEMORY);
    }
}

static void drop_sign(struct mg_session *session, struct entry *entry, struct mg_host *host, const struct due_order *order) {
    if (order->amount == 1)
        end_sign(session, entry->lock, entry->sign);
    else if (entry->sign != NO_SIGN)
        close(entry->sign);
    entry->sign = NO_SIGN;
    entry->lock = 0;
    claim_hears(&entry->claim, host, SIGN_IS_DROPPED, 0, false);
}

/* When the operation is to end. A take whose time is short may ask a little later, but once: to get there may take longer than its time. */
static int64_t end_of(const struct entry *entry, const struct work *work) {
    return entry->lock == 0 && work->until < INT64_MAX - GRACE ? work->until + GRACE : work->until;
}

/* Tells the claim to end soon, once: where the caller says so, its time is over, or there is no host number for it. */
static void stop_in_time(struct mg_session *session, struct entry *entry, struct work *work) {
    bool is_told = work->stops && session->is_told;
    if (work->is_over || !(is_told || work->is_vain || milliseconds() >= end_of(entry, work)))
        return;
    dlm_c_stop(&entry->claim, is_told);
    work->is_over = true;
}

/* A pause that is cut short is told by stop_in_time. Between two looks that take the number it lasts until an image is written, but no longer than a second; and
 * in any case some times as long as the wait for the number. */
static void rest(struct mg_session *session, struct entry *entry, struct work *work, int64_t length) {
    int64_t last = milliseconds() + BETWEEN_TALKS, least = OF_A_WAIT * work->waited;
    int status;
    if (least > BETWEEN_TALKS)
        least = BETWEEN_TALKS;
    status = pause_for(session, length < least ? least : length, end_of(entry, work), work->stops);
    while (status == MG_OK && work->seen != 0 && milliseconds() < last && session->eye && last_write(session->eye) == work->seen)
        status = pause_for(session, session->interval < BETWEEN_TALKS ? session->interval : BETWEEN_TALKS, end_of(entry, work), work->stops);
    work->seen = 0;
    work->waited = 0;
    if (status == MG_OK)
        (void)dlm_c_hear_alone(&entry->claim, HAS_RESTED, 0);
}

/* Waits after being outrun so often in a row. Callers pause by whole milliseconds, so what is left of one is slept here. */
static void yield(struct mg_session *session, struct entry *entry, struct mg_host *host, struct work *work, unsigned outrun) {
    int64_t length = pause_after(host, outrun > 0 ? outrun - 1 : 0);
    sleep_for(length % 1000);
    rest(session, entry, work, length / 1000);
}

/* Whether somebody else has the host number, and may let go of it in time. */
static bool is_in_use(struct work *work, int status, bool is_remote) {
    int64_t now = milliseconds();
    if (status != MG_HOST_IN_USE)
        work->in_use_since = 0;
    else if (work->in_use_since == 0)
        work->in_use_since = now;
    work->is_vain |= status == MG_HOST_IN_USE && (is_remote || now - work->in_use_since >= PATIENCE);
    return status == MG_HOST_IN_USE && !work->is_vain;
}

/* Opens the folder under the host number. With MG_SHARE it waits for its turn, but shortly: whoever waits for a lock has to look meanwhile. */
static int open_in_turn(struct mg_session *session, struct work *work) {
    int64_t until = milliseconds() + LONGEST_PAUSE;
    for (;;) {
        int status = open_once(session, NULL);
        work->cause = errno;
        if (!is_shared(session) || !is_in_use(work, status, work->cause == EREMOTE) ||
            pause_for(session, 1 + any_below(16), until, work->stops) != MG_OK)
            return status;
    }
}

static struct mg_host *open_for(struct mg_session *session, struct entry *entry, struct work *work, bool to_look) {
    struct mg_host *host = NULL;
    int status = to_look ? open_to_look(session, &host) : open_in_turn(session, work);
    work->seen = 0;
    if (!to_look)
        host = session->host;
    if (status != MG_OK) {
        if (to_look)
            close_all(session); /* an image that failed is given up by its handle */
        (void)dlm_c_hear_alone(&entry->claim, IS_CLOSED, status);
        return NULL;
    }
    claim_hears(&entry->claim, host, IS_OPEN, 0, false);
    return host;
}

/* Looks. Where that takes the number it waits for its turn, but shortly; and so may the next look. */
static int look_in_turn(struct mg_session *session, struct mg_host *host, struct work *work) {
    bool takes_number = host == session->eye && took_number(host);
    int64_t began = milliseconds(), until = began + LONGEST_PAUSE, turn;
    int status;
    work->seen = takes_number ? last_write(host) : 0;
    for (;;) {
        turn = milliseconds();
        status = look_once(host);
        if (status == MG_OK) {
            work->in_use_since = 0;
            break;
        }
        work->seen = 0;
        work->cause = errno;
        if (!is_in_use(work, status, work->cause == EREMOTE) || pause_for(session, 1 + any_below(16), until, work->stops) != MG_OK)
            break;
    }
    work->waited = takes_number ? turn - began : 0;
    return status;
}

/* Whether looks that take the number have learned nothing for so long that a command without a mark may stop them. A claim knows its own pauses alone, and
 * there they last longer. */
static bool lacks_news(struct mg_session *session, struct mg_host *host, struct work *work) {
    struct mg_host_view facts = {0, 0, 0, 0, 0, 0};
    int64_t now = milliseconds();
    bool is_same;
    if (!looks_in_talks(session) || mg_host_facts(host, &facts) != MG_OK)
        return false;
    is_same = work->recovers != 0 && facts.learned == work->learned;
    if (is_same && now < work->recovers)
        return false;
    work->learned = facts.learned;
    work->recovers = now + WITHOUT_NEWS + any_below(WITHOUT_NEWS);
    return is_same;
}

/* NULL: an image failed, and is given up by its handle. */
static struct mg_host *tell_learned(struct mg_session *session, struct entry *entry, struct mg_host *host, struct work *work, int status) {
    wear(session, status);
    if (status == MG_OK) {
        /* Of interest while it waits: it is to learn all, and to tidy. */
        bool is_to_learn = entry->lock != 0 && (holds_nobodys(session, host, entry->name) || lacks_news(session, host, work));
        claim_hears(&entry->claim, host, HAS_LEARNED, 0, is_to_learn);
        return host;
    }
    claim_hears(&entry->claim, host, IS_REFUSED, status, false);
    if (status != MG_NO_MAJORITY && status != MG_BROKEN)
        return host;
    close_all(session);
    return NULL;
}

/* Releases what processes that are gone have left: for a short time on any name, since the rest is for later talks, and then on this one, for that is in the
 * way. The folder may have been opened anew meanwhile, or be closed. */
static struct mg_host *tidy(struct mg_session *session, struct entry *entry, struct work *work) {
    int64_t now, left;
    release_unwanted(session, work->until, true, work->stops);
    now = milliseconds();
    left = work->until - now;
    if (session->host && !release_some(session, NULL, now + (left < 2 * TIDY_TIME ? left / 2 : TIDY_TIME), work) && session->host)
        (void)release_some(session, entry->name, work->until, work);
    if (session->host)
        claim_hears(&entry->claim, session->host, HAS_LEARNED, 0, false);
    else
        (void)dlm_c_hear_alone(&entry->claim, IS_CLOSED, MG_NO_MAJORITY);
    return session->host;
}

/* Who gives a lock back releases what others of the number have left meanwhile, for a short time. */
static void release_others(struct mg_session *session) {
    struct work work;
    memset(&work, 0, sizeof work);
    work.until = milliseconds() + LITTLE_PATIENCE;
    (void)release_some(session, NULL, milliseconds() + TIDY_TIME, &work);
}

/* What the operation has come to, by the host that was heard last. */
static void conclude(struct mg_session *session, struct entry *entry, struct mg_host *host, struct work *work) {
    struct claim_view view = {0, 0, 0, -1};
    uint64_t slots, used;
    (void)dlm_c_show(&entry->claim, &view);
    if (view.request > session->request)
        session->request = view.request;
    if (host && mg_log(host, &slots, &used) == MG_OK)
        work->slots_left = slots == UINT64_MAX ? slots : slots - used;
    if (host && work->end.outcome == IS_HELD)
        (void)mg_value(host, entry->lock, &work->value);
    if (work->is_part || (work->is_take && work->end.outcome == IS_HELD && session->host && is_unmarked(session->host)))
        return;
    if (is_shared(session) && session->host && view.standing == LEAVES && (work->end.outcome == IS_GIVEN || work->end.outcome == IS_NOT_HELD))
        release_others(session);
    end_talk(session);
}

/* Does what the claim orders, until its operation has ended. */
static void operate(struct mg_session *session, struct entry *entry, struct work *work) {
    struct mg_host *host = work->is_part ? session->host : NULL;
    struct due_order *order = &work->end;
    if (!work->is_part)
        (void)mark_taken(session);
    for (;;) {
        stop_in_time(session, entry, work);
        memset(order, 0, sizeof *order);
        if (dlm_c_order(&entry->claim, order) != 0)
            order->outcome = HAS_FAILED, order->status = MG_BROKEN, order->kind = TO_END;
        switch (order->kind) {
        case TO_OPEN: host = open_for(session, entry, work, false); break;
        case TO_OPEN_TO_LOOK: host = open_for(session, entry, work, true); break;
        case TO_LEARN: host = tell_learned(session, entry, host, work, learn_all(host, LONGEST_PAUSE)); break;
        case TO_LOOK: host = tell_learned(session, entry, host, work, look_in_turn(session, host, work)); break;
        case TO_TIDY: host = tidy(session, entry, work); break;
        case TO_TAKE_SIGN: take_sign_for(session, entry, work, host, order->lock); break;
        case TO_DROP_SIGN: drop_sign(session, entry, host, order); break;
        case TO_SUBMIT: wear(session, claim_submits(&entry->claim, host, order->amount == 1)); break;
        case TO_REST:
            if (!work->is_part) {
                end_talk(session);
                host = NULL;
            }
            rest(session, entry, work, order->amount);
            break;
        case TO_YIELD: yield(session, entry, host, work, order->amount); break;
        default: conclude(session, entry, host, work); return;
        }
    }
}

/* Has a claim released by an operation that is part of another one: MG_OK, or no claim could be begun. */
static int give_up(struct mg_session *session, struct entry *entry, struct work *work, int64_t until, bool is_part, bool stops) {
    struct asker asker = asker_of(session);
    int status = dlm_c_begin(&entry->claim, &asker, GIVE_UP, &NO_VALUE);
    memset(work, 0, sizeof *work);
    work->until = until;
    work->is_part = is_part;
    work->stops = stops;
    if (status == MG_OK)
        operate(session, entry, work);
    return status;
}

/* Releases what this session gave up, and could not release then. */
static void release_unwanted(struct mg_session *session, int64_t until, bool is_part, bool stops) {
    bool stays = false;
    for (size_t i = 0; i < MG_LOCKS && session->has_unwanted; i++) {
        struct entry *entry = &session->entries[i];
        struct work work;
        stays |= entry->state == UNWANTED;
        if (entry->state == UNWANTED && give_up(session, entry, &work, until, is_part, stops) == MG_OK && work.end.outcome == IS_NOT_HELD)
            free_entry(entry);
    }
    session->has_unwanted = stays;
}

/* The locks of a host's sessions, of which none is passed yet. */
static struct cleanup locks_of(const struct mg_session *session, unsigned whose, enum kind kind) {
    struct cleanup locks = {0, 0, 0, 0, 0, 0, 0, MG_OK, 0};
    locks.request = session->request;
    locks.host = session->number;
    locks.whose = whose;
    locks.kind = kind;
    return locks;
}

/* The entry becomes that of a lock which a former run left, with its sign. */
static int enter_left(struct mg_session *session, struct entry *entry, const struct mg_lock_view *view, int sign) {
    struct asker asker = asker_of(session);
    memset(entry, 0, sizeof *entry);
    memcpy(entry->name, view->name, sizeof entry->name);
    entry->state = KEPT;
    entry->lock = view->lock;
    entry->mode = view->wanted == MG_NONE ? view->held : view->wanted;
    entry->sign = sign;
    return dlm_c_left(&entry->claim, &asker, view->lock, (const uint8_t *)entry->name, strlen(entry->name), (uint32_t)entry->mode);
}

/* Releases it by a claim, in a talk. */
static void release_one(struct mg_session *session, const struct mg_lock_view *view, int sign, int64_t until, bool stops, struct cleanup *locks) {
    struct entry entry;
    struct work work;
    int status = enter_left(session, &entry, view, sign);
    if (status == MG_OK)
        status = give_up(session, &entry, &work, until, true, stops);
    if (status != MG_OK || dlm_c_settle_left(&entry.claim, locks) != MG_OK) {
        dlm_c_pass_left(locks, view->lock);
        locks->stay++;
        locks->status = status > MG_OK ? status : MG_BROKEN;
    }
    free_entry(&entry);
}

/* Releases in a talk the next one of the locks that processes which are gone have left, on this name or on any. False: there is none. */
static bool release_next(struct mg_session *session, bool all, const char *name, int64_t until, bool stops, struct cleanup *locks) {
    struct mg_lock_view view;
    uint32_t ours[MG_LOCKS];
    int sign, status;
    for (size_t i = 0; i < MG_LOCKS; i++)
        ours[i] = session->entries[i].state == FREE ? 0 : session->entries[i].lock;
    status = session->host ? next_left(session->host, locks, ours, &view) : MG_NO_MAJORITY;
    if (status != MG_OK) {
        locks->stay++;
        locks->status = status;
    }
    if (status != MG_OK || view.lock == 0)
        return false;
    switch (name && strcmp(view.name, name) != 0 ? OTHERS : take_sign(session, session->number, view.lock, all, &sign)) {
    case MINE: release_one(session, &view, sign, until, stops, locks); break;
    case UNKNOWN:
        session->cause = errno;
        locks->stay++;
        locks->status = unknown(session);
        dlm_c_pass_left(locks, view.lock);
        break;
    default: dlm_c_pass_left(locks, view.lock);
    }
    return true;
}

static enum kind kind_of(const struct mg_session *session, bool all) { return !all && is_shared(session) ? SHARED_LOCKS : ALL_LOCKS; }

/* Releases in a talk what processes that are gone have left, and tells how many were released, how many stay, and why. */
static struct cleanup release_left(struct mg_session *session, bool all, int64_t until, bool stops) {
    struct cleanup locks = locks_of(session, session->number, kind_of(session, all));
    while (release_next(session, all, NULL, until, stops, &locks))
        ;
    session->stay = locks.stay;
    return locks;
}

/* The same on one name, or on any where it is NULL, as a part of an operation. None is begun after `last`, or once the caller has said stop. Whether it has gone
 * over all of them. */
static bool release_some(struct mg_session *session, const char *name, int64_t last, struct work *work) {
    struct cleanup locks = locks_of(session, session->number, kind_of(session, false));
    bool goes_on = true;
    while (goes_on && milliseconds() < last && !(work->stops && session->is_told))
        goes_on = release_next(session, false, name, work->until, work->stops, &locks);
    work->released += locks.released;
    session->stay = locks.stay;
    return !goes_on;
}

/* ---- give ---- */

static int begin_to_give(struct mg_session *session, struct entry *entry, const void *value) {
    struct asker asker = asker_of(session);
    struct claim_value stored = NO_VALUE;
    if (value)
        memcpy(stored.bytes, value, sizeof stored.bytes);
    return dlm_c_begin(&entry->claim, &asker, value ? GIVE_VALUE : GIVE, &stored);
}

/* For MG_HOST_IN_USE and MG_NO_LOCK. */
static void tell_cause(int cause) {
    if (cause != 0)
        errno = cause;
}

/* How an operation on a lock that was held has ended. */
static int settle(struct entry *entry, const struct work *work) {
    switch (work->end.outcome) {
    case IS_HELD: return MG_OK;
    case IS_GIVEN: free_entry(entry); return MG_OK;
    case IS_NOT_HELD: free_entry(entry); return MG_NO_SUCH_LOCK;
    case IS_IN_DOUBT: return MG_IN_DOUBT;
    default: return work->end.status;
    }
}

static int give(struct mg_session *session, struct entry *entry, const void *value, int64_t until) {
    struct work work;
    int status = begin_to_give(session, entry, value);
    if (status != MG_OK)
        return MG_BAD_ARGUMENT;
    memset(&work, 0, sizeof work);
    work.until = until;
    operate(session, entry, &work);
    status = settle(entry, &work);
    tell_cause(work.cause);
    return status;
}

/* What a take gave up was never held, and stores nothing. */
static int give_unwanted(struct mg_session *session, struct entry *entry, int64_t until) {
    struct work work;
    if (give_up(session, entry, &work, until, false, false) != MG_OK)
        return MG_BROKEN;
    if (work.end.outcome != IS_NOT_HELD)
        return MG_IN_DOUBT;
    free_entry(entry);
    return MG_OK;
}

int mg_give(struct mg_session *session, unsigned lock, const void *value) {
    struct entry *entry = session ? entry_of(session, lock) : NULL;
    int64_t until = milliseconds() + PATIENCE;
    int status, cause;
    if (!session || (value && entry && entry->state == UNWANTED))
        return MG_BAD_ARGUMENT;
    if (session->is_resting)
        return MG_BUSY;
    if (!entry || entry->state == KEPT)
        return MG_NO_SUCH_LOCK;
    status = entry->state == UNWANTED ? give_unwanted(session, entry, until) : give(session, entry, value, until);
    cause = errno;
    release_unwanted(session, milliseconds() + LITTLE_PATIENCE, false, false);
    errno = cause;
    return status;
}

/* ---- take ---- */

static const struct mg_held NOTHING_HELD = {0, 0, -1, 0, 0, {{0}, 0}};

static bool is_name(const char *name) {
    size_t length = name ? strlen(name) : 0;
    for (size_t i = 0; i < length; i++)
        if (name[i] < 0x21 || name[i] > 0x7e)
            return false;
    return length >= 1 && length <= MG_NAME_LENGTH;
}

/* That of a lock that a former run left, or a free one. NULL: there is none. */
static struct entry *entry_for(struct mg_session *session, const char *name, int mode) {
    struct entry *free_one = NULL;
    for (size_t i = 0; i < MG_LOCKS; i++) {
        struct entry *entry = &session->entries[i];
        if (entry->state == FREE)
            free_one = entry;
        else if (entry->state == KEPT && entry->mode == mode && strcmp(entry->name, name) == 0)
            return entry;
    }
    if (free_one) {
        free_one->mode = mode;
        strcpy(free_one->name, name);
    }
    return free_one;
}

static int begin_to_take(struct mg_session *session, struct entry *entry, bool waits) {
    struct asker asker = asker_of(session);
    if (entry->state == KEPT)
        return dlm_c_begin(&entry->claim, &asker, waits ? TAKE_LEFT : TAKE_LEFT_AT_ONCE, &NO_VALUE);
    return dlm_c_take(&entry->claim, &asker, (const uint8_t *)entry->name, strlen(entry->name), (uint32_t)entry->mode, waits);
}

/* The take has ended in doubt: somebody had the host number just then, or other hosts were quicker. Its lock is released once more, by an operation of its
 * own, which may wait a little. */
static int end_in_doubt(struct mg_session *session, struct entry *entry, const struct work *take) {
    struct work work;
    entry->state = UNWANTED;
    session->has_unwanted = true;
    if (give_up(session, entry, &work, milliseconds() + LITTLE_PATIENCE, false, false) != MG_OK || work.end.outcome != IS_NOT_HELD)
        return MG_IN_DOUBT;
    free_entry(entry);
    if (session->is_told)
        return MG_STOPPED;
    return milliseconds() >= take->until || take->end.status == MG_OUTRUN ? MG_TIMED_OUT : take->end.status;
}

static int take(struct mg_session *session, struct entry *entry, struct work *work, struct mg_held *held) {
    struct claim_view view = {0, 0, 0, -1};
    int status;
    entry->state = OURS;
    operate(session, entry, work);
    (void)dlm_c_show(&entry->claim, &view);
    switch (work->end.outcome) {
    case IS_HELD:
        held->lock = entry->lock;
        held->slot = view.slot;
        held->cluster = session->set;
        held->slots_left = work->slots_left;
        held->released = work->released;
        held->value = work->value;
        return MG_OK;
    case IS_IN_DOUBT:
        status = end_in_doubt(session, entry, work);
        if (status == MG_IN_DOUBT)
            held->lock = entry->lock;
        return status;
    default:
        free_entry(entry);
        tell_cause(work->cause);
        return work->end.status == MG_OUTRUN ? MG_TIMED_OUT : work->end.status;
    }
}

int mg_take(struct mg_session *session, const char *name, int mode, int timeout, struct mg_held *held) {
    struct entry *entry;
    struct work work;
    int status;
    if (held)
        *held = NOTHING_HELD;
    if (!session || !held || !is_name(name) || mode < MG_NL || mode > MG_EX)
        return MG_BAD_ARGUMENT;
    if (session->is_resting)
        return MG_BUSY;
    memset(&work, 0, sizeof work);
    work.until = timeout < 0 ? INT64_MAX : milliseconds() + (timeout == 0 ? LITTLE_PATIENCE : timeout);
    work.stops = true;
    work.is_take = true;
    session->is_told = false;
    entry = entry_for(session, name, mode);
    if (!entry)
        return MG_TABLE_FULL;
    status = begin_to_take(session, entry, timeout != 0);
    if (status != MG_OK)
        return status < MG_OK ? MG_BAD_ARGUMENT : status;
    return take(session, entry, &work, held);
}

/* What a host could not mark, which is closed perhaps by now, is marked by a recovery. */
int mg_mark_taken(struct mg_session *session) {
    int64_t until = milliseconds() + LITTLE_PATIENCE;
    int status;
    if (!session)
        return MG_BAD_ARGUMENT;
    if (session->is_resting)
        return MG_BUSY;
    if (!session->has_unmarked)
        return mark_taken(session);
    status = begin_talk(session, until, NULL);
    if (status == MG_OK)
        status = mark_all(session->host, until);
    session->has_unmarked = status != MG_OK;
    wear(session, status);
    if (status == MG_OK)
        end_talk(session);
    return status;
}

/* ---- check ---- */

int mg_check(struct mg_session *session, unsigned lock) {
    struct entry *entry = session ? entry_of(session, lock) : NULL;
    struct asker asker;
    struct work work;
    int status;
    if (!session)
        return MG_BAD_ARGUMENT;
    if (session->is_resting)
        return MG_BUSY;
    release_unwanted(session, milliseconds() + LITTLE_PATIENCE, false, false);
    if (!entry || entry->state != OURS)
        return MG_NO_SUCH_LOCK;
    asker = asker_of(session);
    memset(&work, 0, sizeof work);
    work.until = milliseconds() + PATIENCE;
    status = dlm_c_begin(&entry->claim, &asker, CHECK, &NO_VALUE);
    if (status != MG_OK)
        return MG_BROKEN;
    operate(session, entry, &work);
    return settle(entry, &work);
}

/* ---- of other hosts, and of other processes ---- */

/* Takes away all locks of a host, once nobody has the signs of its sessions' locks. */
static int purge(struct mg_session *session, unsigned victim, unsigned *purged) {
    struct cleanup locks = locks_of(session, victim, ALL_LOCKS);
    int64_t until = milliseconds() + PATIENCE;
    unsigned outrun = 0;
    for (;;) {
        uint32_t lock;
        bool is_purged;
        int status = next_purge(session->host, &locks, &lock, &is_purged);
        if (status != MG_OK || is_purged)
            return status;
        if (lock != 0) {
            int sign;
            enum owner owner = take_sign(session, victim, lock, false, &sign);
            session->cause = errno;
            if (owner != MINE)
                return owner == UNKNOWN ? unknown(session) : MG_HOST_IN_USE;
            close(sign);
            dlm_c_pass_left(&locks, lock);
            continue;
        }
        status = submit_purge(session->host, &locks, purged);
        /* Another command of this number came first, or another host's ballot was greater. */
        if (status != MG_OK && status != MG_STALE && (status != MG_OUTRUN || milliseconds() >= until))
            return status;
        if (status == MG_OUTRUN)
            sleep_for(pause_after(session->host, outrun++));
    }
}

int mg_purge_dead(struct mg_session *session, unsigned victim, unsigned *purged) {
    struct mg_host *dead = NULL;
    unsigned count = 0;
    int status;
    if (purged)
        *purged = 0;
    if (!session || victim >= MG_HOSTS || victim == session->number)
        return MG_BAD_ARGUMENT;
    if (session->is_resting)
        return MG_BUSY;
    status = begin_talk(session, milliseconds() + PATIENCE, NULL);
    if (status != MG_OK)
        return status;
    status = mg_open(session->at, victim, &dead, NULL);
    if (status == MG_OK)
        status = mark_all(session->host, milliseconds() + PATIENCE);
    session->cause = errno;
    if (status == MG_OK)
        status = purge(session, victim, &count);
    mg_close(dead);
    if (purged)
        *purged = count;
    wear(session, status);
    end_talk(session);
    tell_cause(session->cause);
    return status;
}

/* Marks what has no mark, so that looks pass it, and releases what is left over. */
static int recover(struct mg_session *session, int64_t until, bool all, unsigned *released) {
    int status = begin_talk(session, until, NULL);
    if (status != MG_OK)
        return status;
    status = mark_all(session->host, until);
    if (status == MG_OK) {
        struct cleanup left;
        release_unwanted(session, until, true, false);
        left = release_left(session, all, until, false);
        if (all && session->host)
            remove_old_signs(session);
        *released = left.released;
        status = left.status;
    }
    wear(session, status);
    end_talk(session);
    tell_cause(session->cause);
    return status;
}

int mg_recover(struct mg_session *session, unsigned flags, unsigned *released) {
    unsigned count = 0;
    int status;
    if (released)
        *released = 0;
    if (!session || (flags & ~MG_ALL) != 0)
        return MG_BAD_ARGUMENT;
    if (session->is_resting)
        return MG_BUSY;
    status = recover(session, milliseconds() + PATIENCE, (flags & MG_ALL) != 0, &count);
    if (released)
        *released = count;
    return status;
}

unsigned mg_stay(const struct mg_session *session) { return session ? session->stay : 0; }

/* ---- begin and end ---- */

/* The locks that former runs without MG_SHARE left become entries. */
static int keep_left(struct mg_session *session) {
    struct cleanup locks = locks_of(session, session->number, LOCKS_ALONE);
    const uint32_t none[MG_LOCKS] = {0};
    struct mg_lock_view view;
    int status = next_left(session->host, &locks, none, &view);
    for (size_t i = 0; i < MG_LOCKS && status == MG_OK && view.lock != 0;) {
        int sign;
        enum owner owner = take_sign(session, session->number, view.lock, false, &sign);
        session->cause = errno;
        if (owner == MINE)
            status = enter_left(session, &session->entries[i++], &view, sign);
        else if (owner == UNKNOWN)
            return unknown(session);
        dlm_c_pass_left(&locks, view.lock);
        if (status == MG_OK)
            status = next_left(session->host, &locks, none, &view);
    }
    return status;
}

static int begin(struct mg_session *session, int *disk) {
    int status;
    if (is_shared(session))
        return open_eye(session, disk);
    status = begin_talk(session, milliseconds() + LITTLE_PATIENCE, disk);
    session->cause = errno;
    if (status != MG_OK)
        return status;
    if (session->flags & MG_KEEP)
        status = keep_left(session);
    return status == MG_OK ? release_left(session, false, milliseconds() + PATIENCE, false).status : status;
}

int mg_begin(const char *folder, unsigned host, unsigned flags, struct mg_session **out, int *disk) {
    struct mg_session *session;
    int status;
    if (disk)
        *disk = -1;
    if (out)
        *out = NULL;
    if (!folder || !out || host >= MG_HOSTS || (flags & ~MG_LATE) > MG_SHARE)
        return MG_BAD_ARGUMENT;
    session = calloc(1, sizeof *session);
    if (!session)
        return MG_NO_MEMORY;
    session->number = host;
    session->flags = flags;
    session->interval = FIRST_INTERVAL;
    for (size_t i = 0; i < MG_LOCKS; i++)
        session->entries[i].sign = NO_SIGN;
    session->at = realpath(folder, NULL);
    if (session->at)
        status = begin(session, disk);
    else
        status = errno == ENOMEM ? MG_NO_MEMORY : MG_UNREADABLE;
    if (status != MG_OK) {
        int cause = session->cause != 0 ? session->cause : errno;
        mg_end(session);
        errno = cause;
        return status;
    }
    *out = session;
    return MG_OK;
}

void mg_end(struct mg_session *session) {
    if (!session || session->is_resting)
        return;
    close_all(session);
    for (size_t i = 0; i < MG_LOCKS; i++)
        free_entry(&session->entries[i]);
    free(session->at);
    free(session);
}

int mg_set_interval(struct mg_session *session, int interval) {
    if (!session || interval < 1 || interval > PATIENCE)
        return MG_BAD_ARGUMENT;
    session->interval = interval;
    return MG_OK;
}

int mg_set_rest(struct mg_session *session, int (*rest)(void *with, int milliseconds), void *with) {
    if (!session)
        return MG_BAD_ARGUMENT;
    session->rest = rest;
    session->with = with;
    return MG_OK;
}

int mg_has_number(const struct mg_session *session) { return session && session->host; }

/* A look by it may need the number, which is kept after a take with MG_LATE. */
int mg_host_of(struct mg_session *session, struct mg_host **host) {
    if (host)
        *host = NULL;
    if (!session || !host)
        return MG_BAD_ARGUMENT;
    if (session->is_resting)
        return MG_BUSY;
    if (looks_in_talks(session))
        (void)mark_taken(session);
    return open_to_look(session, host);
}

int mg_sign_of(struct mg_session *session, unsigned lock) {
    const struct entry *entry = session ? entry_of(session, lock) : NULL;
    return entry ? entry->sign : NO_SIGN;
}
