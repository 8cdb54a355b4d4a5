/*
 * mg_session.h: locks that are held or not, over midgegalena.h. A session chooses request numbers and lock numbers, asks again
 * where that is needed, waits, gives back what it gave up, and releases what a run that was killed left.
 *
 *     struct mg_session *session;
 *     struct mg_held db;
 *     if (mg_begin("images", 0, 0, &session, NULL) != MG_OK)
 *         return 1;
 *     if (mg_take(session, "db", MG_EX, 5000, &db) == MG_OK) {
 *         ...                                       only here db is ours
 *         mg_give(session, db.lock, NULL);
 *     }
 *     mg_end(session);
 *
 * Sessions of host H are client 240 + H, and use the lock numbers from 1536 + 4000 H on. Whoever counts for himself, by the
 * commands of a host or by the program dlm, takes clients and locks below 240 and 1536.
 *
 * A session is for one thread at a time. A child of fork may use no session of its parent.
 */
#ifndef MG_SESSION_H
#define MG_SESSION_H

#include <midgegalena.h>

#ifdef __cplusplus
extern "C" {
#endif

struct mg_session;

/* ---- begin and end ---- */

/* The locks that a former run left are kept. mg_take then takes such a lock first, where name and mode are the same. Not with MG_SHARE. */
#define MG_KEEP 1u

/* The session has the host number only while a call works on the images, so any number of processes share it. Who takes a lock, or gives
 * one back, releases what processes with MG_SHARE left that are gone. A call learns the whole log anew, so this is for short programs. A wait looks without
 * the number. Only if marks do not tell the table of a log without an end it takes the number for that look. */
#define MG_SHARE 2u

/* With any of these: mg_take returns as soon as its command is acknowledged, and before that is marked, a third of its syncs earlier. Call mg_mark_taken
 * once the work under the lock has begun. The session's next call marks it, too, and so does mg_end. Until then looks of all hosts stop at the command,
 * and with MG_SHARE the session keeps the host number. If the process is killed before, it is a command without a mark as any other: waits pass it
 * after two to four seconds. */
#define MG_LATE 4u

/* Opens the folder for a host number. With MG_SHARE that is all. Without it, it learns all, and releases what former runs of this host
 * number left; the number is the session's own until mg_end. MG_HOST_IN_USE says that another process has it, or on devices that several
 * machines use another machine: then errno is EREMOTE, and no call waits for it. At MG_OK `*out` is a session, which is to be ended; else
 * it is NULL. Where such locks could not be released it says why, as MG_LOG_FULL. MG_NO_LOCK: the number, or the sign of life of such a
 * lock, cannot be locked for another cause than that somebody has it; errno tells, as EMFILE or EACCES. `disk` as in mg_open.
 *
 * Each lock of a session has a sign of life, the file mg-lock.SET.HOST.LOCK in the folder, where SET is its cluster number. The session
 * has it locked (flock) as long as it has the lock. What former runs left are the locks whose signs are there, and locked by nobody. Do
 * not remove signs.
 *
 * Where the folder is a link, it is followed once, here. A later call that finds images of another cluster number in the folder says MG_WRONG_HEADER. */
int mg_begin(const char *folder, unsigned host, unsigned flags, struct mg_session **out, int *disk);

/* Ends a session. NULL is nothing. Locks that were not given stay in the log. The next mg_begin of this host number without MG_SHARE
 * releases them. Those that were taken with MG_SHARE are also released by the next mg_take or mg_recover with MG_SHARE.
 * In what mg_set_rest has it call it does nothing. */
void mg_end(struct mg_session *session);

/* ---- take and give ---- */

struct mg_held {
    uint32_t lock;         /* its number, for mg_give */
    uint32_t released;     /* locks of processes that are gone, which this call released */
    int64_t slot;          /* where the command that asked for it stands in the log, through all epochs; -1 of a lock that a former run took */
    uint64_t cluster;      /* of the folder that this slot is of */
    uint64_t slots_left;   /* in the log, once it was asked for; UINT64_MAX where that has no end */
    struct mg_value value; /* of its name, when it was granted */
};

/* Takes a lock on a name, and waits `timeout` milliseconds at most: 0 takes it at once or not at all, below 0 waits without an
 * end. MG_OK: the lock is held. MG_IN_DOUBT: it was given up, and what asked for it or releases it may come into the log, or
 * stands there; `held->lock` is its number. Each mg_take, mg_give, mg_check and mg_recover of the session tries to release it. If this
 * session ends before, it is left as any lock that was not given. With any other number nothing is held and nothing waits; `held->lock` is 0.
 *
 * A lock that was asked for is released before MG_TIMED_OUT or MG_STOPPED comes back. That takes a command's time, and with MG_SHARE
 * the host number. Where others have that, or are quicker, it tries for five seconds more, and is in doubt after that.
 *
 * MG_TIMED_OUT: it was not granted in time, as where others have it. MG_NO_SUCH_LOCK: it was purged while it waited. MG_STOPPED: mg_set_rest.
 * MG_HOST_IN_USE: somebody has the host number for so long, a minute or little more at most; at once where it is another machine's, and errno is
 * EREMOTE. Over a log without an end a wait with MG_SHARE needs the number where marks do not tell the table: without it for so long it ends, in doubt.
 * MG_NO_LOCK: see errno, of its sign of life; EBUSY where that is removed as often as it is made. MG_LOG_FULL, MG_NO_MAJORITY,
 * MG_TABLE_FULL and others as of mg_enqueue.
 *
 * First it releases what processes that are gone have left: on this name all, on others as much as it can in 200 milliseconds, or in
 * half of its time if that is shorter.
 *
 * `held->slot` is a fencing token: of those that hold MG_EX on a name in turn, each has a greater slot than the one before it. In
 * another folder slots begin anew, and `cluster` tells the two apart. */
int mg_take(struct mg_session *session, const char *name, int mode, int timeout, struct mg_held *held);

/* Gives a lock back. Where `value` is not NULL its MG_VALUE_LENGTH bytes are kept with the name, if the lock holds MG_PW or MG_EX.
 * MG_NO_SUCH_LOCK: the lock had been taken away, by a purge, or is none of this session's. MG_IN_DOUBT: its release may stand in
 * the log; call again with the same value, for another one is MG_BAD_ARGUMENT by then. Where the log has no end that second call may say
 * MG_NO_SUCH_LOCK though nobody purged the lock: its release stood in an epoch that has ended. After any other number the lock is still
 * the session's, and nothing is stored: call again. It waits up to a minute for disks, and with MG_SHARE for the number.
 *
 * A lock that mg_take left in doubt was never held. So a value with it is MG_BAD_ARGUMENT, MG_OK says that it is in the table no more,
 * and it is waited for the number alone. */
int mg_give(struct mg_session *session, unsigned lock, const void *value);

/* With MG_LATE: marks what mg_take has left without a mark. MG_OK also where there is nothing to mark. Else why it was not marked: the lock is held all the
 * same. Call it again: what was refused is still to be marked. */
int mg_mark_taken(struct mg_session *session);

/* Looks whether a lock that was taken was purged: MG_NO_SUCH_LOCK, or MG_OK where no look has seen that. It may be seen late: a look sees nothing
 * after a command that has no mark, until somebody recovers, so call mg_recover before it to be sure. */
int mg_check(struct mg_session *session, unsigned lock);

/* ---- of other hosts, and of other processes ---- */

/* Takes away all locks of a host whose processes are gone: only while it has the number of that host, so that nobody works under
 * it, and each lock that a session took has a sign of life that nobody has. Else MG_HOST_IN_USE, or MG_NO_LOCK where that cannot be
 * seen (see errno), and nothing is done. This knows
 * of processes that the locks of the folder's file system reach, those of one machine. It does not know of a script that took a
 * lock by dlm and goes on.
 * `*purged`, where it is not NULL, becomes the number of locks. */
int mg_purge_dead(struct mg_session *session, unsigned victim, unsigned *purged);

/* For mg_recover: the locks without a sign of life, too, and those that are kept for a session without MG_SHARE. Only where no
 * process of this host number can be alive: when its machine has just started. */
#define MG_ALL 1u

/* Releases what processes of this host number that are gone have left, a session with MG_SHARE only what was taken with MG_SHARE, and marks what
 * has no mark. `*released`, where it is not NULL, becomes the number of locks. Where some of them could not be released it says why, and
 * mg_stay how many; so also where a sign of life cannot be looked at, MG_NO_LOCK: see errno. */
int mg_recover(struct mg_session *session, unsigned flags, unsigned *released);

/* How many locks of processes that are gone, or may be, could not be released, when that was tried last: by mg_recover, mg_take or mg_give. A table that
 * could not be read to its end counts as one more. */
unsigned mg_stay(const struct mg_session *session);

/* ---- waiting ---- */

/* How long a wait pauses between two looks, at the longest: 1 millisecond at first, then twice as long each time, 5 if this is
 * not called. Where no look has learned anything for two seconds, or by chance up to four, it recovers, as mg_wait does. */
int mg_set_interval(struct mg_session *session, int milliseconds);

/* What mg_take calls to pause, in place of a sleep. Where it returns anything but 0, mg_take gives up: MG_STOPPED, and it is called no more.
 * NULL: sleep. It may not use the session: each call that works on the images is MG_BUSY then. */
int mg_set_rest(struct mg_session *session, int (*rest)(void *with, int milliseconds), void *with);

/* Whether the session has the host number now, 1 or 0; with MG_SHARE only while a call works on the images. Where that function is called in the midst
 * of such work, a process that stops there keeps the number from others. */
int mg_has_number(const struct mg_session *session);

/* ---- what a session stands on ---- */

/* To look (mg_look) and to show the table. Submit nothing by it. It is the session's, and may be another one after each call. With MG_SHARE, over a log without
 * an end, a mg_look takes the host number where marks do not tell the table: MG_HOST_IN_USE where somebody has that for five seconds. Before it there may be
 * no table. */
int mg_host_of(struct mg_session *session, struct mg_host **host);

/* The descriptor of a lock's sign of life, -1 where the session has no such lock. A child that inherits it keeps the lock from being released
 * for as long as it lives, if this process is killed. */
int mg_sign_of(struct mg_session *session, unsigned lock);

#ifdef __cplusplus
}
#endif

#endif
