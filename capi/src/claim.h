/*
 * claim.h: the claims of the proved library (crates/dlm_c/src/claims.rt), for mg_session.c. A claim is a lock that a session wants, has or gives back: it
 * orders what is to be done next, and is told what came of that.
 */
#ifndef MG_CLAIM_H
#define MG_CLAIM_H

#include "midgegalena.h"

#include <stdbool.h>

/* ClaimHandle of claim_handle.rt: all zeros keep no claim. Nothing but the functions below reads or writes it. */
struct claim {
    bool is_open;
    void *at;
};

/* AskerNumbers of asker.rt */
struct asker {
    uint64_t request;
    uint32_t host;
    uint32_t shares;
    uint32_t interval;
    uint32_t unused;
};

/* DueOrder of due_order.rt */
struct due_order {
    uint32_t kind;
    uint32_t lock;
    uint32_t amount;
    uint32_t outcome;
    int32_t status;
    uint32_t unused;
    int64_t slot;
};

/* ValueNumbers and ClaimView of claims.rt */
struct claim_value {
    uint8_t bytes[MG_VALUE_LENGTH];
};

struct claim_view {
    uint64_t request;
    uint32_t lock;
    uint32_t standing;
    int64_t slot;
};

/* CleanupNumbers of cleanups.rt: locks of a host's sessions that are gone over, and the purge of a host */
struct cleanup {
    uint64_t request;
    uint32_t host;
    uint32_t whose;
    uint32_t kind;
    uint32_t from;
    uint32_t released;
    uint32_t stay;
    int32_t status;
    uint32_t unused;
};

typedef char claims_are_as_there[sizeof(struct claim) == 16 && sizeof(struct asker) == 24 && sizeof(struct due_order) == 32 &&
                                         sizeof(struct claim_value) == 16 && sizeof(struct claim_view) == 24 && sizeof(struct cleanup) == 40
                                     ? 1
                                     : -1];

enum order { TO_OPEN = 1, TO_OPEN_TO_LOOK, TO_LEARN, TO_LOOK, TO_TIDY, TO_TAKE_SIGN, TO_DROP_SIGN, TO_SUBMIT, TO_REST, TO_YIELD, TO_END };
enum end { IS_HELD, IS_NOT_HELD, IS_GIVEN, IS_IN_DOUBT, HAS_FAILED };
enum goal { TAKE_LEFT = 1, TAKE_LEFT_AT_ONCE, CHECK, GIVE, GIVE_VALUE, GIVE_UP };
enum event { IS_OPEN = 1, HAS_LEARNED, HAS_REPLIED, IS_REFUSED, SIGN_IS_OURS, SIGN_IS_HELD, SIGN_IS_DROPPED };
enum event_alone { IS_CLOSED = 1, HAS_RESTED, SIGN_FAILED };
enum kind { ALL_LOCKS, SHARED_LOCKS, LOCKS_ALONE };
enum standing { LEAVES = 5 }; /* of claim_view: its lock is to be released. The others do not matter here */

int32_t dlm_c_take(struct claim *claim, const struct asker *asker, const uint8_t *name, size_t length, uint32_t mode, bool waits);
int32_t dlm_c_left(struct claim *claim, const struct asker *asker, uint32_t lock, const uint8_t *name, size_t length, uint32_t mode);
int32_t dlm_c_begin(struct claim *claim, const struct asker *asker, uint32_t goal, const struct claim_value *value);
void dlm_c_stop(struct claim *claim, bool told);
int32_t dlm_c_order(struct claim *claim, struct due_order *into);
int32_t dlm_c_hear_alone(struct claim *claim, uint32_t event, int32_t status);
int32_t dlm_c_show(struct claim *claim, struct claim_view *into);
void dlm_c_forget(struct claim *claim);
void dlm_c_pass_left(struct cleanup *cleanup, uint32_t lock);
int32_t dlm_c_settle_left(struct claim *claim, struct cleanup *cleanup);

/* By a host: of midgegalena.c. Commands of others are marked for so many milliseconds, once they are learned. The host's own is marked at once where
 * somebody may wait for it, else perhaps later. A lock 0 is none: all are passed, or the purge is to be submitted. `ours` has MG_LOCKS numbers. */
int64_t microseconds(void);
void sleep_for(int64_t length);
int64_t pause_after(const struct mg_host *host, unsigned outrun);
int learn_all(struct mg_host *host, int64_t length);
bool has_images_of(const struct mg_host *host, const char *folder);
/* Opens a folder to look. Where the log has no end a look of the handle takes this host number for a moment if marks do not tell the table. */
int open_to_visit(const char *folder, unsigned number, struct mg_host **out, int *disk);
/* As mg_look, but it does not wait where somebody else has the number of such a handle: MG_HOST_IN_USE. */
int look_once(struct mg_host *host);
/* Whether its last look took the number. */
bool took_number(const struct mg_host *host);
/* A number that each write to the images changes, as far as this machine sees it. 0: it is not known, or they were written just now. */
uint64_t last_write(const struct mg_host *host);
int sign_name(struct mg_host *host, unsigned number, uint32_t lock, char *into, size_t room);
int claim_submits(struct claim *claim, struct mg_host *host, bool is_waited_for);
bool is_unmarked(const struct mg_host *host);
void claim_hears(struct claim *claim, struct mg_host *host, enum event event, int status, bool left_over);
int next_left(struct mg_host *host, const struct cleanup *cleanup, const uint32_t *ours, struct mg_lock_view *into);
int next_purge(struct mg_host *host, const struct cleanup *cleanup, uint32_t *lock, bool *is_purged);
int submit_purge(struct mg_host *host, const struct cleanup *cleanup, unsigned *purged);

#endif
