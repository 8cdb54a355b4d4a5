/*
 * How many commands ago a lock came to be as it is. No table tells that: two tables that are one command apart do, where a lock has a mode in the one and not in
 * the other. So each table is compared with the one before it.
 */
#include "since.h"

#include <string.h>

/* Whether it is the same lock: no command gives a lock up and takes the number again. */
static bool is_same(const struct mg_lock_view *before, const struct mg_lock_view *now) {
    return before->lock == now->lock && before->client == now->client && before->host == now->host && strcmp(before->name, now->name) == 0;
}

/* Where the lock was in the table before; its length if it was not. */
static size_t place_before(const struct followed *before, const struct mg_lock_view *now) {
    size_t place = before->places[now->lock & 0xFFFF];
    return place > 0 && is_same(&before->locks[place - 1], now) ? place - 1 : before->count;
}

/* The log's first command finds no lock. So the first epoch's table is known before any of it. */
static void begin_at_first(struct mg_host *host, struct followed *followed) {
    uint64_t epoch;
    if (!followed->has_table && mg_epoch(host, &epoch, NULL, NULL) == MG_OK && epoch == 0)
        followed->has_table = true;
}

static void forget_places(struct followed *followed) {
    for (size_t i = 0; i < followed->count; i++)
        followed->places[followed->locks[i].lock & 0xFFFF] = 0;
}

static void note_places(struct followed *followed) {
    for (size_t i = 0; i < followed->count; i++)
        followed->places[followed->locks[i].lock & 0xFFFF] = (uint16_t)(i + 1);
}

/* Since when a lock has the mode that it has now, or wants. */
static struct since of_mode(int before, int now, struct since since, struct since last) {
    static const struct since never;
    if (now == MG_NONE)
        return never;
    return before == now ? since : last;
}

void follow(struct mg_host *host, void *into) {
    static const struct since never;
    struct followed *followed = into;
    struct mg_lock_view locks[MG_LOCKS];
    struct since held[MG_LOCKS], wanted[MG_LOCKS], last;
    struct mg_host_view facts;
    size_t count;
    if (mg_host_facts(host, &facts) != MG_OK || mg_locks(host, locks, MG_LOCKS, &count) != MG_OK || count > MG_LOCKS)
        return;
    begin_at_first(host, followed);
    if (followed->has_table && facts.learned <= followed->learned)
        return;
    last.is_known = true;
    last.is_earlier = !followed->has_table || facts.learned != followed->learned + 1;
    last.slot = facts.learned > 0 ? facts.learned - 1 : 0;
    for (size_t i = 0; i < count; i++) {
        const struct mg_lock_view *now = &locks[i];
        size_t place = place_before(followed, now);
        bool is_new = place == followed->count;
        held[i] = of_mode(is_new ? MG_NONE : followed->locks[place].held, now->held, is_new ? never : followed->held[place], last);
        wanted[i] = of_mode(is_new ? MG_NONE : followed->locks[place].wanted, now->wanted, is_new ? never : followed->wanted[place], last);
        if (is_new && now->host < MG_HOSTS)
            followed->asked[now->host] = last;
    }
    forget_places(followed);
    memcpy(followed->locks, locks, count * sizeof *locks);
    memcpy(followed->held, held, count * sizeof *held);
    memcpy(followed->wanted, wanted, count * sizeof *wanted);
    followed->count = count;
    followed->learned = facts.learned;
    followed->has_table = true;
    note_places(followed);
}

uint64_t slots_since(const struct followed *followed, const struct since *since) {
    return followed->learned > since->slot ? followed->learned - 1 - since->slot : 0;
}
