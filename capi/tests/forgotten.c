/*
 * A table knows 32 clients. The next one is refused until one of them is forgotten; a client that has a lock is not. Whoever was forgotten begins
 * anew. Prints nothing but its last line where all is as it should be.
 *
 *   forgotten FOLDER      an empty folder
 */
#include <midgegalena.h>

#include "expect.h"

#include <stdio.h>

enum { CLIENTS = 32, NEXT = CLIENTS + 1 };

/* How many clients the table shows. */
static size_t known(struct mg_host *host) {
    size_t count = 0;
    IS(mg_clients(host, NULL, 0, &count), MG_OK);
    return count;
}

/* Clients 1 to 32 are heard, and each asks how a lock stands that there is not; but client 1 takes it. */
static void full(struct mg_host *host) {
    struct mg_answer answer;
    for (unsigned client = CLIENTS; client > 1; client--)
        IS(mg_status(host, client, 5, 1, NULL), MG_NO_SUCH_LOCK);
    IS(mg_enqueue(host, 1, 5, 1, MG_EX, "db", 0, NULL), MG_OK);
    IS(known(host), CLIENTS);
    IS(mg_status(host, NEXT, 1, 1, NULL), MG_CLIENTS_FULL);
    IS(mg_forget(host, NEXT, 1, 2, &answer), MG_CLIENTS_FULL);
    IS(answer.reply, MG_REFUSED);
    IS(known(host), CLIENTS);
}

static void forgets(struct mg_host *host) {
    struct mg_answer answer;
    IS(mg_forget(host, 2, 6, 1, &answer), MG_LOCK_IN_USE); /* client 1 has a lock */
    IS(answer.reply, MG_REFUSED);
    IS(known(host), CLIENTS);
    IS(mg_forget(host, 2, 7, 3, &answer), MG_OK);
    IS(answer.reply, MG_FORGOTTEN);
    IS(known(host), CLIENTS - 1);
    IS(mg_forget(host, 2, 7, 4, &answer), MG_OK); /* the same request: answered as it was, and not carried out */
    IS(answer.reply, MG_FORGOTTEN);
    IS(known(host), CLIENTS - 1);
    IS(mg_status(host, NEXT, 1, 1, &answer), MG_OK);
    IS(answer.reply, MG_STATE);
    IS(known(host), CLIENTS);
}

/* A client forgets itself: its request is not kept, and comes again as a new one. */
static void forgets_itself(struct mg_host *host) {
    struct mg_answer answer;
    IS(mg_forget(host, 2, 6, 2, &answer), MG_STALE);
    IS(mg_forget(host, 2, 8, 2, &answer), MG_OK);
    IS(answer.reply, MG_FORGOTTEN);
    IS(known(host), CLIENTS - 1);
    IS(mg_enqueue(host, 2, 1, 2, MG_EX, "db", 0, &answer), MG_OK);
    IS(answer.reply, MG_QUEUED);
    IS(known(host), CLIENTS);
    IS(mg_forget(host, 4, 6, 2, NULL), MG_LOCK_IN_USE); /* it waits */
    IS(mg_release(host, 2, 2, 2, NULL), MG_OK);
    IS(mg_forget(host, 4, 7, 2, &answer), MG_OK);
    IS(mg_forget(host, 4, 8, 200, &answer), MG_OK); /* nobody knows client 200 */
    IS(answer.reply, MG_FORGOTTEN);
    IS(known(host), CLIENTS - 1);
}

int main(int argc, char **argv) {
    struct mg_host *host;
    if (argc != 2)
        return 2;
    IS(mg_format(argv[1], 3, 64, 7, NULL), MG_OK);
    IS(mg_open(argv[1], 0, &host, NULL), MG_OK);
    full(host);
    forgets(host);
    forgets_itself(host);
    mg_close(host);
    if (failures == 0)
        puts("forgotten: as they should be");
    return failures != 0;
}
