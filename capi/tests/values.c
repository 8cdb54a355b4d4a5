/*
 * Two hosts pass the value of a name: what is stored, what is dropped, what a purge makes of it, and when it ends. Prints nothing but
 * its last line where all is as it should be.
 *
 *   values FOLDER      an empty folder
 */
#include <midgegalena.h>

#include "expect.h"

#include <stdio.h>
#include <string.h>

static const unsigned char NONE[MG_VALUE_LENGTH] = {0};
static const unsigned char ONE[] = "the first value";
static const unsigned char TWO[] = "one that follow";
static const unsigned char LOST[] = "one not to keep";

/* The value of a lock's name, by what a host has learned. */
static void has(int line, struct mg_host *host, unsigned lock, const void *bytes, unsigned flags) {
    struct mg_value value;
    uint64_t learned;
    memset(&value, 9, sizeof value);
    is_at(line, mg_look(host, &learned), MG_OK);
    is_at(line, mg_value(host, lock, &value), MG_OK);
    is_at(line, memcmp(value.bytes, bytes, MG_VALUE_LENGTH), 0);
    is_at(line, value.flags, flags);
}

#define HAS(host, lock, bytes, flags) has(__LINE__, host, lock, bytes, flags)

static void bad_arguments(struct mg_host *host) {
    struct mg_answer answer;
    struct mg_value value;
    memset(&answer, 9, sizeof answer);
    IS(mg_convert_value(host, 1, 1, 1, MG_NL, 0, NULL, &answer), MG_BAD_ARGUMENT);
    IS(answer.slot, -1);
    IS(answer.reply, MG_NO_REPLY);
    IS(mg_release_value(host, 1, 1, 1, NULL, NULL), MG_BAD_ARGUMENT);
    IS(mg_convert_value(NULL, 1, 1, 1, MG_NL, 0, ONE, &answer), MG_BAD_ARGUMENT);
    IS(mg_release_value(host, 1, 1, 0, ONE, &answer), MG_BAD_ARGUMENT);
    IS(mg_convert_value(host, 1, 1, 1, 6, 0, ONE, &answer), MG_BAD_ARGUMENT);
    IS(mg_value(host, 1, NULL), MG_BAD_ARGUMENT);
    IS(mg_value(NULL, 1, &value), MG_BAD_ARGUMENT);
}

static void passed(struct mg_host *first, struct mg_host *second) {
    struct mg_answer answer;
    struct mg_value value;
    char text[MG_TEXT_SIZE];
    IS(mg_look(first, NULL), MG_OK);
    IS(mg_value(first, 1, &value), MG_NO_SUCH_LOCK);
    IS(mg_enqueue(first, 1, 1, 1, MG_EX, "seats", 0, &answer), MG_OK);
    HAS(first, 1, NONE, MG_VALID);
    IS(mg_value(first, 0, &value), MG_NO_SUCH_LOCK);
    IS(mg_value(first, 65537, &value), MG_NO_SUCH_LOCK); /* not lock 1 */

    /* Downward from EX: stored, and read by the other host. */
    IS(mg_convert_value(first, 1, 2, 1, MG_NL, 0, ONE, &answer), MG_OK);
    IS(answer.reply, MG_GRANTED);
    IS(mg_enqueue(second, 2, 1, 2, MG_PW, "seats", 0, &answer), MG_OK);
    HAS(second, 2, ONE, MG_VALID);

    /* Upward: granted, and the bytes are dropped. */
    IS(mg_convert_value(second, 2, 2, 2, MG_EX, 0, LOST, &answer), MG_OK);
    IS(answer.reply, MG_GRANTED);
    HAS(second, 2, ONE, MG_VALID);

    /* A release of EX stores, one of NL does not. */
    IS(mg_release_value(second, 2, 3, 2, TWO, &answer), MG_OK);
    IS(answer.reply, MG_RELEASED);
    IS(mg_value(second, 2, &value), MG_NO_SUCH_LOCK);
    HAS(first, 1, TWO, MG_VALID);
    IS(mg_enqueue(second, 2, 4, 2, MG_NL, "seats", 0, &answer), MG_OK);
    IS(mg_release_value(second, 2, 5, 2, LOST, &answer), MG_OK);
    HAS(first, 1, TWO, MG_VALID);

    /* A purge of EX makes it invalid, and leaves the bytes. */
    IS(mg_convert(first, 1, 3, 1, MG_EX, 0, &answer), MG_OK);
    IS(mg_enqueue(second, 2, 6, 2, MG_NL, "seats", 0, &answer), MG_OK);
    IS(mg_purge(second, 2, 7, 0, &answer), MG_OK);
    IS(answer.purged, 1);
    HAS(second, 2, TWO, 0);
    IS(mg_text(second, text, sizeof text, NULL), MG_OK);
    IS_TEXT(text, "seats 6f6e65207468617420666f6c6c6f7700 invalid\n  granted 2 2 1 NL\n");

    /* The next that is stored is valid; and with the name's last lock all is over. */
    IS(mg_convert(second, 2, 8, 2, MG_EX, 0, &answer), MG_OK);
    IS(mg_convert_value(second, 2, 9, 2, MG_PR, 0, ONE, &answer), MG_OK);
    HAS(second, 2, ONE, MG_VALID);
    IS(mg_release(second, 2, 10, 2, &answer), MG_OK);
    IS(mg_enqueue(second, 2, 11, 2, MG_NL, "seats", 0, &answer), MG_OK);
    HAS(second, 2, NONE, MG_VALID);
}

int main(int argc, char **argv) {
    struct mg_host *first, *second;
    if (argc != 2)
        return 2;
    IS(mg_format(argv[1], 3, 32, 7, NULL), MG_OK);
    if (mg_open(argv[1], 0, &first, NULL) != MG_OK || mg_open(argv[1], 1, &second, NULL) != MG_OK)
        return 1;
    bad_arguments(first);
    passed(first, second);
    mg_close(first);
    mg_close(second);
    if (failures == 0)
        puts("values: as they should be");
    return failures != 0;
}
