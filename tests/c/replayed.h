/* What the test programs share: a log of three terms, a replay of it held to the messages that should come back, and a way out. */
#ifndef REPLAYED_H
#define REPLAYED_H

#include <inttypes.h>
#include <stdio.h>
#include <stdlib.h>
#include <string.h>

#include "logbuffer.h"

enum { TERM = 65536, LOG = 3 * TERM, MTU = 1408, SESSION = 11 };

static uint8_t log_bytes[LOG];
static uint8_t buffer[16 * (TERM / 8)]; /* a part holds the longest message: an eighth of a term */

struct message {
    const uint8_t *bytes;
    size_t length;
};

static void expect(int holds, const char *what, size_t where) {
    if (!holds) {
        printf("\nwrong at %zu: %s\n", where, what);
        exit(1);
    }
}

/* Batches with lent numbers for so many messages give the same list, and then the same refusal or the end, at every call. */
static void batched(const struct logbuffer_record *rec, const uint8_t *log, const struct message *list, size_t count, size_t most,
                    int32_t code, size_t where) {
    size_t numbers[4 * 7 + 3], laid = 0;
    struct logbuffer_replay at;
    logbuffer_replay_new(&at, 0, SESSION);
    for (int after = 0; after < 2;) {
        struct logbuffer_batch_reply b = logbuffer_replay_next_batch(&at, rec, log, LOG, buffer, sizeof buffer, numbers, 4 * most + most % 4);
        if (b.code != 0 || b.messages == 0) {
            expect(laid == count && b.code == code, "a batch ends elsewhere", where);
            after++;
            continue;
        }
        expect(after == 0 && b.messages <= most && laid + b.messages <= count, "a batch with too many messages", where);
        for (size_t i = 0; i < b.messages; i++, laid++) {
            const size_t *n = numbers + 4 * i;
            expect(n[0] == LOGBUFFER_IN_LOG || (n[0] == LOGBUFFER_IN_BUFFER && i + 1 == b.messages), "a message in the buffer that is not the last", where);
            const uint8_t *bytes = (n[0] == LOGBUFFER_IN_LOG ? log : buffer) + n[1];
            expect(n[2] == list[laid].length && memcmp(bytes, list[laid].bytes, n[2]) == 0, "another message in a batch", where);
        }
    }
}

static size_t place; /* of the frame that the last replay was refused at: its offset in its term */

/* Replays a log up to its end or a refusal, holds each message to the list, and answers the refusal's number. */
static int32_t replayed(const struct logbuffer_record *rec, const uint8_t *log, const struct message *list, size_t count, size_t where) {
    struct logbuffer_replay at;
    logbuffer_replay_new(&at, 0, SESSION);
    for (size_t i = 0;; i++) {
        struct logbuffer_next_reply n = logbuffer_replay_next(&at, rec, log, LOG, buffer, sizeof buffer);
        if (n.code != 0 || n.place == LOGBUFFER_NOTHING) {
            expect(i == count, "not as many messages as there should be", where);
            struct logbuffer_count_reply c = logbuffer_replay_count(rec, log, LOG, 0, SESSION, buffer, sizeof buffer);
            place = n.start;
            batched(rec, log, list, count, 1 + where % 7, n.code, where);
            expect(c.code == n.code && c.messages == (c.code != 0 ? place : count), "the count is another", where);
            return n.code;
        }
        const uint8_t *bytes = (n.place == LOGBUFFER_IN_LOG ? log : buffer) + n.start;
        expect(i < count, "a message that should not be", where);
        expect(n.length == list[i].length && memcmp(bytes, list[i].bytes, n.length) == 0, "another message", where);
    }
}

#endif
