/* A log in memory, used from C: opened, written by offers and claims, refused once, and replayed, also past a claim that nobody finishes. Build and run it with run.sh; read
 * include/logbuffer.h next. */
#include <inttypes.h>
#include <stdio.h>
#include <stdlib.h>
#include <string.h>

#include "logbuffer.h"

enum { TERM = 65536 };

static uint8_t log_bytes[3 * TERM];
static uint8_t buffer[16 * (TERM / 8)]; /* a part holds the longest message: an eighth of a term */

/* A call that the program goes on from: it has to be done. */
static void must(int32_t code) {
    if (code != LOGBUFFER_DONE) {
        fprintf(stderr, "%s\n", logbuffer_strerror(code));
        exit(1);
    }
}

static void told(const char *call, int32_t code, int64_t position) {
    if (code == 0) {
        printf("%s: position %" PRId64 "\n", call, position);
    } else {
        printf("%s: refused, %" PRId32 ": %s\n", call, code, logbuffer_strerror(code));
    }
}

static void offer(struct logbuffer_record *rec, const char *call, const uint8_t *message, size_t length) {
    struct logbuffer_offer_reply o = logbuffer_offer(rec, log_bytes, sizeof log_bytes, message, length, 0);
    told(call, o.code, o.position);
}

/* A block of find numbers, ten for every 32 bytes of the log: it begins here, and no two requests' blocks overlap. */
static int64_t block(int64_t position) {
    return (position - 32) / 32 * 10;
}

/* An offer that asks for a block. */
static void request(struct logbuffer_record *rec, const char *call, const char *text) {
    struct logbuffer_offer_reply o = logbuffer_offer(rec, log_bytes, sizeof log_bytes, (const uint8_t *)text, strlen(text), 0);
    told(call, o.code, o.position);
    if (o.code == 0) {
        printf("  finds %" PRId64 " to %" PRId64 "\n", block(o.position), block(o.position) + 9);
    }
}

/* Claims room for a text, writes it in place, and commits or aborts it. */
static void claim(struct logbuffer_record *rec, const char *call, const char *text, bool keep) {
    struct logbuffer_claim_reply c = logbuffer_try_claim(rec, log_bytes, sizeof log_bytes, (int32_t)strlen(text));
    told(call, c.code, c.position);
    int32_t code = logbuffer_claim_write(rec, log_bytes, sizeof log_bytes, c.claim, (const uint8_t *)text, strlen(text));
    printf("  write: %" PRId32 "\n", code);
    code = keep ? logbuffer_commit(rec, log_bytes, sizeof log_bytes, c.claim) : logbuffer_abort(rec, log_bytes, sizeof log_bytes, c.claim);
    printf("  %s: %" PRId32 "\n", keep ? "commit" : "abort", code);
}

/* Tells an empty place from a frame that is still being written, where a reader stopped. */
static void stopped(const struct logbuffer_record *rec, int64_t position) {
    struct logbuffer_frame_length_reply f = logbuffer_frame_length(rec, log_bytes, sizeof log_bytes, (int32_t)(position / TERM % 3),
                                                                   (int32_t)(position % TERM));
    if (f.state == LOGBUFFER_WRITING) {
        printf("  a frame of %zu bytes is being written there\n", f.length);
    } else {
        printf("  %s there\n", f.state == LOGBUFFER_FREE ? "nothing is written" : "a finished frame stands");
    }
}

static void replay(const struct logbuffer_record *rec) {
    struct logbuffer_replay at;
    logbuffer_replay_new(&at, 0, rec->session_id);
    for (;;) {
        struct logbuffer_next_reply n = logbuffer_replay_next(&at, rec, log_bytes, sizeof log_bytes, buffer, sizeof buffer);
        if (n.code != 0 || n.place == LOGBUFFER_NOTHING) {
            printf("replay ends: code %" PRId32 ", position %" PRId64 "\n", n.code, at.image.position);
            stopped(rec, at.image.position);
            return;
        }
        const uint8_t *bytes = n.place == LOGBUFFER_IN_LOG ? log_bytes : buffer;
        int shown = n.length < 24 ? (int)n.length : 24;
        printf("replay: %zu bytes, \"%.*s\"\n", n.length, shown, (const char *)bytes + n.start);
    }
}

int main(void) {
    struct logbuffer_record rec;
    printf("open: %" PRId32 "\n", logbuffer_open(&rec, log_bytes, sizeof log_bytes, TERM, 96, 7, 11, 22));
    offer(&rec, "offer before a limit is set", (const uint8_t *)"coin", 4);
    /* two terms ahead of the slowest reader, here at 0: include/logbuffer.h says why, and season.c how to go on for longer */
    must(logbuffer_set_publication_limit(&rec, 2 * TERM));
    request(&rec, "offer of 4 bytes", "coin");
    claim(&rec, "claim of 8 bytes", "potsherd", true);
    claim(&rec, "claim of 6 bytes", "fibula", false);
    uint8_t long_message[200];
    memset(long_message, 'x', sizeof long_message);
    offer(&rec, "offer of 200 bytes, in fragments", long_message, sizeof long_message);
    struct logbuffer_claim_reply left = logbuffer_try_claim(&rec, log_bytes, sizeof log_bytes, 5);
    told("claim of 5 bytes, left open", left.code, left.position);
    offer(&rec, "offer behind it", (const uint8_t *)"pin", 3);
    replay(&rec);
    printf("abort: %" PRId32 "\n", logbuffer_abort(&rec, log_bytes, sizeof log_bytes, left.claim));
    must(logbuffer_close(&rec));
    offer(&rec, "offer after close", (const uint8_t *)"late", 4);
    replay(&rec);
    struct logbuffer_count_reply n = logbuffer_replay_count(&rec, log_bytes, sizeof log_bytes, 0, 11, buffer, sizeof buffer);
    printf("count: %zu messages, %zu bytes\n", n.messages, n.bytes);
    return 0;
}
