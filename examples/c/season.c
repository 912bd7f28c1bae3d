/* A season of twelve terms in a log that has room for three. Two readers follow: one replays from where it stands, the other polls and lags behind. Whenever the
 * writer is held up the readers read, the slowest one's position is told to the record, the partition that is due is cleared, and the limit is raised. Each
 * reader checks that every message comes once, in order and byte for byte. Last, a writer with a limit that is too high meets 19, and what to do then. */
#include <inttypes.h>
#include <stdio.h>
#include <stdlib.h>
#include <string.h>

#include "logbuffer.h"

enum { TERM = 65536, LOG = 3 * TERM, MTU = 1408, TERMS = 12, SESSION = 11, LONGEST = 3000, PART = TERM / 8 };

static uint8_t log_bytes[LOG];
static struct logbuffer_record rec;

static void must(int32_t code) {
    if (code != LOGBUFFER_DONE) {
        fprintf(stderr, "%s\n", logbuffer_strerror(code));
        exit(1);
    }
}

static void expect(int holds, const char *what) {
    if (!holds) {
        fprintf(stderr, "%s\n", what);
        exit(1);
    }
}

/* Message number i, of 0 to 2999 bytes, some of them longer than one frame holds. */
static size_t text(size_t i, uint8_t *bytes) {
    size_t length = i * 37 % LONGEST;
    for (size_t k = 0; k < length; k++) bytes[k] = (uint8_t)(i * 31 + k);
    return length;
}

/* ---- two readers, who know the messages and count them */

struct reader {
    const char *name;
    size_t messages, bytes;
    uint8_t buffer[16 * PART];
};

static struct reader replaying = {.name = "the one that replays"}, polling = {.name = "the one that polls"};
static struct logbuffer_replay replay;
static struct logbuffer_image image;
static struct logbuffer_assembler assembler;

/* It is the next one, byte for byte. */
static void met(struct reader *reader, const uint8_t *bytes, size_t length) {
    static uint8_t wanted[LONGEST];
    expect(length == text(reader->messages, wanted) && memcmp(bytes, wanted, length) == 0, "a reader met another message");
    reader->messages++;
    reader->bytes += length;
}

/* All that there is, from where the replay stands. */
static void read_by_replay(void) {
    for (;;) {
        struct logbuffer_next_reply n = logbuffer_replay_next(&replay, &rec, log_bytes, LOG, replaying.buffer, sizeof replaying.buffer);
        must(n.code);
        if (n.place == LOGBUFFER_NOTHING) return;
        met(&replaying, (n.place == LOGBUFFER_IN_LOG ? log_bytes : replaying.buffer) + n.start, n.length);
    }
}

/* A fragment at a time, no more than a third of a term, and never past the publisher's position: a poll does not look at a frame's term. */
static void read_by_polls(void) {
    int64_t end = image.position + TERM / 3;
    struct logbuffer_position_reply published = logbuffer_position(&rec);
    must(published.code);
    while (image.position < end && image.position < published.position) {
        int32_t entries[2];
        int64_t before = image.position;
        struct logbuffer_poll_reply p = logbuffer_image_bounded_poll(&image, &rec, log_bytes, LOG, published.position, 1, entries, 2);
        must(p.code);
        if (p.entries == 0 && image.position == before) return;
        if (p.entries == 0) continue; /* padding was passed */
        int32_t offset = entries[0] - LOGBUFFER_HEADER_LENGTH;
        struct logbuffer_assembly_reply a =
            logbuffer_assembler_on_fragment(&assembler, &rec, log_bytes, LOG, p.partition, offset, polling.buffer, sizeof polling.buffer);
        must(a.code);
        if (a.place == LOGBUFFER_IN_LOG) met(&polling, log_bytes + (size_t)p.partition * TERM + a.start, a.length);
        if (a.place == LOGBUFFER_IN_BUFFER) met(&polling, polling.buffer + a.start, a.length);
    }
}

/* ---- keeping the log going */

static size_t clearings;

static bool is_cleared(int32_t partition) {
    return rec.cleared_marks >> partition & 1;
}

/* The slowest reader has come so far; what lies before may go. */
static void keep_going(void) {
    int64_t slowest = replay.image.position < image.position ? replay.image.position : image.position;
    must(logbuffer_set_slowest_position(&rec, slowest));
    int32_t due = (rec.active_term_count + 1) % 3;
    if (!is_cleared(due)) {
        int32_t code = logbuffer_clear_partition(&rec, log_bytes, LOG, due);
        clearings += code == LOGBUFFER_DONE;
        must(code == LOGBUFFER_NOT_DUE ? LOGBUFFER_DONE : code); /* the slowest reader is still in it: later */
    }
    must(logbuffer_set_publication_limit(&rec, (slowest / TERM + 2) * TERM));
}

static size_t rotations, waits;

/* Message number i is offered until it is accepted. With this limit 19 never comes. */
static void write_message(size_t i) {
    static uint8_t message[LONGEST];
    size_t length = text(i, message);
    for (;;) {
        struct logbuffer_offer_reply o = logbuffer_offer(&rec, log_bytes, LOG, message, length, 0);
        if (o.code == LOGBUFFER_DONE) return;
        if (o.rule == LOGBUFFER_RULE_TERM_ROTATED) {
            rotations++;
        } else if (o.code == LOGBUFFER_BACK_PRESSURED) {
            waits++;
            read_by_replay();
            read_by_polls();
        } else {
            must(o.code);
        }
        keep_going();
    }
}

static void season(void) {
    must(logbuffer_open(&rec, log_bytes, LOG, TERM, MTU, 7, SESSION, 22));
    logbuffer_replay_new(&replay, 0, SESSION);
    logbuffer_image_new(&image, 0, SESSION);
    logbuffer_assembler_new(&assembler);
    keep_going();
    size_t written = 0;
    while (rec.active_term_count < TERMS) write_message(written++);
    while (replaying.messages < written || polling.messages < written) {
        read_by_replay();
        read_by_polls();
        keep_going();
    }
    printf("%zu messages in %" PRId32 " full terms, %zu rotations, each partition cleared before it is used again: %zu clearings\n", written,
           rec.active_term_count, rotations, clearings);
    printf("%s: %zu messages, %zu bytes\n", replaying.name, replaying.messages, replaying.bytes);
    printf("%s: %zu messages, %zu bytes\n", polling.name, polling.messages, polling.bytes);
    expect(waits > 0, "nobody had to wait");
}

/* A limit that lets the writer into a partition which is not cleared. */
static void too_far(void) {
    must(logbuffer_open(&rec, log_bytes, LOG, TERM, MTU, 7, SESSION, 22));
    must(logbuffer_set_publication_limit(&rec, 8 * TERM));
    static const uint8_t message[1376];
    struct logbuffer_offer_reply o;
    do {
        o = logbuffer_offer(&rec, log_bytes, LOG, message, sizeof message, 0);
    } while (o.code == LOGBUFFER_DONE || o.code == LOGBUFFER_ADMIN_ACTION);
    printf("in term %" PRId32 ": %" PRId32 ", %s\n", rec.active_term_count, o.code, logbuffer_strerror(o.code));
    /* each call more would move the tail on, so first the partition is cleared: all readers have left the first term */
    must(logbuffer_set_slowest_position(&rec, TERM));
    must(logbuffer_clear_partition(&rec, log_bytes, LOG, 0));
    o = logbuffer_offer(&rec, log_bytes, LOG, message, sizeof message, 0);
    printf("cleared: %" PRId32 ", %s\n", o.code, o.rule == LOGBUFFER_RULE_TERM_ROTATED ? "the log has been rotated" : logbuffer_strerror(o.code));
    o = logbuffer_offer(&rec, log_bytes, LOG, message, sizeof message, 0);
    must(o.code);
    printf("again: position %" PRId64 "\n", o.position);
}

int main(void) {
    season();
    too_far();
    return 0;
}
