/* A log cut off: zeros from some byte on, as a device leaves it that lost power while it copied the log out. Cut at every byte of the
 * last frames and at a sample of bytes before them, each half log is replayed, and no call may trap.
 *
 * - Messages that lie whole before the cut come back, byte for byte, and nothing that lies behind it.
 * - A frame that is cut through behind its length word keeps its length, for that was stored last but stands first in the frame. Cut in
 *   its body, or in its header behind the type, it comes back with zeros from the cut on. A cut before that leaves type 0, which is
 *   padding; and an end fragment cut before its session id is one of another session. Neither gives a message.
 * - A length word that is cut through shows a shorter length, or an open claim's as one above 0, with type 0. The replay then ends there,
 *   or refuses 22 or 23 with the frame's place. */
#include "replayed.h"

enum { MOST = 128, TYPE = 7, ID = 13, HEADER = 32 };

struct frame {
    size_t start, length;
    int message; /* its number, or -1 for a frame that gives none */
    size_t from; /* where its body lies in the message */
    bool begins, ends;
};

static struct frame frames[MOST];
static struct message messages[MOST];
static uint8_t texts[4 * TERM];
static size_t frame_count, message_count, text_length;
static struct logbuffer_record rec;

/* A call that the program goes on from: it has to be done. */
static void must(int32_t code) {
    if (code != LOGBUFFER_DONE) {
        fprintf(stderr, "%s\n", logbuffer_strerror(code));
        exit(1);
    }
}

/* In a stream shorter than three terms a position is an index of the log. */
static size_t tail(void) {
    int k = rec.active_term_count % 3;
    return (size_t)k * TERM + (size_t)(rec.tails[k] & 0xffffffff);
}

static const uint8_t *text(size_t length) {
    uint8_t *bytes = texts + text_length;
    for (size_t i = 0; i < length; i++) {
        bytes[i] = (uint8_t)(1 + (text_length + i) % 255);
    }
    text_length += length;
    return bytes;
}

static void frame(size_t start, size_t length, int message, size_t from, bool begins, bool ends) {
    expect(frame_count < MOST, "too many frames", start);
    frames[frame_count++] = (struct frame){start, length, message, from, begins, ends};
}

/* A trip pads the term and rotates the log; the call is then made again. */
static bool tripped(int32_t code, size_t start) {
    if (code == 6) {
        frame(start, (start / TERM + 1) * TERM - start, -1, 0, true, true);
        return true;
    }
    expect(code == 0, "a call was refused", start);
    return false;
}

static void offer(size_t length) {
    const uint8_t *bytes = text(length);
    struct logbuffer_offer_reply o;
    size_t start;
    do {
        start = tail();
        o = logbuffer_offer(&rec, log_bytes, LOG, bytes, length, 0);
    } while (tripped(o.code, start));
    for (size_t from = 0, part; from < length || from == 0; from += part, start += MTU) {
        part = length - from < MTU - HEADER ? length - from : MTU - HEADER;
        frame(start, part + HEADER, (int)message_count, from, from == 0, from + part == length);
        if (part == 0) {
            break;
        }
    }
    messages[message_count++] = (struct message){bytes, length};
}

enum end { COMMIT, ABORT, LEAVE_OPEN };

static void claim(size_t length, enum end end) {
    const uint8_t *bytes = text(length);
    struct logbuffer_claim_reply c;
    size_t start;
    do {
        start = tail();
        c = logbuffer_try_claim(&rec, log_bytes, LOG, (int32_t)length);
    } while (tripped(c.code, start));
    expect(logbuffer_claim_write(&rec, log_bytes, LOG, c.claim, bytes, length) == 0, "a writing was refused", start);
    if (end == COMMIT) {
        expect(logbuffer_commit(&rec, log_bytes, LOG, c.claim) == 0, "a commit was refused", start);
        frame(start, length + HEADER, (int)message_count, 0, true, true);
        messages[message_count++] = (struct message){bytes, length};
    } else {
        expect(end == LEAVE_OPEN || logbuffer_abort(&rec, log_bytes, LOG, c.claim) == 0, "an abort was refused", start);
        frame(start, length + HEADER, -1, 0, true, true);
    }
}

static void calls(void) {
    must(logbuffer_open(&rec, log_bytes, LOG, TERM, MTU, 7, SESSION, 22));
    must(logbuffer_set_publication_limit(&rec, 1 << 20));
    offer(10);
    offer(0);
    claim(20, COMMIT);
    claim(30, ABORT);
    for (int i = 0; i < 8; i++) {
        offer(8192); /* in six frames each; the last one trips */
    }
    claim(1376, COMMIT);
    offer(1376);
    claim(70, ABORT);
    offer(3000); /* in three frames */
    claim(33, COMMIT);
    offer(5);
    claim(40, LEAVE_OPEN);
}

/* The message with zeros from some byte on. */
static struct message zeroed(struct message m, size_t kept) {
    static uint8_t bytes[TERM / 8];
    memcpy(bytes, m.bytes, kept);
    memset(bytes + kept, 0, m.length - kept);
    return (struct message){bytes, m.length};
}

/* The messages that the cut at c leaves, and how many bytes of the frame that it goes through, 0 for none; `cut_at` is where that frame starts. */
static size_t cut_at;

static size_t left_by(size_t c, struct message *list, size_t *through) {
    size_t count = 0;
    *through = 0;
    for (size_t i = 0; i < frame_count && c > frames[i].start && *through == 0; i++) {
        struct frame f = frames[i];
        bool whole = c >= f.start + f.length;
        *through = whole ? 0 : c - f.start;
        cut_at = f.start;
        if (f.message < 0 || !f.ends || (!whole && *through < (size_t)(f.begins ? TYPE : ID))) {
            continue;
        }
        struct message m = messages[f.message];
        list[count++] = whole ? m : zeroed(m, f.from + (*through < HEADER ? 0 : *through - HEADER));
    }
    return count;
}

static size_t cuts, zero_tails, refusals;

static void cut(size_t c) {
    static uint8_t half[LOG];
    static struct message list[MOST];
    size_t through = 0;
    size_t count = left_by(c, list, &through);
    memcpy(half, log_bytes, c);
    memset(half + c, 0, LOG - c);
    int32_t code = replayed(&rec, half, list, count, c);
    bool bad_frame = code == 22 || code == 23;
    expect(code == 0 || (bad_frame && through > 0 && through < 4 && place == cut_at % TERM), "the replay is refused", c);
    cuts++;
    refusals += bad_frame;
    zero_tails += through != 0 && count > 0 && list[count - 1].bytes != messages[count - 1].bytes;
}

int main(void) {
    calls();
    expect(replayed(&rec, log_bytes, messages, message_count, LOG) == 0, "the whole log is refused", LOG);
    size_t end = tail(), last = frames[frame_count - 8].start;
    printf("%zu messages in %zu frames of %zu bytes come back from the whole log\n", message_count, frame_count, end);
    for (size_t c = 0; c < last; c += 97) {
        cut(c);
    }
    printf("%zu cuts, each 97 bytes apart, before the last 8 frames: %zu messages with zeros, %zu refused 22 or 23\n", cuts, zero_tails, refusals);
    cuts = zero_tails = refusals = 0;
    for (size_t c = last; c <= end; c++) {
        cut(c);
    }
    printf("%zu cuts at every byte of them: %zu messages with zeros, %zu refused 22 or 23\n", cuts, zero_tails, refusals);
    return 0;
}
