/* A log as a file, laid out as Aeron lays it out: the three terms, then the metadata section of 320 bytes, padded with zeros to 4096. A log is written, put
 * into a file, read back into fresh memory, replayed and gone on with.
 *
 * Two numbers of the section are there for Aeron's own clients, and the record has them for that alone: opening leaves them 0, every call carries them, and no
 * call sets them. A Java client wants the page size, a power of two from 4096 to 2^30, and refuses a log without one; and the correlation id, the number by
 * which its driver registered the publication. This program writes both into the record itself.
 *
 * What the section does not have, a reader of the file has to be told: session, stream, publication limit, whether it is closed, how far the slowest reader is,
 * and which partitions are cleared. Here they are kept in a struct; beside a real file they would stand in another one. */
#include <inttypes.h>
#include <stdio.h>
#include <stdlib.h>
#include <string.h>

#include "logbuffer.h"

enum { TERM = 65536, LOG = 3 * TERM, MTU = 1408, SESSION = 11, STREAM = 22, LONGEST = 3000, PAGE = 4096, CORRELATION = 1926 };

static void must(int32_t code) {
    if (code != LOGBUFFER_DONE) {
        fprintf(stderr, "%s\n", logbuffer_strerror(code));
        exit(1);
    }
}

static void expect(int holds, const char *what) {
    if (!holds) {
        fprintf(stderr, "%s\n", what);
        exit(1);
    }
}

/* Message number i, of 0 to 2999 bytes, some of them longer than one frame holds. */
static size_t text(size_t i, uint8_t *bytes) {
    size_t length = i * 37 % LONGEST;
    for (size_t k = 0; k < length; k++) bytes[k] = (uint8_t)(i * 31 + k);
    return length;
}

/* What a record has beside the fields of its section. */
struct beside {
    int32_t session_id, stream_id;
    int64_t publication_limit;
    bool is_closed;
    int64_t slowest_position;
    uint64_t cleared_marks;
};

/* Offers message number i, again where the log was rotated. */
static int64_t write_message(struct logbuffer_record *rec, uint8_t *log, size_t i) {
    static uint8_t message[LONGEST];
    size_t length = text(i, message);
    struct logbuffer_offer_reply o = logbuffer_offer(rec, log, LOG, message, length, 0);
    if (o.rule == LOGBUFFER_RULE_TERM_ROTATED) o = logbuffer_offer(rec, log, LOG, message, length, 0);
    must(o.code);
    return o.position;
}

/* Two terms full, and a message in the third. Answers how many there are. */
static size_t write_log(struct logbuffer_record *rec, uint8_t *log) {
    must(logbuffer_open(rec, log, LOG, TERM, MTU, 7, SESSION, STREAM));
    must(logbuffer_set_publication_limit(rec, LOG));
    rec->page_size = PAGE;
    rec->correlation_id = CORRELATION;
    size_t written = 0, bytes = 0;
    int64_t position = 0;
    static uint8_t message[LONGEST];
    while (rec->active_term_count < 2) {
        position = write_message(rec, log, written);
        bytes += text(written++, message);
    }
    printf("written: %zu messages, %zu bytes, up to position %" PRId64 "\n", written, bytes, position);
    return written;
}

/* ---- the file */

static void put(FILE *file, const uint8_t *bytes, size_t length) {
    expect(fwrite(bytes, 1, length, file) == length, "the file can't be written");
}

static void get(FILE *file, uint8_t *bytes, size_t length) {
    expect(fread(bytes, 1, length, file) == length, "the file is too short");
}

/* The three terms, the section, zeros. What the section does not have goes into `beside`. */
static void save(FILE *file, const struct logbuffer_record *rec, const uint8_t *log, struct beside *beside) {
    uint8_t section[LOGBUFFER_METADATA_FILE_LENGTH] = {0};
    must(logbuffer_write_metadata(rec, section, LOGBUFFER_METADATA_LENGTH));
    put(file, log, LOG);
    put(file, section, sizeof section);
    *beside = (struct beside){rec->session_id, rec->stream_id, rec->publication_limit, rec->is_closed, rec->slowest_position, rec->cleared_marks};
    printf("file: %ld bytes, three terms of %d, a section of %d, zeros up to %d\n", ftell(file), TERM, LOGBUFFER_METADATA_LENGTH,
           LOGBUFFER_METADATA_FILE_LENGTH);
}

/* The same back, into memory of its own: the section first, which says how long the terms are. */
static uint8_t *load(FILE *file, struct logbuffer_record *rec, struct beside beside) {
    uint8_t section[LOGBUFFER_METADATA_LENGTH];
    expect(fseek(file, -LOGBUFFER_METADATA_FILE_LENGTH, SEEK_END) == 0, "no place for a section in the file");
    long terms = ftell(file);
    get(file, section, sizeof section);
    *rec = (struct logbuffer_record){.session_id = beside.session_id,
                                     .stream_id = beside.stream_id,
                                     .publication_limit = beside.publication_limit,
                                     .is_closed = beside.is_closed,
                                     .slowest_position = beside.slowest_position,
                                     .cleared_marks = beside.cleared_marks};
    must(logbuffer_read_metadata(rec, section, sizeof section));
    expect(terms == 3L * rec->term_length, "the file is not three terms and a section");
    uint8_t *log = malloc((size_t)terms);
    expect(log != NULL, "no memory");
    rewind(file);
    get(file, log, (size_t)terms);
    printf("read back: term length %" PRId32 ", mtu %" PRId32 ", initial term id %" PRId32 ", count %" PRId32 ", page size %" PRId32
           ", correlation id %" PRId64 "\n",
           rec->term_length, rec->mtu_length, rec->initial_term_id, rec->active_term_count, rec->page_size, rec->correlation_id);
    return log;
}

/* ---- what was read */

static void replay_log(const struct logbuffer_record *rec, const uint8_t *log, size_t written) {
    static uint8_t buffer[16 * (TERM / 8)], wanted[LONGEST];
    struct logbuffer_replay replay;
    logbuffer_replay_new(&replay, 0, rec->session_id);
    size_t messages = 0, bytes = 0;
    for (;;) {
        struct logbuffer_next_reply n = logbuffer_replay_next(&replay, rec, log, LOG, buffer, sizeof buffer);
        must(n.code);
        if (n.place == LOGBUFFER_NOTHING) break;
        const uint8_t *message = (n.place == LOGBUFFER_IN_LOG ? log : buffer) + n.start;
        expect(n.length == text(messages, wanted) && memcmp(message, wanted, n.length) == 0, "another message came back");
        messages++;
        bytes += n.length;
    }
    expect(messages == written, "not every message came back");
    printf("replayed: %zu messages, %zu bytes, each as it was written\n", messages, bytes);
}

/* A section with a byte in a gap is none, nor is one that is cut short; the record stays as it was. */
static void refused(const struct logbuffer_record *rec) {
    uint8_t section[LOGBUFFER_METADATA_LENGTH];
    must(logbuffer_write_metadata(rec, section, sizeof section));
    struct logbuffer_record other = *rec;
    section[LOGBUFFER_METADATA_LENGTH - 1] = 1;
    int32_t code = logbuffer_read_metadata(&other, section, sizeof section);
    printf("a byte where no field is: %" PRId32 ", %s\n", code, logbuffer_strerror(code));
    section[LOGBUFFER_METADATA_LENGTH - 1] = 0;
    code = logbuffer_read_metadata(&other, section, sizeof section - 1);
    printf("a byte less: %" PRId32 "\n", code);
    must(logbuffer_read_metadata(&other, section, sizeof section));
}

int main(void) {
    static uint8_t first[LOG];
    struct logbuffer_record rec, back;
    struct beside beside;
    size_t written = write_log(&rec, first);
    FILE *file = tmpfile();
    expect(file != NULL, "no temporary file");
    save(file, &rec, first, &beside);
    uint8_t *log = load(file, &back, beside);
    fclose(file);
    replay_log(&back, log, written);
    printf("one message more: position %" PRId64 "\n", write_message(&back, log, written));
    replay_log(&back, log, written + 1);
    refused(&back);
    free(log);
    return 0;
}
