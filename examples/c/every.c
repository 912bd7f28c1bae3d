/* Every call of include/logbuffer.h, with numbers that differ from each other, and every number of every reply printed: a parameter or a
 * field that stood in another place than in the archive would print something else. This is a test; log.c is the example to read. */
#include <inttypes.h>
#include <stdio.h>
#include <stdlib.h>
#include <string.h>

#include "logbuffer.h"

enum { TERM = 65536 };

static uint8_t log_bytes[3 * TERM], second_log[3 * TERM];
static uint8_t buffer[16 * 8192];
static int32_t entries[8];

/* A call that the program goes on from: it has to be done. */
static void must(int32_t code) {
    if (code != LOGBUFFER_DONE) {
        fprintf(stderr, "%s\n", logbuffer_strerror(code));
        exit(1);
    }
}

/* Prints a call, then each number after its name; the names are parted by blanks. */
static void say(const char *call, const char *names, const int64_t *numbers) {
    printf("%s:", call);
    for (const char *end; *names; names = *end ? end + 1 : end) {
        end = names + strcspn(names, " ");
        printf(" %.*s %" PRId64, (int)(end - names), names, *numbers++);
    }
    printf("\n");
}
#define SAY(call, names, ...) say(call, names, (int64_t[]){__VA_ARGS__})

static void say_record(const char *call, struct logbuffer_record r, int32_t code) {
    SAY(call, "code tail tail tail count initial term mtu session stream connected limit end closed slowest marks transports page correlation", code,
        r.tails[0], r.tails[1], r.tails[2], r.active_term_count, r.initial_term_id, r.term_length, r.mtu_length, r.session_id, r.stream_id,
        r.is_connected, r.publication_limit, r.end_of_stream_position, r.is_closed, r.slowest_position, (int64_t)r.cleared_marks,
        r.active_transport_count, r.page_size, r.correlation_id);
}

static void say_claim(const char *call, struct logbuffer_claim c) {
    SAY(call, "partition offset length term_id", c.partition, c.offset, c.length, c.term_id);
}

static void say_image(const char *call, struct logbuffer_image i) {
    SAY(call, "position session closed eos", i.position, i.session_id, i.is_closed, i.is_eos);
}

static void say_assembler(const char *call, struct logbuffer_assembler a) {
    SAY(call, "count id id id held held held", a.count, a.ids[0], a.ids[1], a.ids[15], a.held[0], a.held[1], a.held[15]);
}

static void say_poll(const char *call, struct logbuffer_image next, struct logbuffer_poll_reply p) {
    SAY(call, "code fragments entries partition", p.code, p.fragments, p.entries, p.partition);
    say_image("  next", next);
    SAY("  entries", "offset length offset length", entries[0], entries[1], entries[2], entries[3]);
    memset(entries, 0, sizeof entries);
}

static void numbers(void) {
    int64_t tail = ((int64_t)7 << 32) + 96;
    SAY("align", "of_33", logbuffer_align(33));
    SAY("is_power_of_two", "of_64 of_65", logbuffer_is_power_of_two(64), logbuffer_is_power_of_two(65));
    SAY("term_id", "id", logbuffer_term_id(tail));
    SAY("term_offset", "offset", logbuffer_term_offset(tail, TERM));
    SAY("index_by_term_count", "of_5", logbuffer_index_by_term_count(5));
    SAY("index_by_position", "index", logbuffer_index_by_position(131136, 16));
    SAY("position_bits_to_shift", "bits", logbuffer_position_bits_to_shift(TERM));
    struct logbuffer_position_reply p = logbuffer_compute_position(9, 64, 16, 7);
    SAY("compute_position", "code position", p.code, p.position);
}

/* A log with messages at 0 (4 bytes), at 128 (5 bytes) and from 256 to 448 (100 bytes, two fragments), and padding at 64 and 192. The three numbers that are
 * the caller's are set once, and stay. */
static struct logbuffer_record written(void) {
    struct logbuffer_record rec;
    int32_t code = logbuffer_open(&rec, log_bytes, sizeof log_bytes, TERM, 96, 7, 11, 22);
    say_record("open", rec, code);
    rec.active_transport_count = 0x0c0b0a09;
    rec.page_size = 4096;
    rec.correlation_id = 0x0807060504030201;
    code = logbuffer_set_publication_limit(&rec, 2 * TERM);
    say_record("set_publication_limit", rec, code);
    struct logbuffer_offer_reply o = logbuffer_offer(&rec, log_bytes, sizeof log_bytes, (const uint8_t *)"coin", 4, 77);
    say_record("offer", rec, o.code);
    SAY("  answer", "position rule", o.position, o.rule);
    struct logbuffer_claim_reply c = logbuffer_try_claim(&rec, log_bytes, sizeof log_bytes, 6);
    say_record("try_claim", rec, c.code);
    SAY("  answer", "position rule", c.position, c.rule);
    say_claim("  claim", c.claim);
    SAY("abort", "code", logbuffer_abort(&rec, log_bytes, sizeof log_bytes, c.claim));
    c = logbuffer_try_claim(&rec, log_bytes, sizeof log_bytes, 5);
    struct logbuffer_span_reply s = logbuffer_claim_body(&rec, log_bytes, sizeof log_bytes, c.claim);
    SAY("claim_body", "code start length", s.code, s.start, s.length);
    memcpy(log_bytes + s.start, "shard", s.length);
    SAY("commit", "code", logbuffer_commit(&rec, log_bytes, sizeof log_bytes, c.claim));
    SAY("claim_body_number", "code", logbuffer_claim_body_number(&rec, log_bytes, sizeof log_bytes, c.claim));
    c = logbuffer_try_claim(&rec, log_bytes, sizeof log_bytes, 7);
    must(logbuffer_abort(&rec, log_bytes, sizeof log_bytes, c.claim));
    uint8_t message[100];
    memset(message, 'x', sizeof message);
    must(logbuffer_offer(&rec, log_bytes, sizeof log_bytes, message, sizeof message, 88).code);
    return rec;
}

static void positions(struct logbuffer_record rec) {
    struct logbuffer_position_reply p = logbuffer_position(&rec);
    SAY("position", "code position", p.code, p.position);
    p = logbuffer_publication_limit(&rec);
    SAY("publication_limit", "code position", p.code, p.position);
    p = logbuffer_available_window(&rec);
    SAY("available_window", "code position", p.code, p.position);
    struct logbuffer_record turned = rec;
    int32_t code = logbuffer_rotate_log(&turned, 0, 7);
    say_record("rotate_log", turned, code);
    code = logbuffer_close(&rec);
    say_record("close", rec, code);
}

/* A second log, of session 13 and stream 26, whose partitions 1 and 2 are written with term ids 18 and 19. */
static struct logbuffer_record appended(void) {
    struct logbuffer_record rec;
    must(logbuffer_open(&rec, second_log, sizeof second_log, TERM, 96, 20, 13, 26));
    uint8_t message[100];
    memset(message, 'y', sizeof message);
    struct logbuffer_append_reply a =
        logbuffer_append_unfragmented_message(&rec, second_log, sizeof second_log, 1, message, 30, 55, 18);
    say_record("append_unfragmented_message", rec, a.code);
    SAY("  answer", "tripped offset", a.is_tripped, a.offset);
    a = logbuffer_append_fragmented_message(&rec, second_log, sizeof second_log, 2, message, 100, 33, 64, 19);
    say_record("append_fragmented_message", rec, a.code);
    SAY("  answer", "tripped offset", a.is_tripped, a.offset);
    struct logbuffer_append_claim_reply c = logbuffer_append_claim(&rec, second_log, sizeof second_log, 2, 10, 19);
    say_record("append_claim", rec, c.code);
    SAY("  answer", "tripped offset", c.is_tripped, c.offset);
    say_claim("  claim", c.claim);
    struct logbuffer_record full = rec;
    full.tails[1] = ((int64_t)18 << 32) + TERM;
    struct logbuffer_record again = full;
    a = logbuffer_append_unfragmented_message(&full, second_log, sizeof second_log, 1, message, 30, 55, 18);
    SAY("  a message where the term is full", "code tripped offset", a.code, a.is_tripped, a.offset);
    struct logbuffer_append_claim_reply t = logbuffer_append_claim(&again, second_log, sizeof second_log, 1, 10, 18);
    SAY("  a claim there", "code tripped offset", t.code, t.is_tripped, t.offset);
    return rec;
}

static void frames(struct logbuffer_record rec) {
    struct logbuffer_header_reply h = logbuffer_header_fields(&rec, second_log, sizeof second_log, 2, 96);
    struct logbuffer_header f = h.fields;
    SAY("header_fields", "code length version flags type offset session stream term_id reserved position", h.code, f.frame_length,
        f.version, f.flags, f.frame_type, f.term_offset, f.session_id, f.stream_id, f.term_id, f.reserved_value, f.position);
    struct logbuffer_frame_length_reply l = logbuffer_frame_length(&rec, second_log, sizeof second_log, 2, 96);
    SAY("frame_length", "code state length", l.code, l.state, l.length);
    l = logbuffer_frame_length(&rec, second_log, sizeof second_log, 2, 192);
    SAY("  of an open claim", "code state length", l.code, l.state, l.length);
    struct logbuffer_read_reply r = logbuffer_read(&rec, second_log, sizeof second_log, 2, 0, 3, entries, 8);
    SAY("read", "code offset fragments", r.code, r.offset, r.fragments);
    SAY("  entries", "offset length offset length", entries[0], entries[1], entries[2], entries[3]);
    memset(entries, 0, sizeof entries);
    struct logbuffer_span_reply v = logbuffer_view(&rec, second_log, sizeof second_log, 2, 128, 36);
    SAY("view", "code start length", v.code, v.start, v.length);
    /* of offset and length it judges the sum alone, so here an exchange could not show */
    SAY("view_number", "code", logbuffer_view_number(&rec, second_log, sizeof second_log, 2, 65536, 1));
    SAY("view_number", "code", logbuffer_view_number(&rec, second_log, sizeof second_log, 2, 65535, 1));
    struct logbuffer_scan_reply s = logbuffer_scan(&rec, second_log, sizeof second_log, 2, 96, 4000);
    SAY("scan", "code offset", s.code, s.offset);
    struct logbuffer_gap_reply g = logbuffer_scan_for_gap(&rec, second_log, sizeof second_log, 2, 19, 96, 4096);
    SAY("scan_for_gap", "code gap being_written term_id offset length", g.code, g.is_gap, g.is_being_written, g.term_id, g.offset,
        g.length);
    struct logbuffer_availability_reply a = logbuffer_scan_for_availability(&rec, second_log, sizeof second_log, 2, 96, 128);
    SAY("scan_for_availability", "code padding available", a.code, a.padding, a.available);
    second_log[2 * TERM + 6] = 0; /* the first frame, of 96 bytes, is padding for a while */
    a = logbuffer_scan_for_availability(&rec, second_log, sizeof second_log, 2, 0, 64);
    SAY("  padding of 96, maximum 64", "code padding available", a.code, a.padding, a.available);
    second_log[2 * TERM + 6] = 1;
    a = logbuffer_scan_for_availability(&rec, second_log, sizeof second_log, 3, 0, 64);
    SAY("  partition 3", "code padding available", a.code, a.padding, a.available);
}

/* The same readers in the third partition, two of whose frames are finished, and where they are refused. */
static void elsewhere(struct logbuffer_record rec) {
    static const uint8_t actions[2] = {4, 4};
    struct logbuffer_image i, moved;
    logbuffer_image_new(&i, 5 * TERM, 33);
    moved = i;
    struct logbuffer_poll_reply q = logbuffer_image_poll(&moved, &rec, second_log, sizeof second_log, 4, entries, 8);
    say_poll("image_poll, partition 2", moved, q);
    struct logbuffer_peek_reply p =
        logbuffer_image_controlled_peek(&i, &rec, second_log, sizeof second_log, 5 * TERM + 96, 6 * TERM, entries, 8, actions, 2);
    SAY("image_controlled_peek, partition 2", "code entries position partition", p.code, p.entries, p.position, p.partition);
    p = logbuffer_image_controlled_peek(&i, &rec, second_log, sizeof second_log, 0, 6 * TERM, entries, 8, actions, 2);
    SAY("  from 0", "code entries position partition", p.code, p.entries, p.position, p.partition);
    struct logbuffer_block_reply b = logbuffer_image_block_poll(&i, &rec, second_log, sizeof second_log, 4000);
    SAY("image_block_poll, partition 2", "code partition offset length", b.code, b.partition, b.offset, b.length);
    b = logbuffer_image_block_poll(&i, &rec, second_log, sizeof second_log, 4000);
    SAY("  at the open claim", "code partition offset length", b.code, b.partition, b.offset, b.length);
    i.position += 8;
    b = logbuffer_image_block_poll(&i, &rec, second_log, sizeof second_log, 4000);
    SAY("  at no multiple of 32", "code partition offset length", b.code, b.partition, b.offset, b.length);
    q = logbuffer_image_poll(&i, &rec, second_log, sizeof second_log, 4, entries, 8);
    SAY("image_poll, at no multiple of 32", "code fragments entries partition", q.code, q.fragments, q.entries, q.partition);
    memset(entries, 0, sizeof entries);
}

static void images(struct logbuffer_record rec) {
    static const uint8_t actions[5] = {4, 1, 3, 2, 4};
    struct logbuffer_image i, moved;
    logbuffer_image_new(&i, 64, 33);
    say_image("image_new", i);
    moved = i;
    struct logbuffer_poll_reply q = logbuffer_image_poll(&moved, &rec, log_bytes, sizeof log_bytes, 2, entries, 8);
    say_poll("image_poll", moved, q);
    moved = i;
    q = logbuffer_image_bounded_poll(&moved, &rec, log_bytes, sizeof log_bytes, 160, 3, entries, 8);
    say_poll("image_bounded_poll", moved, q);
    moved = i;
    q = logbuffer_image_controlled_poll(&moved, &rec, log_bytes, sizeof log_bytes, 3, entries, 8, actions, 5);
    say_poll("image_controlled_poll", moved, q);
    struct logbuffer_peek_reply p =
        logbuffer_image_controlled_peek(&i, &rec, log_bytes, sizeof log_bytes, 128, 400, entries, 8, actions + 2, 2);
    SAY("image_controlled_peek", "code entries position partition", p.code, p.entries, p.position, p.partition);
    SAY("  entries", "offset length offset length", entries[0], entries[1], entries[2], entries[3]);
    SAY("image_set_position", "code", logbuffer_image_set_position(&i, &rec, log_bytes, sizeof log_bytes, 128));
    say_image("  next", i);
    struct logbuffer_block_reply b = logbuffer_image_block_poll(&i, &rec, log_bytes, sizeof log_bytes, 100);
    SAY("image_block_poll", "code partition offset length session term_id", b.code, b.partition, b.offset, b.length, b.session_id,
        b.term_id);
    say_image("  next", i);
    rec.end_of_stream_position = 192;
    struct logbuffer_end_of_stream_reply e = logbuffer_image_is_end_of_stream(&i, &rec, log_bytes, sizeof log_bytes);
    SAY("image_is_end_of_stream", "code eos", e.code, e.is_eos);
    rec.end_of_stream_position = 193;
    SAY("image_close", "code", logbuffer_image_close(&i, &rec, log_bytes, sizeof log_bytes));
    say_image("  next", i);
}

static void assemblies(struct logbuffer_record rec) {
    struct logbuffer_assembler a;
    logbuffer_assembler_new(&a);
    say_assembler("assembler_new", a);
    static const int32_t places[3][2] = {{1, 0}, {2, 0}, {2, 96}};
    for (int k = 0; k < 3; k++) {
        struct logbuffer_assembly_reply r = logbuffer_assembler_on_fragment(&a, &rec, second_log, sizeof second_log, places[k][0],
                                                                            places[k][1], buffer, sizeof buffer);
        SAY("assembler_on_fragment", "code place start length", r.code, r.place, r.start, r.length);
        say_assembler("  next", a);
    }
}

static void replays(struct logbuffer_record rec) {
    struct logbuffer_replay replay;
    logbuffer_replay_new(&replay, 0, 44);
    say_image("replay_new", replay.image);
    say_assembler("  assembler", replay.assembler);
    replay.assembler.count = 1; /* a session entered before, so that the message lies in the second part */
    replay.assembler.ids[0] = 9;
    for (int k = 0; k < 4; k++) {
        struct logbuffer_next_reply n = logbuffer_replay_next(&replay, &rec, log_bytes, sizeof log_bytes, buffer, sizeof buffer);
        SAY("replay_next", "code place start length", n.code, n.place, n.start, n.length);
        say_image("  image", replay.image);
        say_assembler("  assembler", replay.assembler);
    }
    logbuffer_replay_new(&replay, 0, 44);
    for (int k = 0; k < 3; k++) {
        size_t numbers[9] = {0}; /* two messages and a rest */
        struct logbuffer_batch_reply b =
            logbuffer_replay_next_batch(&replay, &rec, log_bytes, sizeof log_bytes, buffer, sizeof buffer, numbers, 9);
        SAY("replay_next_batch", "code messages", b.code, b.messages);
        for (size_t i = 0; i < b.messages; i++) {
            const size_t *m = numbers + 4 * i;
            SAY("  message", "place start length position", m[0], m[1], m[2], m[3]);
        }
        say_image("  image", replay.image);
        say_assembler("  assembler", replay.assembler);
    }
    struct logbuffer_count_reply c = logbuffer_replay_count(&rec, log_bytes, sizeof log_bytes, 128, 55, buffer, sizeof buffer);
    SAY("replay_count", "code messages bytes", c.code, c.messages, c.bytes);
}

static void say_card(const char *call, struct logbuffer_card_read_reply r) {
    SAY(call, "code bits find trench context material weight note_start note_length", r.code, r.card.bits, r.card.find, r.card.trench,
        r.card.context, r.card.material, r.card.weight, r.note_start, r.note_length);
}

/* A card of all six fields, one of two, one read with a byte too many, one without room, and a broken one. */
static void cards(void) {
    static const uint8_t note[4] = {'r', 'i', 'm', '?'};
    struct logbuffer_card card = {63, 67305985, 1541, 2055, 3, 202050057};
    uint8_t out[LOGBUFFER_CARD_MAX_LENGTH];
    struct logbuffer_card_write_reply w = logbuffer_card_write(card, note, sizeof note, out, sizeof out);
    SAY("card_write", "code length", w.code, w.length);
    SAY("  bytes", "0 1 5 7 9 10 14 15 18", out[0], out[1], out[5], out[7], out[9], out[10], out[14], out[15], out[18]);
    say_card("card_read", logbuffer_card_read(out, w.length));
    say_card("card_read", logbuffer_card_read(out, w.length + 1));
    card.bits = 35;
    w = logbuffer_card_write(card, note, 3, out, sizeof out);
    SAY("card_write", "code length", w.code, w.length);
    say_card("card_read", logbuffer_card_read(out, w.length));
    w = logbuffer_card_write(card, note, 3, out, w.length - 1);
    SAY("card_write", "code length", w.code, w.length);
    card.bits = 34;
    w = logbuffer_card_write(card, note, 3, out, 0);
    SAY("card_write", "code length", w.code, w.length);
}

/* A term full of messages of 33 to 64 bytes, with padding at its end, laid on the shelf and taken back; a term that is not full; a shelf with
 * one header more; an output that is too short. */
static void shelves(void) {
    static uint8_t shelf[TERM + LOGBUFFER_SHELF_COUNT_LENGTH], back[TERM], message[64];
    memset(message, 9, sizeof message);
    struct logbuffer_record rec;
    must(logbuffer_open(&rec, second_log, sizeof second_log, TERM, 96, 7, 33, 44));
    must(logbuffer_set_publication_limit(&rec, 2 * TERM));
    int32_t code = 0;
    for (size_t k = 0; code == 0; k++) code = logbuffer_offer(&rec, second_log, sizeof second_log, message, 33 + k % 32, 0).code;
    SAY("shelve", "code", logbuffer_shelve(&rec, second_log, sizeof second_log, 0, shelf, sizeof shelf));
    size_t n = shelf[0] + 256 * shelf[1];
    SAY("  shelf", "frames length length flags type last_type body body", n, shelf[4], shelf[5], shelf[4 + 5 * n], shelf[4 + 6 * n],
        shelf[4 + 6 * n + n - 1], shelf[4 + 32 * n], shelf[4 + 32 * n + 33]);
    SAY("unshelve", "code", logbuffer_unshelve(&rec, shelf, sizeof shelf, back, sizeof back));
    SAY("  term", "is_the_same", memcmp(back, second_log, TERM) == 0);
    SAY("shelve", "code", logbuffer_shelve(&rec, second_log, sizeof second_log, 1, shelf, sizeof shelf));
    shelf[0]++;
    SAY("unshelve", "code", logbuffer_unshelve(&rec, shelf, sizeof shelf, back, sizeof back));
    SAY("unshelve", "code", logbuffer_unshelve(&rec, shelf, sizeof shelf, back, sizeof back - 1));
}

/* The number that reading a section answers with one byte changed by so much, and a record lent whose slowest reader is so far. */
static int32_t read_changed(const uint8_t *section, size_t at, int change, int64_t slowest) {
    uint8_t other[LOGBUFFER_METADATA_LENGTH];
    memcpy(other, section, sizeof other);
    other[at] = (uint8_t)(other[at] + change);
    struct logbuffer_record rec = {.session_id = 33, .slowest_position = slowest};
    return logbuffer_read_metadata(&rec, other, sizeof other);
}

/* A section written, some of its bytes, and read beside other numbers than it was written with. Outputs and sections of another size, a record out of its
 * ranges, and both; a byte of each gap, the header length, an odd mtu, both, a slowest reader out of its range. */
static void metadata(struct logbuffer_record rec) {
    uint8_t s[LOGBUFFER_METADATA_LENGTH + 1];
    memset(s, 238, sizeof s);
    rec.active_term_count = 3;
    rec.is_connected = 5;
    SAY("write_metadata", "code", logbuffer_write_metadata(&rec, s, LOGBUFFER_METADATA_LENGTH));
    SAY("  bytes", "0 1 4 12 20 24 27 28 127 128 135 136 140 143 144 255", s[0], s[1], s[4], s[12], s[20], s[24], s[27], s[28], s[127], s[128], s[135],
        s[136], s[140], s[143], s[144], s[255]);
    SAY("  bytes", "256 263 264 268 272 276 278 280 281 284 319 320", s[256], s[263], s[264], s[268], s[272], s[276], s[278], s[280], s[281], s[284],
        s[319], s[320]);
    struct logbuffer_record back = {.session_id = 33, .stream_id = 44, .publication_limit = 77, .is_closed = true, .slowest_position = 64, .cleared_marks = 5};
    int32_t code = logbuffer_read_metadata(&back, s, LOGBUFFER_METADATA_LENGTH);
    say_record("read_metadata", back, code);
    struct logbuffer_record broken = rec;
    broken.mtu_length = 65;
    SAY("write_metadata", "shorter longer empty broken both", logbuffer_write_metadata(&rec, s, 319), logbuffer_write_metadata(&rec, s, 321),
        logbuffer_write_metadata(&rec, s, 0), logbuffer_write_metadata(&broken, s, 320), logbuffer_write_metadata(&broken, s, 319));
    SAY("read_metadata", "shorter longer empty", logbuffer_read_metadata(&back, s, 319), logbuffer_read_metadata(&back, s, 321),
        logbuffer_read_metadata(&back, s, 0));
    SAY("read_metadata", "28 127 144 255 284 319", read_changed(s, 28, 1, 0), read_changed(s, 127, 1, 0), read_changed(s, 144, 1, 0),
        read_changed(s, 255, 1, 0), read_changed(s, 284, 1, 0), read_changed(s, 319, 1, 0));
    SAY("read_metadata", "header mtu tail slowest header_and_slowest", read_changed(s, 268, 1, 0), read_changed(s, 272, 1, 0), read_changed(s, 0, 1, 0),
        read_changed(s, 281, 1, 33), read_changed(s, 268, 1, 33));
    SAY("read_metadata", "page connected id", read_changed(s, 281, 1, 32), read_changed(s, 136, 1, 32), read_changed(s, 264, 1, 32));
}

static void say_tally(struct logbuffer_tally_reply t) {
    SAY("tally", "code stop position writing body headers slack padding", t.code, t.stop, t.position, t.writing, t.sums.body, t.sums.headers,
        t.sums.slack, t.sums.padding);
}

static void say_partition(const char *name, struct logbuffer_sums s) {
    SAY(name, "body headers slack padding", s.body, s.headers, s.slack, s.padding);
}

static void say_partitions(struct logbuffer_partition_tally_reply t) {
    SAY("tally by partition", "code stop position writing body headers slack padding", t.code, t.stop, t.position, t.writing, t.sums.body,
        t.sums.headers, t.sums.slack, t.sums.padding);
    say_partition("  0", t.partitions.p0);
    say_partition("  1", t.partitions.p1);
    say_partition("  2", t.partitions.p2);
}

/* A message, an aborted claim, a message in fragments, an open claim: from 0 to the term's end, to the aborted claim's end and into it, and from behind the
 * open claim on; frames of another term; a length of 5 behind a frame and at the start; positions not in order and not on a boundary. */
static void tallies(void) {
    static const uint8_t message[100] = {7};
    struct logbuffer_record rec;
    must(logbuffer_open(&rec, second_log, sizeof second_log, TERM, 96, 7, 33, 44));
    must(logbuffer_set_publication_limit(&rec, 2 * TERM));
    must(logbuffer_offer(&rec, second_log, sizeof second_log, message, 5, 0).code);
    struct logbuffer_claim_reply c = logbuffer_try_claim(&rec, second_log, sizeof second_log, 33);
    must(logbuffer_abort(&rec, second_log, sizeof second_log, c.claim));
    must(logbuffer_offer(&rec, second_log, sizeof second_log, message, 100, 0).code);
    must(logbuffer_try_claim(&rec, second_log, sizeof second_log, 10).code);
    say_tally(logbuffer_tally(&rec, second_log, sizeof second_log, 0, TERM));
    say_tally(logbuffer_tally(&rec, second_log, sizeof second_log, 0, 160));
    say_tally(logbuffer_tally(&rec, second_log, sizeof second_log, 0, 128));
    say_tally(logbuffer_tally(&rec, second_log, sizeof second_log, 416, TERM));
    say_tally(logbuffer_tally(&rec, second_log, sizeof second_log, 3 * TERM, 4 * TERM));
    second_log[64] = 5;
    say_tally(logbuffer_tally(&rec, second_log, sizeof second_log, 0, TERM));
    say_tally(logbuffer_tally(&rec, second_log, sizeof second_log, 64, TERM));
    say_tally(logbuffer_tally(&rec, second_log, sizeof second_log, 64, 32));
    say_tally(logbuffer_tally(&rec, second_log, sizeof second_log, 0, 40));
}

/* Offers of 40 bytes, 682 to a term and then padding, until the fourth term is full and the next partition not cleared. From behind the first message of the second term, which lies in partition 1, to before
 * the padding of the fourth, which lies in partition 0; from the last message of a term to the first of the next. Then a frame being written first in partition 2, past which the walk
 * does not come; bytes in four terms; positions not on a boundary; a length of 5 first. */
static void partitions(void) {
    static const uint8_t message[40] = {7};
    struct logbuffer_record rec;
    must(logbuffer_open(&rec, second_log, sizeof second_log, TERM, 96, 7, 33, 44));
    must(logbuffer_set_publication_limit(&rec, 8 * TERM));
    for (int32_t code = 0; code != LOGBUFFER_NOT_CLEARED;) {
        if (rec.active_term_count == 2 && rec.cleared_marks == 0) {
            must(logbuffer_set_slowest_position(&rec, TERM));
            must(logbuffer_clear_partition(&rec, second_log, sizeof second_log, 0));
        }
        code = logbuffer_offer(&rec, second_log, sizeof second_log, message, sizeof message, 0).code;
        must(code == LOGBUFFER_ADMIN_ACTION || code == LOGBUFFER_NOT_CLEARED ? 0 : code);
    }
    say_partitions(logbuffer_tally_by_partition(&rec, second_log, sizeof second_log, TERM + 96, 4 * TERM - 64));
    say_partitions(logbuffer_tally_by_partition(&rec, second_log, sizeof second_log, 2 * TERM - 64 - 96, 2 * TERM + 96));
    memset(second_log + 2 * TERM, 255, 4);
    say_partitions(logbuffer_tally_by_partition(&rec, second_log, sizeof second_log, TERM, 4 * TERM));
    say_partitions(logbuffer_tally_by_partition(&rec, second_log, sizeof second_log, TERM + 32, 4 * TERM + 32));
    say_partitions(logbuffer_tally_by_partition(&rec, second_log, sizeof second_log, TERM + 8, 4 * TERM + 8));
    second_log[TERM + 96] = 5;
    say_partitions(logbuffer_tally_by_partition(&rec, second_log, sizeof second_log, TERM + 96, 2 * TERM));
}

static void say_holding(struct logbuffer_holding_reply h) {
    SAY("holding", "code stop position writing", h.code, h.stop, h.position, h.writing);
    SAY("  card", "bits find trench context material weight note_length", h.card.bits, h.card.find, h.card.trench, h.card.context, h.card.material,
        h.card.weight, h.note_length);
    SAY("  ends", "find trench context material weight note", h.ends.find, h.ends.trench, h.ends.context, h.ends.material, h.ends.weight, h.ends.note);
    SAY("  note", "first last behind", h.note[0], h.note[h.note_length ? h.note_length - 1 : 0], h.note[254]);
}

static void offer_card(struct logbuffer_record *rec, struct logbuffer_card card, const char *note) {
    uint8_t bytes[LOGBUFFER_CARD_MAX_LENGTH];
    struct logbuffer_card_write_reply w = logbuffer_card_write(card, (const uint8_t *)note, strlen(note), bytes, sizeof bytes);
    must(w.code);
    must(logbuffer_offer(rec, second_log, sizeof second_log, bytes, w.length, 0).code);
}

/* A find, weighed again, with a note that is cut into fragments, moved to another context; between them another find and a message that is no card. To the
 * free place, up to the second weighing, of a find that has no card; a length of 5 at the start; positions not in order and not on a boundary. */
static void holdings(void) {
    struct logbuffer_record rec;
    must(logbuffer_open(&rec, second_log, sizeof second_log, TERM, 96, 7, 33, 44));
    must(logbuffer_set_publication_limit(&rec, 2 * TERM));
    offer_card(&rec, (struct logbuffer_card){.bits = 31, .find = 1001, .trench = 4, .context = 17, .material = 2, .weight = 38}, "");
    offer_card(&rec, (struct logbuffer_card){.bits = 17, .find = 1002, .weight = 900}, "");
    offer_card(&rec, (struct logbuffer_card){.bits = 17, .find = 1001, .weight = 36}, "");
    must(logbuffer_offer(&rec, second_log, sizeof second_log, (const uint8_t *)"good morning", 12, 0).code);
    offer_card(&rec, (struct logbuffer_card){.bits = 33, .find = 1001}, "a coin of the second phase, worn on one side, found while sieving the spoil");
    offer_card(&rec, (struct logbuffer_card){.bits = 5, .find = 1001, .context = 19}, "");
    say_holding(logbuffer_holding(&rec, second_log, sizeof second_log, 1001, 0, TERM));
    say_holding(logbuffer_holding(&rec, second_log, sizeof second_log, 1001, 0, 128));
    say_holding(logbuffer_holding(&rec, second_log, sizeof second_log, 1003, 0, TERM));
    second_log[0] = 5;
    say_holding(logbuffer_holding(&rec, second_log, sizeof second_log, 1001, 0, TERM));
    say_holding(logbuffer_holding(&rec, second_log, sizeof second_log, 1001, 64, 32));
    say_holding(logbuffer_holding(&rec, second_log, sizeof second_log, 1001, 0, 40));
}

static void say_offer(const char *call, struct logbuffer_record rec, struct logbuffer_offer_reply o) {
    say_record(call, rec, o.code);
    SAY("  answer", "position rule", o.position, o.rule);
}

/* Of offers of 64 bytes the 682 that a term has room for, and one more, which trips. */
static struct logbuffer_offer_reply filled(struct logbuffer_record *rec) {
    static const uint8_t message[64] = {7};
    for (int i = 0; i < 682; i++) must(logbuffer_offer(rec, second_log, sizeof second_log, message, sizeof message, 0).code);
    return logbuffer_offer(rec, second_log, sizeof second_log, message, sizeof message, 0);
}

/* The slowest reader raised, and not raised: 3 below 0, past the greatest position and not a multiple of 32; 15. A partition cleared, and not: 1, 2, 20. */
static void clearings(struct logbuffer_record *rec) {
    SAY("set_slowest_position", "not_aligned negative past", logbuffer_set_slowest_position(rec, 8), logbuffer_set_slowest_position(rec, -32),
        logbuffer_set_slowest_position(rec, ((int64_t)TERM << 31) + 32));
    struct logbuffer_record last = *rec;
    int32_t code = logbuffer_set_slowest_position(&last, (int64_t)TERM << 31);
    SAY("set_slowest_position", "greatest lower", code, logbuffer_set_slowest_position(&last, 32));
    code = logbuffer_set_slowest_position(rec, 64);
    say_record("set_slowest_position", *rec, code);
    SAY("set_slowest_position", "again lower", logbuffer_set_slowest_position(rec, 64), logbuffer_set_slowest_position(rec, 32));
    SAY("clear_partition", "3 negative shorter_log 0 2", logbuffer_clear_partition(rec, second_log, sizeof second_log, 3),
        logbuffer_clear_partition(rec, second_log, sizeof second_log, -1), logbuffer_clear_partition(rec, second_log, sizeof second_log - 1, 1),
        logbuffer_clear_partition(rec, second_log, sizeof second_log, 0), logbuffer_clear_partition(rec, second_log, sizeof second_log, 2));
    code = logbuffer_clear_partition(rec, second_log, sizeof second_log, 1);
    say_record("clear_partition", *rec, code);
}

/* Four terms in a log of three: the trip from the third is refused 19 until the slowest reader has left the first and its partition is cleared. Then replays from the
 * second term and from the fourth, which lies where the first lay. Last, 2 for a slowest reader out of its range, and both calls after close. */
static void seasons(void) {
    struct logbuffer_record rec;
    must(logbuffer_open(&rec, second_log, sizeof second_log, TERM, 96, 7, 33, 44));
    must(logbuffer_set_publication_limit(&rec, 8 * TERM));
    clearings(&rec);
    struct logbuffer_offer_reply o = filled(&rec);
    say_offer("offer that trips in term 0", rec, o);
    o = filled(&rec);
    say_offer("offer that trips in term 1", rec, o);
    o = filled(&rec);
    say_offer("offer that trips in term 2", rec, o);
    struct logbuffer_claim_reply c = logbuffer_try_claim(&rec, second_log, sizeof second_log, 10);
    say_record("try_claim", rec, c.code);
    SAY("  answer", "position rule", c.position, c.rule);
    SAY("clear_partition", "too_early", logbuffer_clear_partition(&rec, second_log, sizeof second_log, 0));
    must(logbuffer_set_slowest_position(&rec, TERM));
    SAY("  bytes", "0 65536", second_log[0], second_log[TERM]);
    int32_t code = logbuffer_clear_partition(&rec, second_log, sizeof second_log, 0);
    say_record("clear_partition", rec, code);
    SAY("  bytes", "0 65536", second_log[0], second_log[TERM]);
    SAY("clear_partition", "again", logbuffer_clear_partition(&rec, second_log, sizeof second_log, 0));
    o = logbuffer_offer(&rec, second_log, sizeof second_log, (const uint8_t *)"coin", 4, 0);
    say_offer("offer again", rec, o);
    o = logbuffer_offer(&rec, second_log, sizeof second_log, (const uint8_t *)"coin", 4, 0);
    say_offer("offer once more", rec, o);
    struct logbuffer_count_reply n = logbuffer_replay_count(&rec, second_log, sizeof second_log, TERM, 33, buffer, sizeof buffer);
    SAY("replay_count", "code messages bytes", n.code, n.messages, n.bytes);
    struct logbuffer_replay replay;
    logbuffer_replay_new(&replay, 3 * TERM, 33);
    say_image("replay_new", replay.image);
    struct logbuffer_next_reply next = logbuffer_replay_next(&replay, &rec, second_log, sizeof second_log, buffer, sizeof buffer);
    SAY("replay_next", "code place start length", next.code, next.place, next.start, next.length);
    logbuffer_replay_new(&replay, 3 * TERM - 160, 33);
    size_t numbers[12] = {0};
    struct logbuffer_batch_reply b = logbuffer_replay_next_batch(&replay, &rec, second_log, sizeof second_log, buffer, sizeof buffer, numbers, 12);
    SAY("replay_next_batch", "code messages", b.code, b.messages);
    for (size_t i = 0; i < b.messages; i++) {
        const size_t *m = numbers + 4 * i;
        SAY("  message", "place start length position", m[0], m[1], m[2], m[3]);
    }
    struct logbuffer_record broken = rec;
    broken.slowest_position = 33;
    SAY("slowest at 33", "offer claim limit raise clear", logbuffer_offer(&broken, second_log, sizeof second_log, (const uint8_t *)"coin", 4, 0).code,
        logbuffer_try_claim(&broken, second_log, sizeof second_log, 4).code, logbuffer_set_publication_limit(&broken, 0),
        logbuffer_set_slowest_position(&broken, 64), logbuffer_clear_partition(&broken, second_log, sizeof second_log, 1));
    must(logbuffer_close(&rec));
    code = logbuffer_set_slowest_position(&rec, 2 * TERM);
    SAY("after close", "raise clear", code, logbuffer_clear_partition(&rec, second_log, sizeof second_log, 1));
}

int main(void) {
    printf("face: %" PRIu32 "\n", logbuffer_face_4());
    numbers();
    struct logbuffer_record rec = written(), second = appended();
    positions(rec);
    frames(second);
    images(rec);
    elsewhere(second);
    assemblies(second);
    replays(rec);
    cards();
    shelves();
    metadata(rec);
    tallies();
    partitions();
    holdings();
    seasons();
    return 0;
}
