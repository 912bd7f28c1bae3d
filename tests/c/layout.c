/* The structs that the caller keeps, against the words of crates/capi/specs/Words.antt: size and offsets when compiled; and, run, that calls which
 * are refused leave every byte, those between the fields too, and that calls which are not leave the bytes between the fields, and the record's
 * three numbers that no call looks at. Last, a metadata section written and read. */
#include <stddef.h>

#include "replayed.h"

#define AT(type, field, word, byte) _Static_assert(offsetof(struct type, field) == 8 * (word) + (byte), #type "." #field)
_Static_assert(sizeof(struct logbuffer_record) == 14 * 8, "a record is 14 words");
AT(logbuffer_record, tails, 0, 0);
AT(logbuffer_record, active_term_count, 3, 0);
AT(logbuffer_record, initial_term_id, 3, 4);
AT(logbuffer_record, term_length, 4, 0);
AT(logbuffer_record, mtu_length, 4, 4);
AT(logbuffer_record, session_id, 5, 0);
AT(logbuffer_record, stream_id, 5, 4);
AT(logbuffer_record, is_connected, 6, 0);
AT(logbuffer_record, publication_limit, 7, 0);
AT(logbuffer_record, end_of_stream_position, 8, 0);
AT(logbuffer_record, is_closed, 9, 0);
AT(logbuffer_record, slowest_position, 10, 0);
AT(logbuffer_record, cleared_marks, 11, 0);
AT(logbuffer_record, active_transport_count, 12, 0);
AT(logbuffer_record, page_size, 12, 4);
AT(logbuffer_record, correlation_id, 13, 0);
_Static_assert(sizeof(struct logbuffer_image) == 2 * 8, "an image is 2 words");
AT(logbuffer_image, position, 0, 0);
AT(logbuffer_image, session_id, 1, 0);
AT(logbuffer_image, is_closed, 1, 4);
AT(logbuffer_image, is_eos, 1, 5);
_Static_assert(sizeof(struct logbuffer_assembler) == 25 * 8, "an assembler is 25 words");
AT(logbuffer_assembler, count, 0, 0);
AT(logbuffer_assembler, ids, 1, 0);
AT(logbuffer_assembler, held, 9, 0);
_Static_assert(sizeof(struct logbuffer_replay) == 27 * 8, "a replay is 27 words");
AT(logbuffer_replay, image, 0, 0);
AT(logbuffer_replay, assembler, 2, 0);
_Static_assert(sizeof(struct logbuffer_claim) == 2 * 8, "a claim is 2 words");
AT(logbuffer_claim, partition, 0, 0);
AT(logbuffer_claim, offset, 0, 4);
AT(logbuffer_claim, length, 1, 0);
AT(logbuffer_claim, term_id, 1, 4);

/* A record between two margins, all of it bytes. */
static struct {
    uint8_t before[64], record[112], after[64];
} memory, kept;

enum { TRANSPORTS = -3, PAGE = 4096 };
static const int64_t CORRELATION = -0x0123456789abcdef;

static struct logbuffer_record *rec(void) {
    return (struct logbuffer_record *)memory.record;
}

/* The bytes between the record's fields, the bits above the three marks, and the three numbers that are the caller's, set; opening has made them 0. */
static void fill_gaps(void) {
    memset(memory.record + 52, 0xa7, 4);
    memset(memory.record + 73, 0xb9, 7);
    rec()->cleared_marks |= 0xf1e2d3c4b5a69780;
    rec()->active_transport_count = TRANSPORTS;
    rec()->page_size = PAGE;
    rec()->correlation_id = CORRELATION;
}

static bool gaps_are_kept(void) {
    bool same = rec()->active_transport_count == TRANSPORTS && rec()->page_size == PAGE && rec()->correlation_id == CORRELATION;
    for (int i = 0; i < 4; i++) same &= memory.record[52 + i] == 0xa7;
    for (int i = 0; i < 7; i++) same &= memory.record[73 + i] == 0xb9;
    return same && (rec()->cleared_marks & ~(uint64_t)7) == 0xf1e2d3c4b5a69780;
}

static void refused(const char *call, int32_t code, int32_t wanted) {
    printf("%s: refused %" PRId32 ", every byte stays\n", call, code);
    expect(code == wanted && memcmp(&memory, &kept, sizeof memory) == 0, call, (size_t)code);
}

static void refused_quietly(const char *call, int32_t code, int32_t wanted) {
    expect(code == wanted && memcmp(&memory, &kept, sizeof memory) == 0, call, (size_t)code);
}

static void done(const char *call, int32_t code) {
    printf("%s: the bytes between the fields and the caller's three numbers stay\n", call);
    expect(code == 0 && gaps_are_kept(), call, (size_t)code);
    expect(memcmp(memory.before, kept.before, 64) == 0 && memcmp(memory.after, kept.after, 64) == 0, "a margin", 0);
    kept = memory;
}

/* A section written and read: a refusal leaves every byte, of the output and of the record; done, the record's gaps are 0, its flag 0 or 1, its marks three bits. */
static void metadata(void) {
    uint8_t section[322], same[322];
    memset(section, 0xe3, sizeof section);
    memcpy(same, section, sizeof section);
    for (size_t length = 0; length <= 321; length += length < 319 ? 29 : 1) {
        if (length == 320) continue;
        expect(logbuffer_write_metadata(rec(), section + 1, length) == 25 && memcmp(section, same, sizeof section) == 0, "a section of another size", length);
    }
    kept = memory;
    rec()->mtu_length = 65;
    expect(logbuffer_write_metadata(rec(), section + 1, 320) == 2 && memcmp(section, same, sizeof section) == 0, "a section of no record", 2);
    memory = kept;
    expect(logbuffer_write_metadata(rec(), section + 1, 320) == 0 && memcmp(&memory, &kept, sizeof memory) == 0, "a section written", 0);
    expect(section[0] == 0xe3 && section[321] == 0xe3, "a byte beside the section", 0);
    printf("a section of another size, or of no record: every byte stays\n");

    for (size_t length = 0; length <= 321; length += length < 319 ? 29 : 1) {
        if (length != 320) refused_quietly("a section of another size", logbuffer_read_metadata(rec(), section + 1, length), 25);
    }
    memcpy(same, section, sizeof section);
    for (size_t at = 1; at <= 320; at++) {
        bool is_gap = (at > 28 && at <= 128) || (at > 144 && at <= 256) || (at > 268 && at <= 272) || at > 284;
        if (!is_gap) continue;
        section[at] ^= 1u << at % 8;
        refused_quietly("a section with a gap's byte or the header length changed", logbuffer_read_metadata(rec(), section + 1, 320), 25);
        section[at] = same[at];
    }
    section[1 + 272] ^= 1;
    refused_quietly("a section with an odd mtu", logbuffer_read_metadata(rec(), section + 1, 320), 2);
    section[1 + 268] ^= 1;
    refused_quietly("the same with another header length", logbuffer_read_metadata(rec(), section + 1, 320), 25);
    memcpy(section, same, sizeof section);
    printf("a section that is none: refused 25, then 2, every byte of the record stays\n");

    struct logbuffer_record was;
    memcpy(&was, memory.record, sizeof was);
    memset(memory.record, 0xee, sizeof memory.record);
    rec()->session_id = was.session_id;
    rec()->stream_id = was.stream_id;
    rec()->publication_limit = was.publication_limit;
    memory.record[72] = 2;
    rec()->slowest_position = was.slowest_position;
    rec()->cleared_marks = was.cleared_marks | 0xff00;
    expect(logbuffer_read_metadata(rec(), section + 1, 320) == 0 && memcmp(section, same, sizeof section) == 0, "a section read", 0);
    expect(memory.record[72] == 1 && rec()->cleared_marks == (was.cleared_marks & 7), "flag and marks of a record that was read", 1);
    memory.record[72] = 0;
    uint8_t whole[sizeof was] = {0};
    memcpy(whole, &was, 52);
    memcpy(whole + 56, (uint8_t *)&was + 56, 16);
    memcpy(whole + 80, (uint8_t *)&was + 80, 32);
    whole[88] = was.cleared_marks & 7;
    memset(whole + 89, 0, 7);
    expect(memcmp(whole, memory.record, sizeof whole) == 0, "the record that was read is another, or a gap is not 0", 0);
    expect(memcmp(memory.before, kept.before, 64) == 0 && memcmp(memory.after, kept.after, 64) == 0, "a margin", 0);
    printf("a section read: the whole record, its gaps 0\n");
}

int main(void) {
    memset(&memory, 0x5c, sizeof memory);
    kept = memory;
    refused("open", logbuffer_open(rec(), log_bytes, LOG - 1, TERM, MTU, 7, SESSION, 22), 2);
    expect(logbuffer_open(rec(), log_bytes, LOG, TERM, MTU, 7, SESSION, 22) == 0, "open", 0);
    expect(rec()->slowest_position == 0 && rec()->cleared_marks == 6, "the slowest reader and the marks of an opened log", 0);
    expect(rec()->active_transport_count == 0 && rec()->page_size == 0 && rec()->correlation_id == 0, "the caller's numbers of an opened log", 0);
    fill_gaps();
    kept = memory;
    refused("offer over the limit", logbuffer_offer(rec(), log_bytes, LOG, (const uint8_t *)"coin", 4, 0).code, 8);
    refused("limit", logbuffer_set_publication_limit(rec(), -1), 2);
    done("limit", logbuffer_set_publication_limit(rec(), 1 << 20));
    done("offer", logbuffer_offer(rec(), log_bytes, LOG, (const uint8_t *)"coin", 4, 0).code);
    refused("claim", logbuffer_try_claim(rec(), log_bytes, LOG, MTU).code, 4);
    refused("rotation", logbuffer_rotate_log(rec(), -1, 7), 1);
    refused("slowest reader, not aligned", logbuffer_set_slowest_position(rec(), 8), 3);
    done("slowest reader", logbuffer_set_slowest_position(rec(), 64));
    refused("slowest reader, lower", logbuffer_set_slowest_position(rec(), 32), 15);
    refused("clearing what is not due", logbuffer_clear_partition(rec(), log_bytes, LOG, 2), 20);
    done("clearing", logbuffer_clear_partition(rec(), log_bytes, LOG, 1));
    expect(rec()->slowest_position == 64 && (rec()->cleared_marks & 7) == 6, "marks after a clearing", 1);
    done("rotation", logbuffer_rotate_log(rec(), 7, 7));
    expect((rec()->cleared_marks & 7) == 2, "marks after a rotation of another count", 2);
    done("close", logbuffer_close(rec()));
    done("close again", logbuffer_close(rec()));
    refused("offer after close", logbuffer_offer(rec(), log_bytes, LOG, (const uint8_t *)"pin", 3, 0).code, 5);
    memory.record[72] = 2;
    kept = memory;
    refused("offer with the flag's byte 2", logbuffer_offer(rec(), log_bytes, LOG, (const uint8_t *)"pin", 3, 0).code, 5);
    done("close with the flag's byte 2", logbuffer_close(rec()));
    expect(memory.record[72] == 2, "the flag's byte", 2);

    struct message coin = {(const uint8_t *)"coin", 4};
    expect(replayed(rec(), log_bytes, &coin, 1, 0) == 0, "the message does not come back", 0);
    struct logbuffer_image image, was;
    memset(&image, 0xc3, sizeof image);
    logbuffer_image_new(&image, 16, SESSION);
    memset((uint8_t *)&image + 14, 0xd1, 2);
    memcpy(&was, &image, sizeof was);
    int32_t numbers[2];
    int32_t code = logbuffer_image_poll(&image, rec(), log_bytes, LOG, 1, numbers, 2).code;
    expect(code == 3 && memcmp(&was, &image, sizeof was) == 0, "a refused poll changes the image", (size_t)code);
    image.position = 0;
    expect(logbuffer_image_poll(&image, rec(), log_bytes, LOG, 1, numbers, 2).fragments == 1, "a poll", 0);
    expect(logbuffer_image_close(&image, rec(), log_bytes, LOG) == 0 && image.is_closed && !image.is_eos, "closing", 0);
    expect(memcmp((uint8_t *)&was + 14, (uint8_t *)&image + 14, 2) == 0 && image.position == 64 && image.session_id == SESSION, "the image", 0);
    metadata();
    printf("image: a refused poll leaves every byte, a poll and closing those between the fields\n");
    return 0;
}
