/* The log buffer for C: an excavation's log as Aeron lays it out, each function proved equal to a definition in crates/model/specs, for
 * find cards in crates/card/specs, for finished terms on the shelf in crates/shelf/specs, for the metadata section in crates/metadata/specs,
 * for the tally in crates/tally/specs, for the card that holds in crates/holding/specs.
 *
 *   ./archive                                                     builds target/liblogbuffer.a (x86-64)
 *   cc -I include program.c target/liblogbuffer.a                 links it; it needs nothing else
 *
 * How to call it
 * - Nothing is kept between calls: the record, an image, an assembler and a replay are structs of the caller's. A call takes one by a pointer
 *   and changes it in place; where the pointer is to const it only reads it. All memory is the caller's; nothing is allocated.
 * - A slice is a pointer and a count of elements. The pointer must be valid for so many elements, and nothing that is written, slice or struct,
 *   may overlap anything else of the same call. Nothing else is asked: any number and any bytes may be handed in; a bool is yes unless its byte is 0.
 *   A pointer may be NULL where its count is 0. A slice other than the log that is longer than 2147483647 is refused 1.
 * - Arguments come in one order: a reader's own struct (image, assembler, replay), the record, the log, then numbers, and last what else is lent, each slice as
 *   pointer and count: entries before actions, a buffer before the numbers of a batch, a note or a shelf before the output. A writer's message stands where the Rust
 *   has it, before the reserved value.
 * - Callers take turns: while a call writes a log, its record or another struct, no other call may use it. Calls that only read may run at the same time
 *   on a log that nobody is writing, each with a struct of its own.
 * - The record changes in place, so nobody goes on with an old one unless it was copied on purpose. A record kept elsewhere is good with the log as it was then.
 * - `code` is 0, or the number of the refusal below. Where it is not 0 the other values of a reply are 0, and what was lent by a pointer
 *   is as it was, every byte of it, unless the refusal's line or the call's says otherwise. Only `rule` of an offer or a claim always stands.
 * - With 22 and 23 a reply tells the place of the frame, its offset in its term: in `offset` of a read, a scan, a gap scan and a block, in `available`
 *   of an availability scan, in `fragments` of a poll, in `position` of a peek, a tally and a holding, in `start` of the assembler and a replay, in `messages` of a batch
 *   and of a count.
 *
 * Refusals, by number (docs/ERRORS.md says what to do about each)
 *    1  an argument is out of its range               10  message longer than payload limit and message limit
 *    2  the record or the log breaks its ranges       11  tail offset and need together over 2147483647
 *    3  a reader's position is out of its range       12  tripped in the last term (tail and padding stay)
 *    4  claim longer than the payload limit           13  appender: the tail has another term id (the tail has moved)
 *    5  the publication is closed                     14  the header does not show the open claim
 *    6  tripped and rotated: call again (tail,        15  new position before the current one or past the term's end;
 *       padding, rotation stay); or count and id          slowest reader's position lower than it was
 *       differ: not this log's record (`rule` tells)
 *    7  the greatest position is reached (after a     16  new position not a multiple of 32
 *       trip, tail and padding stay)
 *    8  back pressure: the limit is reached           17  retired: no call answers it
 *    9  the same, and not connected                   18  assembler: a 17th session; or fragments longer than their part
 *                                                         (their session stays entered, emptied)
 *                                                     19  tripped, and the next partition is not cleared: clear it before the
 *                                                         next call (tail and padding stay)
 *                                                     20  the partition to be cleared is not due, or a reader still needs it
 *                                                     21  a find card, or bytes, that break its format
 *                                                     22  the first frame has a length of 1 to 31 (with its place)
 *                                                     23  the first frame runs past its term's end (with its place)
 *                                                     24  no finished card of that find (with where the walk ended, and why)
 *                                                     25  no metadata section: another size than 320, a byte that is not 0
 *                                                         where no field is, a header length that is not 32
 *                                                     26  frames that do not fill the term; shelf bytes that no term gives
 *
 * An example
 *
 *   static uint8_t bytes[3 * 65536], buffer[16 * 8192];
 *   struct logbuffer_record rec;
 *   struct logbuffer_replay replay;
 *   logbuffer_open(&rec, bytes, sizeof bytes, 65536, 1408, 7, 11, 22); // answers 0
 *   logbuffer_set_publication_limit(&rec, 2 * 65536); // two terms ahead of the slowest reader, here at 0
 *   struct logbuffer_offer_reply o = logbuffer_offer(&rec, bytes, sizeof bytes, (const uint8_t *)"coin", 4, 0);
 *   // o.code is 0, o.position 64, and the record's first tail has moved
 *   logbuffer_replay_new(&replay, 0, 11);
 *   struct logbuffer_next_reply n = logbuffer_replay_next(&replay, &rec, bytes, sizeof bytes, buffer, sizeof buffer);
 *   // n.place is LOGBUFFER_IN_LOG, and bytes[n.start .. n.start + n.length) is "coin"
 */
#ifndef LOGBUFFER_H
#define LOGBUFFER_H

#include <stdbool.h>
#include <stddef.h>
#include <stdint.h>

/* A reply has to be looked at: it says whether anything was done. */
#if defined(__GNUC__) || defined(__clang__)
#define LOGBUFFER_ANSWER __attribute__((warn_unused_result))
#else
#define LOGBUFFER_ANSWER
#endif

#ifdef __cplusplus
extern "C" {
#endif

/* ---- numbers */

/* The refusals. 17 is retired. */
enum {
    LOGBUFFER_DONE = 0,
    LOGBUFFER_ILLEGAL_ARGUMENT = 1,
    LOGBUFFER_ILLEGAL_RECORD = 2,
    LOGBUFFER_POSITION_OUT_OF_RANGE = 3,
    LOGBUFFER_EXCEEDS_MAX_PAYLOAD_LENGTH = 4,
    LOGBUFFER_PUBLICATION_CLOSED = 5,
    LOGBUFFER_ADMIN_ACTION = 6,
    LOGBUFFER_MAX_POSITION_EXCEEDED = 7,
    LOGBUFFER_BACK_PRESSURED = 8,
    LOGBUFFER_NOT_CONNECTED = 9,
    LOGBUFFER_EXCEEDS_MAX_MESSAGE_LENGTH = 10,
    LOGBUFFER_TAIL_OVERFLOW = 11,
    LOGBUFFER_LAST_TERM = 12,
    LOGBUFFER_ACTION_POSSIBLY_DELAYED = 13,
    LOGBUFFER_CLAIM_MISMATCH = 14,
    LOGBUFFER_NEW_POSITION_OUT_OF_RANGE = 15,
    LOGBUFFER_NEW_POSITION_NOT_ALIGNED = 16,
    LOGBUFFER_ASSEMBLY_FULL = 18,
    LOGBUFFER_NOT_CLEARED = 19,
    LOGBUFFER_NOT_DUE = 20,
    LOGBUFFER_BROKEN_CARD = 21,
    LOGBUFFER_FRAME_TOO_SHORT = 22,
    LOGBUFFER_FRAME_PAST_TERM = 23,
    LOGBUFFER_NO_CARD = 24,
    LOGBUFFER_ILLEGAL_METADATA = 25,
    LOGBUFFER_NOT_FILLED = 26
};

/* Frames: a header of 32 bytes, each frame at a multiple of 32; the flags and types of a header. */
enum {
    LOGBUFFER_HEADER_LENGTH = 32,
    LOGBUFFER_FRAME_ALIGNMENT = 32,
    LOGBUFFER_BEGIN_FRAG = 0x80,
    LOGBUFFER_END_FRAG = 0x40,
    LOGBUFFER_UNFRAGMENTED = 0xc0,
    LOGBUFFER_TYPE_PADDING = 0,
    LOGBUFFER_TYPE_DATA = 1
};

/* The answers of a handler, one for each fragment. */
enum { LOGBUFFER_ACTION_ABORT = 1, LOGBUFFER_ACTION_BREAK = 2, LOGBUFFER_ACTION_COMMIT = 3, LOGBUFFER_ACTION_CONTINUE = 4 };

/* Ranges: of the term length, a power of two; of the mtu, a multiple of 32; how many partitions a log has, and sessions an assembler knows; the longest message in
 * fragments, which is also at most an eighth of a term; the longest slice other than the log. */
enum {
    LOGBUFFER_TERM_MIN_LENGTH = 65536,
    LOGBUFFER_TERM_MAX_LENGTH = 1073741824,
    LOGBUFFER_MTU_MIN_LENGTH = 64,
    LOGBUFFER_MTU_MAX_LENGTH = 65504,
    LOGBUFFER_PARTITION_COUNT = 3,
    LOGBUFFER_MAX_SESSIONS = 16,
    LOGBUFFER_MAX_MESSAGE_LENGTH = 16777216,
    LOGBUFFER_MAX_SLICE_LENGTH = 2147483647
};

/* The greatest publication limit; and the greatest position of a log, by its term length. */
#define LOGBUFFER_MAX_PUBLICATION_LIMIT ((int64_t)1 << 62)
#define LOGBUFFER_MAX_POSITION(term_length) ((int64_t)(term_length) << 31)

/* ---- values */

/* Calls look at the fields alone. Bytes between them, and the bits of cleared_marks above the third, mean nothing and stay; only the calls that fill a struct, logbuffer_open,
 * the three logbuffer_.._new and logbuffer_read_metadata, make them 0. In a reply such bytes may hold anything: compare fields, not bytes. */

/* A log's record. A raw tail has a term id in its upper 32 bits and an offset in its lower. Bit k of cleared_marks, of k 0 to 2, says that
 * partition k is cleared and not written yet; the other bits mean nothing, and calls leave them as they are. The last three numbers are the caller's: 0 at
 * opening, never looked at, and changed by logbuffer_read_metadata alone, which takes them from a metadata section. */
struct logbuffer_record {
    int64_t tails[3];
    int32_t active_term_count;
    int32_t initial_term_id;
    int32_t term_length;
    int32_t mtu_length;
    int32_t session_id;
    int32_t stream_id;
    int32_t is_connected; /* 1 is yes */
    int64_t publication_limit;
    int64_t end_of_stream_position;
    bool is_closed;
    int64_t slowest_position; /* of the slowest reader: what lies before it may be cleared */
    uint64_t cleared_marks; /* 6 at opening: partitions 1 and 2 */
    int32_t active_transport_count;
    int32_t page_size;
    int64_t correlation_id;
};

/* An open claim: partition, offset of its frame in the term, frame length (32 more than the body), term id. */
struct logbuffer_claim {
    int32_t partition;
    int32_t offset;
    int32_t length;
    int32_t term_id;
};

/* The 32 bytes of a frame's header as they stand, and the position past the frame. */
struct logbuffer_header {
    int32_t frame_length;
    uint8_t version;
    uint8_t flags; /* 0x80 begins a message, 0x40 ends it */
    uint16_t frame_type; /* 0 padding, 1 data */
    int32_t term_offset;
    int32_t session_id;
    int32_t stream_id;
    int32_t term_id;
    int64_t reserved_value;
    int64_t position;
};

/* A reader: its position in the stream, its session, whether it is closed, and the end-of-stream flag kept at closing. */
struct logbuffer_image {
    int64_t position;
    int32_t session_id;
    bool is_closed;
    bool is_eos;
};

/* An assembler's bookkeeping: sessions entered, their ids, and how many bytes each holds in its part of the lent buffer. */
struct logbuffer_assembler {
    size_t count;
    int32_t ids[16];
    size_t held[16];
};

struct logbuffer_replay {
    struct logbuffer_image image;
    struct logbuffer_assembler assembler;
};

/* A find card. The bits say which fields are there: 0 find (always on), 1 trench, 2 context, 3 material, 4 weight, 5 note; bits 6 and 7
 * are never on. The number of a field whose bit is off is not looked at, and read as 0. The note's bytes stand beside the card. */
struct logbuffer_card {
    uint8_t bits;
    uint32_t find;
    uint16_t trench;
    uint16_t context;
    uint8_t material; /* 1 to 9 */
    uint32_t weight; /* tenths of a gram */
};

/* The bytes of the longest card. */
enum { LOGBUFFER_CARD_MAX_LENGTH = 270 };

/* The bytes that a finished term on the shelf has more than the term: its count of frames. */
enum { LOGBUFFER_SHELF_COUNT_LENGTH = 4 };

/* The bytes of a metadata section; and those that Aeron gives it in a log's file, behind the three terms: the rest is 0 here. */
enum { LOGBUFFER_METADATA_LENGTH = 320, LOGBUFFER_METADATA_FILE_LENGTH = 4096 };

/* Where a log's bytes went: bodies, headers and slack of data frames; padding frames at their aligned length, aborted claims among them. */
struct logbuffer_sums {
    size_t body;
    size_t headers; /* 32 for each data frame */
    size_t slack;
    size_t padding;
};

/* The sums of each partition. */
struct logbuffer_partitions {
    struct logbuffer_sums p0;
    struct logbuffer_sums p1;
    struct logbuffer_sums p2;
};

/* Where each field of the card that holds is from: the position at the end of its message, 0 where the field is absent. */
struct logbuffer_ends {
    size_t find;
    size_t trench;
    size_t context;
    size_t material;
    size_t weight;
    size_t note;
};

/* Why a walk, of a tally or for the card that holds, ended where it did. */
enum {
    LOGBUFFER_STOP_REACHED = 0,     /* it came to the second position */
    LOGBUFFER_STOP_WRITING = 1,     /* at a frame being written: a claim that is still open, or an offer that broke off */
    LOGBUFFER_STOP_FREE = 2,        /* at a free place: nothing is written there yet */
    LOGBUFFER_STOP_OTHER_TERM = 3,  /* at a frame of another term: an older one, or the reader has been overtaken */
    LOGBUFFER_STOP_PAST_SECOND = 4, /* at a frame that would pass the second position, which is then no frame's boundary */
    LOGBUFFER_STOP_UNSOUND = 5      /* at an unsound frame: a call from there refuses 22 or 23 and tells its place */
};

/* Where a message lies. */
enum { LOGBUFFER_NOTHING = 0, LOGBUFFER_IN_LOG = 1, LOGBUFFER_IN_BUFFER = 2 };

/* What a frame's length says of its place: nothing is written; a claim, or an offer that broke off, is not finished; a finished frame. */
enum { LOGBUFFER_FREE = 0, LOGBUFFER_WRITING = 1, LOGBUFFER_FINISHED = 2 };

/* Which check decided an offer or a claim: the first in this order that applies. 6 and 7 come by two rules each. Up to TAIL_OVERFLOW nothing has
 * changed; from TRIP_PAST_MAX_POSITION on the tail has moved. */
enum {
    LOGBUFFER_RULE_ILLEGAL_ARGUMENT = 1,            /* 1: mend the argument */
    LOGBUFFER_RULE_ILLEGAL_RECORD = 2,              /* 2: go back to the last good record, and lend the whole log */
    LOGBUFFER_RULE_PUBLICATION_CLOSED = 3,          /* 5: stop writing */
    LOGBUFFER_RULE_EXCEEDS_MAX_PAYLOAD_LENGTH = 4,  /* 4, claims: offer the message instead of claiming it */
    LOGBUFFER_RULE_COUNT_OUT_OF_STEP = 5,           /* 6: do not call again: the record is not this log's, or was damaged */
    LOGBUFFER_RULE_LIMIT_PAST_MAX_POSITION = 6,     /* 7: the stream is at its end: open a new log */
    LOGBUFFER_RULE_BACK_PRESSURED = 7,              /* 8: wait until readers have moved on, raise the limit, call again */
    LOGBUFFER_RULE_NOT_CONNECTED = 8,               /* 9: wait for a connection, then as for back pressure */
    LOGBUFFER_RULE_EXCEEDS_MAX_MESSAGE_LENGTH = 9,  /* 10, offers: cut the message up */
    LOGBUFFER_RULE_TAIL_OVERFLOW = 10,              /* 11: too many calls after the term was full: rotate, or go back to the last good record */
    LOGBUFFER_RULE_TRIP_PAST_MAX_POSITION = 11,     /* 7: the stream is at its end: open a new log */
    LOGBUFFER_RULE_LAST_TERM = 12,                  /* 12: the stream is at its end: open a new log */
    LOGBUFFER_RULE_NOT_CLEARED = 13,                /* 19: clear the partition that is due before the next call */
    LOGBUFFER_RULE_TERM_ROTATED = 14,               /* 6: make the same call again, with the record that was answered */
    LOGBUFFER_RULE_UNFRAGMENTED = 15,               /* accepted, as one frame */
    LOGBUFFER_RULE_FRAGMENTED = 16,                 /* accepted, as several frames */
    LOGBUFFER_RULE_CLAIMED = 17                     /* accepted: write the body, then commit or abort */
};

/* ---- replies */

/* A position. The four bytes behind the code are free. */
struct logbuffer_position_reply {
    int32_t code;
    int64_t position;
};

/* An accepted offer's position, and the rule that decided, which always stands. */
struct logbuffer_offer_reply {
    int32_t code;
    uint32_t rule; /* LOGBUFFER_RULE_.. */
    int64_t position;
};

struct logbuffer_claim_reply {
    int32_t code;
    uint32_t rule; /* LOGBUFFER_RULE_.. */
    int64_t position;
    struct logbuffer_claim claim;
};

/* A part of the log: log[start .. start + length). */
struct logbuffer_span_reply {
    int32_t code;
    size_t start;
    size_t length;
};

/* An appender's: the offset after the frames, or that the append tripped (the Rust answers -2). */
struct logbuffer_append_reply {
    int32_t code;
    bool is_tripped;
    size_t offset;
};

struct logbuffer_append_claim_reply {
    int32_t code;
    bool is_tripped;
    size_t offset;
    struct logbuffer_claim claim;
};

struct logbuffer_header_reply {
    int32_t code;
    struct logbuffer_header fields;
};

/* state is LOGBUFFER_FREE; LOGBUFFER_WRITING, where length is the size of the frame being written, 1 to 2147483648; or LOGBUFFER_FINISHED, where
 * it is the frame's length. Both count the header's 32 bytes. */
struct logbuffer_frame_length_reply {
    int32_t code;
    int32_t state;
    size_t length;
};

/* The offset the read came to, and the fragments read. */
struct logbuffer_read_reply {
    int32_t code;
    uint32_t fragments;
    size_t offset;
};

struct logbuffer_scan_reply {
    int32_t code;
    size_t offset;
};

/* A gap: whether it starts on a frame being written, the term id given, offset and length; or none, with the offset that the walk came to. */
struct logbuffer_gap_reply {
    int32_t code;
    bool is_gap;
    bool is_being_written;
    int32_t term_id;
    size_t offset;
    size_t length;
};

/* The bytes available for sending, of a padding frame its header; and the padding behind the last of them, which need not be sent. The Rust answers one number,
 * padding * 2^32 + available. */
struct logbuffer_availability_reply {
    int32_t code;
    uint32_t padding;
    size_t available;
};

/* The fragments read, the entries written, and the partition that they lie in: that of the position before the call, position / term length % 3, also where nothing
 * was read. It is 0 with every refusal, 22 and 23 too. */
struct logbuffer_poll_reply {
    int32_t code;
    uint32_t fragments;
    uint32_t entries;
    int32_t partition;
};

/* The entries written, the position after the last whole message, and the partition that the entries lie in: that of the start. It is 0 with every refusal. */
struct logbuffer_peek_reply {
    int32_t code;
    uint32_t entries;
    int64_t position;
    int32_t partition;
};

/* A block's partition, that of the position before the call; its offset in its term, its length, session and term id, four zeros where it is empty. It is
 * log[partition * term length + offset ..], length bytes of it. The partition is 0 with every refusal. */
struct logbuffer_block_reply {
    int32_t code;
    int32_t partition;
    size_t offset;
    size_t length;
    int32_t session_id;
    int32_t term_id;
};

struct logbuffer_end_of_stream_reply {
    int32_t code;
    bool is_eos;
};

/* place is LOGBUFFER_NOTHING; LOGBUFFER_IN_LOG, where start is an offset in the frame's term; or LOGBUFFER_IN_BUFFER. */
struct logbuffer_assembly_reply {
    int32_t code;
    int32_t place;
    size_t start;
    size_t length;
};

/* place is LOGBUFFER_NOTHING at the end; LOGBUFFER_IN_LOG, where start is an index of the whole log; or LOGBUFFER_IN_BUFFER. */
struct logbuffer_next_reply {
    int32_t code;
    int32_t place;
    size_t start;
    size_t length;
};

/* messages is how many were laid into the lent numbers; 0 at the end. */
struct logbuffer_batch_reply {
    int32_t code;
    size_t messages;
};

struct logbuffer_count_reply {
    int32_t code;
    size_t messages;
    size_t bytes;
};

struct logbuffer_card_write_reply {
    int32_t code;
    size_t length;
};

/* The note is bytes[note_start .. note_start + note_length) of what was read; note_length is 0 where there is none. */
struct logbuffer_card_read_reply {
    int32_t code;
    struct logbuffer_card card;
    size_t note_start;
    size_t note_length;
};

/* position is where the walk ended; writing is the size of a frame being written there, 32 more than its body, and else 0. */
struct logbuffer_tally_reply {
    int32_t code;
    int32_t stop;
    int64_t position;
    size_t writing;
    struct logbuffer_sums sums;
};

/* As a tally's; the sums are those of the partitions added up. */
struct logbuffer_partition_tally_reply {
    int32_t code;
    int32_t stop;
    int64_t position;
    size_t writing;
    struct logbuffer_sums sums;
    struct logbuffer_partitions partitions;
};

/* The card that holds, by its bits, with where each field is from; its note is note[0 .. note_length), and 0 behind that. stop, position and writing are as
 * a tally's, with 24 too; then the rest is 0. */
struct logbuffer_holding_reply {
    int32_t code;
    int32_t stop;
    int64_t position;
    size_t writing;
    struct logbuffer_card card;
    struct logbuffer_ends ends;
    size_t note_length;
    uint8_t note[255];
};

/* ---- this face */

/* Its version, which the function's name carries too: an archive of another version does not link. */
#define LOGBUFFER_FACE_VERSION 4
LOGBUFFER_ANSWER uint32_t logbuffer_face_4(void);

/* ---- opening, and calls on the record alone */

/* Zeroes the log, three terms, and fills the record of an empty one: limit 0, connected, not closed, slowest reader at 0, partitions 1 and 2
 * marked as cleared, transports, page size and correlation id 0. Term length: a power of two from
 * 65,536 to 2^30. Mtu: a multiple of 32 from 64 to 65,504. Initial id: any; after 2147483647 comes
 * -2147483648. Answers 0, or refuses 2 and writes nothing, not to
 * the record either. */
LOGBUFFER_ANSWER int32_t logbuffer_open(struct logbuffer_record *rec, uint8_t *log, size_t log_length, int32_t term_length, int32_t mtu_length,
                       int32_t initial_term_id, int32_t session_id, int32_t stream_id);

/* Offers and claims that begin below this position are let through: from 0 to 2^62. Keep it at (slowest / term length + 2) * term length, slowest being
 * the slowest reader's position, and raise it as readers move on. Nothing that a reader still needs is overwritten without it either, for a trip
 * into a partition that is not cleared is refused 19, which leaves the tail moved; but with this limit, and the partition that is due cleared as soon as
 * it may be, 19 never comes: writers that are ahead are refused 8, which leaves everything as it was. The answer is the number: 0, 2. */
LOGBUFFER_ANSWER int32_t logbuffer_set_publication_limit(struct logbuffer_record *rec, int64_t limit);

/* Says how far the slowest reader has come: a multiple of 32 from 0 to term length * 2^31, which may only rise; the same again is accepted.
 * Terms that end at or before it may be cleared, and nobody reads them any more, so take the lowest of all readers' positions. Also on a
 * closed publication. The answer is the number: 0, 2 (the record as it stands), 3 (a position out of that range), 15 (lower than it was). */
LOGBUFFER_ANSWER int32_t logbuffer_set_slowest_position(struct logbuffer_record *rec, int64_t position);

/* Offers, claims and the three numbers below then refuse 5. The answer is the number: 0, 2. */
LOGBUFFER_ANSWER int32_t logbuffer_close(struct logbuffer_record *rec);

/* The next partition's tail becomes (term_id + 1, 0) if its id is term_id - 2, and the count rises by one if it is the one given. In any case
 * the mark of the next partition, (count + 1) % 3, goes; a partition that was not marked is no hindrance here. count is 0 or more, else 1; at 2147483647 it refuses 12;
 * term_id may be any. The answer is the number: 0, 1, 2, 12. */
LOGBUFFER_ANSWER int32_t logbuffer_rotate_log(struct logbuffer_record *rec, int32_t count, int32_t term_id);

/* The publisher's position; its limit; what is left up to the limit, below 0 where the position is past it. Each refuses 2, 5. */
LOGBUFFER_ANSWER struct logbuffer_position_reply logbuffer_position(const struct logbuffer_record *rec);
LOGBUFFER_ANSWER struct logbuffer_position_reply logbuffer_publication_limit(const struct logbuffer_record *rec);
LOGBUFFER_ANSWER struct logbuffer_position_reply logbuffer_available_window(const struct logbuffer_record *rec);

/* ---- terms used again */

/* Zeroes the partition due next, (active_term_count + 1) % 3, and marks it as cleared, so that the log can be rotated into it; again it is harmless. From
 * count 2 on it holds the term before the last full one, which is gone then: the slowest reader must have reached that term's end, (count - 1) * term length. Finish
 * the claims of that term first, and use none of their records afterwards. Also on a closed publication. The answer is the number: 0, 1 (partition not 0
 * to 2), 2, 20 (another partition is due, or the slowest reader is below that end). */
LOGBUFFER_ANSWER int32_t logbuffer_clear_partition(struct logbuffer_record *rec, uint8_t *log, size_t log_length, int32_t partition);

/* ---- numbers of tails and positions, which refuse nothing but where said */

/* A value rounded up to a multiple of 32; whether it is a power of two. */
LOGBUFFER_ANSWER size_t logbuffer_align(uint32_t value);
LOGBUFFER_ANSWER bool logbuffer_is_power_of_two(uint32_t value);

/* Of a raw tail: its term id, and its offset cut to the term length. */
LOGBUFFER_ANSWER int32_t logbuffer_term_id(int64_t raw_tail);
LOGBUFFER_ANSWER size_t logbuffer_term_offset(int64_t raw_tail, size_t term_length);

/* The partition of a term count, and of a position, given the bits to shift: the trailing zeros of the term length. */
LOGBUFFER_ANSWER size_t logbuffer_index_by_term_count(size_t count);
LOGBUFFER_ANSWER size_t logbuffer_index_by_position(uint64_t position, uint32_t bits);
LOGBUFFER_ANSWER uint32_t logbuffer_position_bits_to_shift(uint32_t term_length);

/* (term_id - initial_term_id) * 2^bits + offset. Refuses 1: more than 30 bits. */
LOGBUFFER_ANSWER struct logbuffer_position_reply logbuffer_compute_position(int32_t term_id, uint32_t offset, uint32_t bits, int32_t initial_term_id);

/* ---- writing */

/* Appends a message of 0 to 2147483647 bytes, in fragments where it is longer than the payload limit (mtu - 32), and answers the position after it: at most an eighth
 * of a term and 16 MiB, unless one frame holds it. Refuses 1, 2,
 * 5, 6, 7, 8, 9, 10, 11, 12, 19. After 6 by LOGBUFFER_RULE_TERM_ROTATED call again: with the term full the log has been rotated. After 19 raise the
 * slowest reader's position, clear the partition that is due, then call again: it is refused 6, and the call after that finds the next term. Do not call again
 * before that: each call that is refused 19 moves the tail on, so that the limit is reached and 8 comes for good (docs/GUIDE.md has figures). */
LOGBUFFER_ANSWER struct logbuffer_offer_reply logbuffer_offer(struct logbuffer_record *rec, uint8_t *log, size_t log_length, const uint8_t *message,
                                             size_t message_length, int64_t reserved_value);

/* Claims a frame for a body of this length, 0 up to the payload limit. Readers stop before it until it is committed or aborted. Refuses 1,
 * 2, 4, 5, 6, 7, 8, 9, 11, 12, 19, the last as an offer does. On a closed publication a length over the payload limit refuses 5, not 4. */
LOGBUFFER_ANSWER struct logbuffer_claim_reply logbuffer_try_claim(struct logbuffer_record *rec, uint8_t *log, size_t log_length, int32_t length);

/* Of a claim the partition is 0 to 2, the offset a multiple of 32, the length at least 32, and the aligned end inside the term, else 1. */

/* Where the body of an open claim lies in the log, to be written by the caller; and the number alone. Each refuses 1, 2, 14. */
LOGBUFFER_ANSWER struct logbuffer_span_reply logbuffer_claim_body(const struct logbuffer_record *rec, const uint8_t *log, size_t log_length,
                                                 struct logbuffer_claim claim);
LOGBUFFER_ANSWER int32_t logbuffer_claim_body_number(const struct logbuffer_record *rec, const uint8_t *log, size_t log_length,
                                    struct logbuffer_claim claim);

/* Writes bytes over the body of an open claim, from its start on and as far as it goes. The answer is the number: 0, 1, 2, 14. */
LOGBUFFER_ANSWER int32_t logbuffer_claim_write(const struct logbuffer_record *rec, uint8_t *log, size_t log_length, struct logbuffer_claim claim,
                              const uint8_t *bytes, size_t bytes_length);

/* Makes an open claim a message; or padding, which readers pass. The answer is the number: 0, 1, 2, 14. */
LOGBUFFER_ANSWER int32_t logbuffer_commit(const struct logbuffer_record *rec, uint8_t *log, size_t log_length, struct logbuffer_claim claim);
LOGBUFFER_ANSWER int32_t logbuffer_abort(const struct logbuffer_record *rec, uint8_t *log, size_t log_length, struct logbuffer_claim claim);

/* The appenders under offer and claim, on a partition (0 to 2) and a term id of the caller's choice, any. A message in fragments has at least 1 byte, and its payload limit
 * is a positive multiple of 32; a claim's length is 0 or more. They look at no limit, no mark, no closed flag and no message limit. Each refuses 1, 2, 11, 13. */
LOGBUFFER_ANSWER struct logbuffer_append_reply logbuffer_append_unfragmented_message(struct logbuffer_record *rec, uint8_t *log, size_t log_length,
                                                                    int32_t partition, const uint8_t *message, size_t message_length,
                                                                    int64_t reserved_value, int32_t term_id);
LOGBUFFER_ANSWER struct logbuffer_append_reply logbuffer_append_fragmented_message(struct logbuffer_record *rec, uint8_t *log, size_t log_length,
                                                                  int32_t partition, const uint8_t *message, size_t message_length,
                                                                  int64_t reserved_value, int32_t payload_limit, int32_t term_id);
LOGBUFFER_ANSWER struct logbuffer_append_claim_reply logbuffer_append_claim(struct logbuffer_record *rec, uint8_t *log, size_t log_length, int32_t partition,
                                                           int32_t length, int32_t term_id);

/* ---- frames of one term: partition 0 to 2, offset a multiple of 32 below the term length */

/* The header at an offset. Refuses 1, 2. */
LOGBUFFER_ANSWER struct logbuffer_header_reply logbuffer_header_fields(const struct logbuffer_record *rec, const uint8_t *log, size_t log_length,
                                                      int32_t partition, int32_t offset);

/* Whether the place at an offset is free, being written or finished, and how long the frame there is; sound or not. Where a reader stops, it
 * tells an empty place from a claim that nobody has finished: the publisher's side can commit or abort that one, and readers go on. Of a
 * position p the partition is p / term length % 3 and the offset p % term length; at or past the publisher's position a place may still
 * hold a frame of an older term. Refuses 1, 2. */
LOGBUFFER_ANSWER struct logbuffer_frame_length_reply logbuffer_frame_length(const struct logbuffer_record *rec, const uint8_t *log, size_t log_length,
                                                           int32_t partition, int32_t offset);

/* Hands out (offset, length) of each body in the term as two numbers in entries, at most fragment_limit of them; entries_length is at least 2 * fragment_limit, and a
 * limit of 0 or less reads nothing. The offset may also be the term length, where nothing is left. Refuses 1, 2, 22, 23. */
LOGBUFFER_ANSWER struct logbuffer_read_reply logbuffer_read(const struct logbuffer_record *rec, const uint8_t *log, size_t log_length, int32_t partition,
                                           int32_t offset, int32_t fragment_limit, int32_t *entries, size_t entries_length);

/* Where an entry's body lies in the log; and the number alone. Any offset and length inside the term. Each refuses 1, 2. */
LOGBUFFER_ANSWER struct logbuffer_span_reply logbuffer_view(const struct logbuffer_record *rec, const uint8_t *log, size_t log_length, int32_t partition,
                                           int32_t offset, int32_t length);
LOGBUFFER_ANSWER int32_t logbuffer_view_number(const struct logbuffer_record *rec, const uint8_t *log, size_t log_length, int32_t partition, int32_t offset,
                              int32_t length);

/* The end of the finished frames up to a limit, at most the term length, of which padding is taken only as the first, and then alone and even where it ends past
 * the limit; the gap in them up to a high mark, a multiple of 32 up to the term length, and for the gap's reply a term id, any; the bytes available for sending up to a
 * maximum, any, which is cut to what is left of the term, and the padding after them. Each refuses 1, 2, 22, 23. */
LOGBUFFER_ANSWER struct logbuffer_scan_reply logbuffer_scan(const struct logbuffer_record *rec, const uint8_t *log, size_t log_length, int32_t partition,
                                           int32_t offset, int32_t limit);
LOGBUFFER_ANSWER struct logbuffer_gap_reply logbuffer_scan_for_gap(const struct logbuffer_record *rec, const uint8_t *log, size_t log_length,
                                                  int32_t partition, int32_t term_id, int32_t offset, int32_t high_mark);
LOGBUFFER_ANSWER struct logbuffer_availability_reply logbuffer_scan_for_availability(const struct logbuffer_record *rec, const uint8_t *log,
                                                                    size_t log_length, int32_t partition, int32_t offset, int32_t maximum);

/* ---- images */

/* A reader at a position. Refuses nothing: each call judges the position. */
void logbuffer_image_new(struct logbuffer_image *image, int64_t position, int32_t session_id);

/* Reads fragments up to the end of the term and moves past them; entries as in logbuffer_read, in the partition that is answered: log[partition * term length +
 * entries[0] ..] is the first body, entries[1] bytes of it, and logbuffer_view takes the three numbers too. entries_length is at least 2 * fragment_limit; a limit of 0
 * or less reads nothing, and passes no padding. Refuses 1, 2, 3, 22, 23. A poll does not compare a frame's term id with its position: stop at the publisher's position,
 * as a bounded poll to it does. The second reads no frame that begins at or past a limit position, of any value; one that begins before it may end past it.
 * The third takes an answer for each fragment, LOGBUFFER_ACTION_..: as many actions as the fragment limit or more, each of them 1 to 4. */
LOGBUFFER_ANSWER struct logbuffer_poll_reply logbuffer_image_poll(struct logbuffer_image *image, const struct logbuffer_record *rec, const uint8_t *log,
                                                 size_t log_length, int32_t fragment_limit, int32_t *entries, size_t entries_length);
LOGBUFFER_ANSWER struct logbuffer_poll_reply logbuffer_image_bounded_poll(struct logbuffer_image *image, const struct logbuffer_record *rec,
                                                         const uint8_t *log, size_t log_length, int64_t limit_position,
                                                         int32_t fragment_limit, int32_t *entries, size_t entries_length);
LOGBUFFER_ANSWER struct logbuffer_poll_reply logbuffer_image_controlled_poll(struct logbuffer_image *image, const struct logbuffer_record *rec,
                                                            const uint8_t *log, size_t log_length, int32_t fragment_limit,
                                                            int32_t *entries, size_t entries_length, const uint8_t *actions,
                                                            size_t actions_length);

/* Reads from a start without moving the image: a multiple of 32 from the image's position to the end of its term. It reads no frame that begins at or past the limit
 * position, and at most one fragment for each action: each 1 to 4, entries_length at least 2 * actions_length; no actions read nothing, and a last one of 3 or 4 acts
 * as 2. It answers the position after the last whole message or padding, which counts also between the fragments of a message. Refuses 1, 2, 3, 15, 16, 22,
 * 23. */
LOGBUFFER_ANSWER struct logbuffer_peek_reply logbuffer_image_controlled_peek(const struct logbuffer_image *image, const struct logbuffer_record *rec,
                                                            const uint8_t *log, size_t log_length, int64_t start,
                                                            int64_t limit_position, int32_t *entries, size_t entries_length,
                                                            const uint8_t *actions, size_t actions_length);

/* Moves past whole frames of together at most limit bytes, any number, and answers where they lie; 0 or less reads nothing. Padding is taken only as the first frame, and then
 * alone and even where it is longer than the limit: a caller who copies blocks into limit bytes has to look at the length first. Refuses 2, 3, 22, 23. */
LOGBUFFER_ANSWER struct logbuffer_block_reply logbuffer_image_block_poll(struct logbuffer_image *image, const struct logbuffer_record *rec,
                                                        const uint8_t *log, size_t log_length, int32_t limit);

/* Moves within the term: to a multiple of 32 from the position up to the term's end. The answer is the number: 0, 2, 3, 15, 16. */
LOGBUFFER_ANSWER int32_t logbuffer_image_set_position(struct logbuffer_image *image, const struct logbuffer_record *rec, const uint8_t *log,
                                     size_t log_length, int64_t new_position);

/* Whether the position is at or past the end of the stream. Refuses 2, 3. */
LOGBUFFER_ANSWER struct logbuffer_end_of_stream_reply logbuffer_image_is_end_of_stream(const struct logbuffer_image *image,
                                                                      const struct logbuffer_record *rec, const uint8_t *log,
                                                                      size_t log_length);

/* Closes the image: it then reads nothing and stays. The answer is the number: 0, 2. */
LOGBUFFER_ANSWER int32_t logbuffer_image_close(struct logbuffer_image *image, const struct logbuffer_record *rec, const uint8_t *log, size_t log_length);

/* ---- messages put together again */

/* Makes it an assembler that has entered no session. Its buffer is cut into 16 equal parts, one a session: a part must hold the longest message
 * that comes in fragments. It holds the fragments met so far, so hand the same buffer to each call and leave it alone in between. */
void logbuffer_assembler_new(struct logbuffer_assembler *assembler);

/* Takes the frame at an offset of a partition: 0 to 2, and a multiple of 32 below the term length where a frame of positive length lies, else 1. An unfragmented
 * message lies in the log, one put together lies in the buffer, until the next call. Refuses 1, 2, 22, 23, 18. After 18 for fragments longer than their part that
 * session stays entered, emptied, and the rest of the message is ignored; 18 for a 17th session changes nothing. */
LOGBUFFER_ANSWER struct logbuffer_assembly_reply logbuffer_assembler_on_fragment(struct logbuffer_assembler *assembler, const struct logbuffer_record *rec,
                                                                const uint8_t *log, size_t log_length, int32_t partition,
                                                                int32_t offset, uint8_t *buffer, size_t buffer_length);

/* Makes it a replay from a position: 0, or one that an accepted call answered, as the position behind a whole message is. It goes up to the publisher's
 * position, and gives what was accepted after its start, each message once; from between two fragments it misses the message that they are of. The start
 * lies in a term that is not cleared; from a cleared one nothing comes, or what was written in its place since. Refuses nothing: each call judges the
 * position. */
void logbuffer_replay_new(struct logbuffer_replay *replay, int64_t position, int32_t session_id);

/* The next message; LOGBUFFER_NOTHING at the end, which is the publisher's position or before the first claim still open. In the log it lies at the
 * index (p / term length % 3) * term length + p % term length + 32 of the position p where its frame begins. Fragments are joined in the buffer, the
 * same from call to call. Refuses 1 (buffer over 2147483647), 2, 3, 22, 23 as a poll does, and 18 as the assembler does. What it read before
 * a frame that it refuses stays read; it then stands before that frame, and called again it refuses the same again. */
LOGBUFFER_ANSWER struct logbuffer_next_reply logbuffer_replay_next(struct logbuffer_replay *replay, const struct logbuffer_record *rec, const uint8_t *log,
                                                  size_t log_length, uint8_t *buffer, size_t buffer_length);

/* As many messages at once as there are and the lent numbers hold, four numbers for each: place, start and length as logbuffer_replay_next
 * answers them, and the position behind it. A message in the buffer is the last of its batch; read a batch before the next call. What
 * logbuffer_replay_next refuses ends a batch, and is answered by the next call; by this one where nothing was laid before it. Refuses as
 * logbuffer_replay_next, and 1 for numbers over 2147483647. Fewer than 4 numbers hold no message: then 0 are laid and nothing is read. */
LOGBUFFER_ANSWER struct logbuffer_batch_reply logbuffer_replay_next_batch(struct logbuffer_replay *replay, const struct logbuffer_record *rec,
                                                         const uint8_t *log, size_t log_length, uint8_t *buffer, size_t buffer_length,
                                                         size_t *numbers, size_t numbers_length);

/* A whole replay from a position: how many messages, and how many bytes they have together. Refuses as logbuffer_replay_next. */
LOGBUFFER_ANSWER struct logbuffer_count_reply logbuffer_replay_count(const struct logbuffer_record *rec, const uint8_t *log, size_t log_length,
                                                    int64_t position, int32_t session_id, uint8_t *buffer, size_t buffer_length);

/* ---- find cards: message bodies that every reader understands alike */

/* Writes a card's only encoding at the start of out and answers its length, 5 to LOGBUFFER_CARD_MAX_LENGTH; what lies behind it in out
 * stays. The note, of 1 to 255 bytes, is not looked at where bit 5 is off. Refuses 1 (out shorter than the card, or a slice over
 * 2147483647), 21. A broken card is 21 whatever the length of out. */
LOGBUFFER_ANSWER struct logbuffer_card_write_reply logbuffer_card_write(struct logbuffer_card card, const uint8_t *note, size_t note_length, uint8_t *out,
                                                       size_t out_length);

/* Reads a card: accepts just what logbuffer_card_write makes, to the last byte. Refuses 1 (a slice over 2147483647), 21. */
LOGBUFFER_ANSWER struct logbuffer_card_read_reply logbuffer_card_read(const uint8_t *bytes, size_t bytes_length);

/* ---- finished terms on the shelf: all headers of a term together, and back */

/* Lays the term of a partition, 0 to 2, out anew, if sound, finished frames reach its end: the count of its frames, n; byte 0 of every
 * header in order, then byte 1, up to byte 31, byte b of frame k at out[4 + b * n + k]; then from out[4 + 32 * n] on every body with its
 * slack. Frames are judged by their length alone; padding is a frame. out has the term length and 4 bytes more. Answers 0, or refuses 1
 * (partition; length of out), 2, 26 (the frames do not reach the term's end: a free or unfinished frame, a length of 1 to 31, an end past
 * the term), and leaves out as it was. */
LOGBUFFER_ANSWER int32_t logbuffer_shelve(const struct logbuffer_record *rec, const uint8_t *log, size_t log_length, int32_t partition, uint8_t *out,
                         size_t out_length);

/* Gives back every byte of the term that a shelf came from; no log is needed. out has the record's term length. Accepts just what
 * logbuffer_shelve makes of some term of that length. Answers 0, or refuses 1 (length of out; shelf over 2147483647), 2 (the record
 * alone), 26 (a shelf of another length than the term's and 4, headers that are too many, too few or have no length that a frame can
 * have), and leaves out as it was. */
LOGBUFFER_ANSWER int32_t logbuffer_unshelve(const struct logbuffer_record *rec, const uint8_t *shelf, size_t shelf_length, uint8_t *out, size_t out_length);

/* ---- the metadata section: what Aeron keeps of a log behind its three terms */

/* Numbers are little-endian, and every byte that no field has is 0:
 *
 *      at   bytes   field                           at   bytes   field
 *       0      24   tails of partitions 0, 1, 2    264       4   initial_term_id
 *      24       4   active_term_count              268       4   the header's length: 32
 *     128       8   end_of_stream_position         272       4   mtu_length
 *     136       4   is_connected                   276       4   term_length
 *     140       4   active_transport_count         280       4   page_size
 *     256       8   correlation_id                 284      36   0, as 28 to 127 and 144 to 255
 *
 * Session, stream, publication limit, closed, slowest reader and marks are not in it: keep them elsewhere. Aeron's own clients want a page size, a power of
 * two from 4096 to 2^30, and the correlation id of their driver. No call sets these two: write the record's fields before the section is written. */

/* Writes the section of a record, LOGBUFFER_METADATA_LENGTH bytes. The answer is the number: 0, 1 (out over 2147483647 bytes), 25 (out is not 320 bytes
 * long), 2 (the record alone; no log is lent). A refusal leaves out as it was. */
LOGBUFFER_ANSWER int32_t logbuffer_write_metadata(const struct logbuffer_record *rec, uint8_t *out, size_t out_length);

/* Fills a record from a section. session_id, stream_id, publication_limit, is_closed, slowest_position and cleared_marks are taken from *rec as the
 * caller has set them, all else from the bytes. Of a log whose readers are not known, slowest_position 0 and marks 0 are always safe: nothing
 * is then overwritten before it is cleared. The answer is the number: 0, 1 (over 2147483647 bytes), 25 (another size, a byte that is not 0 where no field
 * is, another header length than 32), 2 (of the record made). Refused, *rec stays, every byte of it; done, the whole record is written: is_closed is then 0 or 1, and the
 * bytes between the fields and the bits above the three marks are 0. */
LOGBUFFER_ANSWER int32_t logbuffer_read_metadata(struct logbuffer_record *rec, const uint8_t *bytes, size_t bytes_length);

/* ---- where a log's bytes went */

/* Walks the frames from one position up to another, both boundaries of frames, and adds up where their bytes went. The walk ends at the second position, or
 * before it at the first frame being written, free place, frame without its position's term id, frame that would pass the second position or
 * unsound frame; the four sums are the distance walked. Equal positions look at no frame. Refuses 1 (positions not in order, or more than three terms
 * apart), 2, 3 (either position), 22, 23 (the first frame). */
LOGBUFFER_ANSWER struct logbuffer_tally_reply logbuffer_tally(const struct logbuffer_record *rec, const uint8_t *log, size_t log_length, int64_t from, int64_t to);

/* The same, walking partitions 0, 1, 2 as they lie, with the sums of each: zeros where it has no part. Where the walk ends, why, all four sums and the refusals are
 * those of logbuffer_tally, and each partition's sums are over the frames that it passed there. Refuses 1 (as above), 2, 3, then 1 (the bytes between
 * lie in more than three terms), 22, 23. */
LOGBUFFER_ANSWER struct logbuffer_partition_tally_reply logbuffer_tally_by_partition(const struct logbuffer_record *rec, const uint8_t *log, size_t log_length, int64_t from,
                                                                    int64_t to);

/* ---- which card holds */

/* Of the find cards with a find number between two positions, each field from the last message whose card has it: a find is weighed again, renamed, moved. A
 * message is an unfragmented body, or the joined bodies of frames that follow one another from a begin frame to the next end frame, with no padding,
 * unfragmented or other begin frame between; sessions are not looked at. The walk is the tally's and refuses as it does: 1, 2, 3, 22, 23; then
 * 24 if no message in the walked part is a card with that number. */
LOGBUFFER_ANSWER struct logbuffer_holding_reply logbuffer_holding(const struct logbuffer_record *rec, const uint8_t *log, size_t log_length, uint32_t find,
                                                 int64_t from, int64_t to);

/* ---- in words; what to do about each stands in docs/ERRORS.md */

/* What a refusal's number means; of any other number that it is none. */
static inline const char *logbuffer_strerror(int32_t code) {
    switch (code) {
    case LOGBUFFER_DONE: return "done";
    case LOGBUFFER_ILLEGAL_ARGUMENT: return "an argument is out of its range";
    case LOGBUFFER_ILLEGAL_RECORD: return "the record or the log breaks its ranges";
    case LOGBUFFER_POSITION_OUT_OF_RANGE: return "a position is negative, over the greatest, or not a multiple of 32";
    case LOGBUFFER_EXCEEDS_MAX_PAYLOAD_LENGTH: return "claim longer than the payload limit, mtu - 32";
    case LOGBUFFER_PUBLICATION_CLOSED: return "the publication is closed";
    case LOGBUFFER_ADMIN_ACTION: return "the term was full and the log has been rotated, or count and term id differ: the reply's rule tells";
    case LOGBUFFER_MAX_POSITION_EXCEEDED: return "the greatest position is reached";
    case LOGBUFFER_BACK_PRESSURED: return "the publication limit is reached";
    case LOGBUFFER_NOT_CONNECTED: return "the publication limit is reached and nobody is connected";
    case LOGBUFFER_EXCEEDS_MAX_MESSAGE_LENGTH: return "message longer than the payload limit and than the message limit";
    case LOGBUFFER_TAIL_OVERFLOW: return "tail offset and need together over 2147483647";
    case LOGBUFFER_LAST_TERM: return "the term is full and there is no next one";
    case LOGBUFFER_ACTION_POSSIBLY_DELAYED: return "the tail's term id is not the one given to the appender";
    case LOGBUFFER_CLAIM_MISMATCH: return "the frame's header does not show this open claim";
    case LOGBUFFER_NEW_POSITION_OUT_OF_RANGE: return "the new position is before the current one or past the term's end, or the slowest reader's is lower than it was";
    case LOGBUFFER_NEW_POSITION_NOT_ALIGNED: return "the new position is not a multiple of 32";
    case LOGBUFFER_ASSEMBLY_FULL: return "begin frame of a 17th session, or fragments longer together than their part of the buffer";
    case LOGBUFFER_NOT_CLEARED: return "the term is full and the next partition is not cleared";
    case LOGBUFFER_NOT_DUE: return "the partition is not the one due next, or the slowest reader may still read it";
    case LOGBUFFER_BROKEN_CARD: return "a find card, or bytes, that break its format";
    case LOGBUFFER_FRAME_TOO_SHORT: return "the first frame has a length of 1 to 31";
    case LOGBUFFER_FRAME_PAST_TERM: return "the first frame runs past its term's end";
    case LOGBUFFER_NO_CARD: return "no finished card with that find number lies in the walked part";
    case LOGBUFFER_ILLEGAL_METADATA: return "no metadata section: another size than 320, a byte that is not 0 where no field is, or another header length than 32";
    case LOGBUFFER_NOT_FILLED: return "frames that do not fill the term, or shelf bytes that no term of that length gives";
    default: return "no refusal has this number";
    }
}

/* What makes the linker look for the version. */
#if defined(__GNUC__) || defined(__clang__)
static uint32_t (*const logbuffer_face_linked)(void) __attribute__((used)) = logbuffer_face_4;
#endif

#ifdef __cplusplus
}
#endif

#endif
