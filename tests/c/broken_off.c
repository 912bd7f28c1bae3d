/* An offer that dies inside the copy of its body: the message's last page is not there. Its frame must still be one that is being written
 * (a length of 0 or below), so that no reader takes it for finished, and a replay must give exactly what was accepted before. Then the
 * same message is offered again from memory that is whole. */
#define _DEFAULT_SOURCE
#include <setjmp.h>
#include <signal.h>
#include <sys/mman.h>
#include <unistd.h>

#include "replayed.h"

static sigjmp_buf out;

/* A call that the program goes on from: it has to be done. */
static void must(int32_t code) {
    if (code != LOGBUFFER_DONE) {
        fprintf(stderr, "%s\n", logbuffer_strerror(code));
        exit(1);
    }
}

static void on_fault(int signal) {
    (void)signal;
    siglongjmp(out, 1);
}

static int32_t length_word(size_t at) {
    int32_t word;
    memcpy(&word, log_bytes + at, sizeof word);
    return word;
}

static void accepted(struct logbuffer_record *rec, struct message m) {
    expect(logbuffer_offer(rec, log_bytes, LOG, m.bytes, m.length, 0).code == 0, "an offer was refused", m.length);
}

/* A message of `length` bytes of which only `present` are there, in a log that has taken two messages; `whole` frames come before the
 * one that breaks off. */
static void run(const char *name, uint8_t *page_end, size_t length, size_t present, size_t whole) {
    static uint8_t copy[TERM / 8];
    struct message list[3] = {{(const uint8_t *)"coin", 4}, {(const uint8_t *)"potsherd", 8}, {copy, length}};
    memset(copy, 'x', sizeof copy);
    memset(log_bytes, 0, LOG);
    struct logbuffer_record rec;
    must(logbuffer_open(&rec, log_bytes, LOG, TERM, MTU, 7, SESSION, 22));
    must(logbuffer_set_publication_limit(&rec, 1 << 20));
    accepted(&rec, list[0]);
    accepted(&rec, list[1]);
    struct logbuffer_record before;
    memcpy(&before, &rec, sizeof rec);
    size_t tail = (size_t)(rec.tails[0] & 0xffffffff);

    uint8_t *message = page_end - present;
    memset(message, 'x', present);
    if (sigsetjmp(out, 1) == 0) {
        must(logbuffer_offer(&rec, log_bytes, LOG, message, length, 0).code);
        expect(0, "the offer came back", length);
    }
    printf("%s: broken off after %zu bytes; length words", name, present);
    for (size_t i = 0; i <= whole; i++) {
        int32_t word = length_word(tail + i * MTU);
        printf(" %" PRId32, word);
        expect(i < whole ? word == MTU : word <= 0, "a length word", i);
    }
    expect(memcmp(&rec, &before, sizeof rec) == 0, "the record has changed", length);
    /* The record as it was before the offer, and one whose tail has moved past the frames. */
    struct logbuffer_record moved = rec;
    moved.tails[0] += (int64_t)(whole + 1) * MTU;
    expect(replayed(&rec, log_bytes, list, 2, length) == 0, "the replay is refused", length);
    expect(replayed(&moved, log_bytes, list, 2, length) == 0, "the replay is refused", length);
    printf("; the two messages before it come back\n");

    accepted(&rec, list[2]);
    expect(replayed(&rec, log_bytes, list, 3, length) == 0, "the replay is refused", length);
    printf("  offered again: the three come back\n");
}

int main(void) {
    size_t page = (size_t)sysconf(_SC_PAGESIZE);
    uint8_t *pages = mmap(NULL, 2 * page, PROT_READ | PROT_WRITE, MAP_PRIVATE | MAP_ANONYMOUS, -1, 0);
    expect(pages != MAP_FAILED && mprotect(pages + page, page, PROT_NONE) == 0, "no pages", 0);
    struct sigaction action = {.sa_handler = on_fault};
    expect(sigaction(SIGSEGV, &action, NULL) == 0, "no handler", 0);

    run("an offer of 200 bytes", pages + page, 200, 100, 0);
    run("an offer of 1376 bytes, none there", pages + page, 1376, 0, 0);
    run("an offer of 4000 bytes, its third frame", pages + page, 4000, 3252, 2);
    return 0;
}
