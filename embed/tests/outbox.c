/*
 * What the header says of outboxes, tried from C: an output that is held back and let out once, closed handles, refusals, a journal in small writes, a kill at each moment of
 * each write, and each allocation failing in turn. Run by `embed/build`; with `--sanitize` a leak or an access outside a block ends the program.
 *
 * Link with -Wl,--wrap=malloc,--wrap=realloc: the two functions below then stand for those of the C library.
 */
#include <stdio.h>
#include <stdlib.h>
#include <string.h>

#include "polydb.h"

/* ---- allocations that fail ---- */

void *__real_malloc(size_t size);
void *__real_realloc(void *block, size_t size);

/* How many allocations go well before one fails. Below 0 all go well. */
static long good = -1;
static long asked;

static bool fails(void) {
    asked++;
    return good >= 0 && good-- == 0;
}

void *__wrap_malloc(size_t size) { return fails() ? NULL : __real_malloc(size); }

void *__wrap_realloc(void *block, size_t size) { return fails() ? NULL : __real_realloc(block, size); }

/* ---- checks ---- */

#define CHECK(holds)                                                            \
    do {                                                                        \
        if (!(holds)) {                                                         \
            fprintf(stderr, "outbox: line %d: " #holds "\n", __LINE__);         \
            exit(1);                                                            \
        }                                                                       \
    } while (0)

/* Makes a call, and once more where there was no memory. */
#define RETRY(call)                                                             \
    do {                                                                        \
        status = (call);                                                        \
        if (status == POLYDB_NO_MEMORY) {                                       \
            status = (call);                                                    \
        }                                                                       \
    } while (0)

/* The file of an outbox. */
typedef struct {
    uint8_t bytes[1024];
    size_t length;
} host_file;

static void new_file(host_file *file) {
    memset(file, 0, sizeof *file);
    memcpy(file->bytes, POLYDB_EMPTY_JOURNAL, sizeof POLYDB_EMPTY_JOURNAL);
    file->length = sizeof POLYDB_EMPTY_JOURNAL;
}

static void put(host_file *file, uint64_t place, const uint8_t *bytes, size_t count) {
    CHECK(place + count <= sizeof file->bytes);
    memcpy(file->bytes + place, bytes, count);
    file->length = place + count > file->length ? place + count : file->length;
}

/* Writes the next bytes that the outbox asks for, with so much room: whether there were some. */
static bool write_one(polydb_outbox *outbox, host_file *file, size_t room) {
    uint8_t bytes[1024];
    size_t written = 99;
    uint64_t place = 99;
    uint32_t status = polydb_outbox_take_journal(outbox, bytes, room, &written, &place);
    if (status == POLYDB_NOTHING) {
        CHECK(written == 0 && place == 0);
        return false;
    }
    if (status == POLYDB_TOO_SMALL) {
        CHECK(written > room && place == 0);
        status = polydb_outbox_take_journal(outbox, bytes, written, &written, &place);
    }
    CHECK(status == POLYDB_DONE);
    put(file, place, bytes, written);
    CHECK(polydb_outbox_journal_synced(outbox, place, written + 1) == POLYDB_NOT_NEXT);
    CHECK(polydb_outbox_journal_synced(outbox, place, written) == POLYDB_DONE);
    return true;
}

static void write_all(polydb_outbox *outbox, host_file *file) {
    while (write_one(outbox, file, 1024)) {
    }
}

static uint32_t hold(polydb_outbox *outbox, uint32_t output, const char *cases) {
    return polydb_outbox_hold(outbox, output, (const uint8_t *)cases, strlen(cases));
}

static uint32_t learn(polydb_outbox *outbox, uint32_t number, bool commits) {
    uint32_t outcome = 99;
    uint32_t status = polydb_outbox_learn(outbox, 0, 1, number, commits, &outcome);
    CHECK((status == POLYDB_KNOWN) == (outcome != 0));
    return status;
}

/* The next output that is taken, or 100 and the status. */
static uint32_t take(polydb_outbox *outbox) {
    uint32_t output = 99;
    uint32_t status = polydb_outbox_take(outbox, &output);
    CHECK(status == POLYDB_DONE || output == 0);
    return status == POLYDB_DONE ? output : 100 + status;
}

static uint32_t open_on(polydb_outbox *outbox, const host_file *file) {
    polydb_fault fault = {9, 9, 9};
    uint32_t status = polydb_outbox_open(outbox, file->bytes, file->length, &fault);
    CHECK(fault.line == 0 && fault.column == 0 && fault.number == 0);
    return status;
}

/* ---- one after another ---- */

static void closed_outboxes(void) {
    polydb_outbox outbox = {0};
    polydb_outbox_journal journal = {9, 9, 9};
    uint8_t out[8] = "........";
    size_t written = 99;
    uint64_t place = 99;

    CHECK(hold(&outbox, 1, "1") == POLYDB_CLOSED);
    CHECK(learn(&outbox, 0, true) == POLYDB_CLOSED);
    CHECK(polydb_outbox_release(&outbox) == POLYDB_CLOSED);
    CHECK(take(&outbox) == 100 + POLYDB_CLOSED);
    CHECK(polydb_outbox_take_journal(&outbox, out, sizeof out, &written, &place) == POLYDB_CLOSED);
    CHECK(written == 0 && place == 0 && memcmp(out, "........", 8) == 0);
    CHECK(polydb_outbox_journal_synced(&outbox, 9, 1) == POLYDB_CLOSED);
    CHECK(polydb_outbox_info(&outbox, &journal) == POLYDB_CLOSED && journal.stored == 0 && journal.asked == 0 && journal.limit == 0);
    polydb_outbox_close(&outbox);
    polydb_outbox_close(&outbox);
    CHECK(!outbox.live && outbox.at == NULL);
}

static void refused_openings(void) {
    polydb_outbox outbox = {0};
    polydb_fault fault = {9, 9, 9};
    /* A journal with one content of one byte, which is no record's. */
    static const uint8_t strange[] = "PVJRNL01\1\0\0\0\1?\0";

    CHECK(polydb_outbox_open(&outbox, NULL, 0, &fault) == POLYDB_NOT_OURS && fault.number == 0 && !outbox.live);
    CHECK(polydb_outbox_open(&outbox, (const uint8_t *)"PVJRNL02", 9, &fault) == POLYDB_NOT_OURS && !outbox.live);
    CHECK(polydb_outbox_open(&outbox, strange, sizeof strange, &fault) == POLYDB_BAD_RECORD && fault.number == 0 && !outbox.live);
}

/* Two outputs, one of which waits for a transaction; what is held, learnt and released is told by the statuses that the header has for it. */
static void held_back(void) {
    static host_file file;
    polydb_outbox outbox = {0};
    polydb_outbox_journal journal;
    uint32_t outcome = 99;

    new_file(&file);
    CHECK(open_on(&outbox, &file) == POLYDB_DONE);
    CHECK(open_on(&outbox, &file) == POLYDB_IN_USE);
    CHECK(polydb_outbox_release(&outbox) == POLYDB_NOTHING);
    CHECK(take(&outbox) == 100 + POLYDB_NOTHING);
    CHECK(polydb_outbox_info(&outbox, &journal) == POLYDB_DONE && journal.stored == 9 && journal.asked == 9 && journal.limit == POLYDB_MAX_JOURNAL);

    CHECK(hold(&outbox, 1, "0 if -0.1.0 ; 1 if +0.1.0") == POLYDB_DONE);
    CHECK(hold(&outbox, 2, "1") == POLYDB_DONE);
    CHECK(hold(&outbox, 3, "") == POLYDB_BAD_CASES);
    CHECK(polydb_outbox_hold(&outbox, 3, NULL, 0) == POLYDB_BAD_CASES);
    CHECK(hold(&outbox, 3, "2") == POLYDB_BAD_CASES);
    CHECK(hold(&outbox, 3, "1 if +16.1.0 ; 0 if -16.1.0") == POLYDB_BAD_CASES);
    CHECK(hold(&outbox, 3, "1 if +0.1.0") == POLYDB_BAD_CASES);
    CHECK(hold(&outbox, 2, "0") == POLYDB_UNWRITTEN);
    CHECK(polydb_outbox_info(&outbox, &journal) == POLYDB_DONE && journal.stored == 9 && journal.asked > 9);
    write_all(&outbox, &file);
    CHECK(polydb_outbox_info(&outbox, &journal) == POLYDB_DONE && journal.stored == journal.asked && journal.stored == file.length);
    CHECK(hold(&outbox, 2, "0") == POLYDB_AGAIN);

    /* The first waits, the second is ready, and is let out once its release is in the file. */
    CHECK(polydb_outbox_release(&outbox) == POLYDB_DONE);
    CHECK(polydb_outbox_release(&outbox) == POLYDB_NOTHING);
    CHECK(take(&outbox) == 100 + POLYDB_UNWRITTEN);
    CHECK(write_one(&outbox, &file, 0));
    CHECK(take(&outbox) == 100 + POLYDB_UNWRITTEN);
    CHECK(write_one(&outbox, &file, 1) && !write_one(&outbox, &file, 1));
    CHECK(take(&outbox) == 2);
    CHECK(take(&outbox) == 100 + POLYDB_NOTHING);

    CHECK(polydb_outbox_learn(&outbox, 16, 1, 0, true, &outcome) == POLYDB_NO_SITE && outcome == 0);
    CHECK(learn(&outbox, 0, true) == POLYDB_DONE);
    CHECK(learn(&outbox, 0, false) == POLYDB_UNWRITTEN);
    CHECK(polydb_outbox_release(&outbox) == POLYDB_DONE);
    write_all(&outbox, &file);
    CHECK(polydb_outbox_learn(&outbox, 0, 1, 0, false, &outcome) == POLYDB_KNOWN && outcome == POLYDB_COMMITTED);
    CHECK(take(&outbox) == 1);
    polydb_outbox_close(&outbox);

    /* Opened again it knows what it knew, and lets nothing out a second time. */
    CHECK(open_on(&outbox, &file) == POLYDB_DONE);
    CHECK(polydb_outbox_release(&outbox) == POLYDB_NOTHING && take(&outbox) == 100 + POLYDB_NOTHING);
    CHECK(hold(&outbox, 1, "1") == POLYDB_AGAIN);
    CHECK(!write_one(&outbox, &file, 1024));
    polydb_outbox_close(&outbox);
}

/* Several are released before they are taken, and one group has their records. */
static void released_together(void) {
    static host_file file;
    polydb_outbox outbox = {0};

    new_file(&file);
    CHECK(open_on(&outbox, &file) == POLYDB_DONE);
    for (uint32_t output = 1; output <= 3; output++) {
        CHECK(hold(&outbox, output, "1") == POLYDB_DONE);
        CHECK(polydb_outbox_release(&outbox) == POLYDB_DONE);
    }
    CHECK(polydb_outbox_release(&outbox) == POLYDB_NOTHING);
    CHECK(write_one(&outbox, &file, 1024) && write_one(&outbox, &file, 1024) && !write_one(&outbox, &file, 1024));
    for (uint32_t output = 1; output <= 3; output++) {
        CHECK(take(&outbox) == output);
    }
    polydb_outbox_close(&outbox);
}

/* ---- kills ---- */

/* Bytes that were under way when the process was killed. */
static void tear(host_file *file, uint64_t place, const uint8_t *bytes, size_t count, size_t whole) {
    uint8_t torn[1024];
    for (size_t i = 0; i < count; i++) {
        torn[i] = i < whole ? bytes[i] : (uint8_t)(bytes[i] ^ 0x5a);
    }
    put(file, place, torn, count);
}

/*
 * A process that holds an output, releases it, writes and takes it is killed at its `stop`th write, of which `whole` bytes are there and the others are strange. Then others
 * go on until nothing is left to do. The output is taken once at most, and once where it wasn't released for good and lost.
 */
static bool killed_at(unsigned stop, size_t whole) {
    static host_file file;
    polydb_outbox outbox = {0};
    uint8_t bytes[1024];
    size_t written = 0;
    uint64_t place = 0;
    unsigned writes = 0;
    unsigned taken = 0;
    bool killed = false;

    new_file(&file);
    for (unsigned process = 0; process < 3; process++) {
        bool down = false;
        CHECK(open_on(&outbox, &file) == POLYDB_DONE);
        for (unsigned round = 0; round < 3 && !down; round++) {
            if (round == 0) {
                uint32_t status = hold(&outbox, 7, "1");
                CHECK(status == POLYDB_DONE || status == POLYDB_AGAIN);
            } else if (round == 1) {
                uint32_t status = polydb_outbox_release(&outbox);
                CHECK(status == POLYDB_DONE || status == POLYDB_NOTHING);
                CHECK(take(&outbox) != 7);
            } else if (take(&outbox) == 7) {
                taken++;
            }
            while (!down && polydb_outbox_take_journal(&outbox, bytes, sizeof bytes, &written, &place) == POLYDB_DONE) {
                if (!killed && writes++ == stop) {
                    killed = down = true;
                    tear(&file, place, bytes, written, whole < written ? whole : written);
                } else {
                    put(&file, place, bytes, written);
                    CHECK(polydb_outbox_journal_synced(&outbox, place, written) == POLYDB_DONE);
                }
            }
        }
        polydb_outbox_close(&outbox);
    }
    /* Only where the release is in the file, and the kill came before it was taken, is the output lost. */
    CHECK(taken == 1 || (killed && taken == 0 && stop == 3 && whole > 0));
    return killed;
}

static void kills(void) {
    unsigned stop = 0;
    while (killed_at(stop, 0)) {
        for (size_t whole = 1; whole < 64; whole++) {
            CHECK(killed_at(stop, whole));
        }
        stop++;
    }
    CHECK(stop == 4);
}

/* ---- with each allocation failing ---- */

static void retried(void) {
    static host_file file;
    static host_file before;
    polydb_outbox outbox = {0};
    polydb_fault fault;
    uint32_t outcome;
    uint32_t status;

    new_file(&file);
    RETRY(polydb_outbox_open(&outbox, file.bytes, file.length, &fault));
    CHECK(status == POLYDB_DONE);
    RETRY(hold(&outbox, 1, "0 if -0.1.0 ; 1 if +0.1.0"));
    CHECK(status == POLYDB_DONE);
    RETRY(hold(&outbox, 2, "1"));
    CHECK(status == POLYDB_DONE);
    RETRY(polydb_outbox_learn(&outbox, 0, 1, 0, true, &outcome));
    CHECK(status == POLYDB_DONE && outcome == 0);
    RETRY(polydb_outbox_release(&outbox));
    CHECK(status == POLYDB_DONE);
    write_all(&outbox, &file);
    before = file;
    CHECK(take(&outbox) == 1);
    RETRY(polydb_outbox_release(&outbox));
    CHECK(status == POLYDB_DONE);
    write_all(&outbox, &file);
    CHECK(take(&outbox) == 2);
    polydb_outbox_close(&outbox);
    RETRY(polydb_outbox_open(&outbox, before.bytes, before.length, &fault));
    CHECK(status == POLYDB_DONE);
    RETRY(polydb_outbox_release(&outbox));
    CHECK(status == POLYDB_DONE);
    write_all(&outbox, &before);
    CHECK(before.length == file.length && memcmp(before.bytes, file.bytes, file.length) == 0);
    polydb_outbox_close(&outbox);
}

/* Runs it with no allocation failing, and then with each failing in turn. */
static void with_failing_allocations(void (*body)(void)) {
    asked = 0;
    body();
    long all = asked;
    CHECK(all > 0);
    for (long i = 0; i < all; i++) {
        good = i;
        body();
        good = -1;
    }
}

int main(void) {
    closed_outboxes();
    refused_openings();
    held_back();
    released_together();
    kills();
    with_failing_allocations(retried);
    puts("outbox: as the header says");
    return 0;
}
