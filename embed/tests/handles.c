/*
 * What the header says of handles, tried from C: closed handles, closing twice, lengths of 0, small buffers, a site whose messages
 * wait for its journal, and each allocation failing in turn. Run by `embed/build`; with `--sanitize` a leak or an access outside a block ends the program.
 *
 * Link with -Wl,--wrap=malloc,--wrap=realloc: the two functions below then stand for those of the C library.
 */
#include <stdio.h>
#include <stdlib.h>
#include <string.h>

#include "polydb.h"

/* ---- allocations that fail ---- */

void *__real_malloc(size_t size);
void *__real_realloc(void *block, size_t size);

/* How many allocations go well before one fails. Below 0 all go well. */
static long good = -1;
static long asked;
/* The greatest of the blocks that were asked for. */
static size_t largest;

static bool fails(size_t size) {
    asked++;
    largest = size > largest ? size : largest;
    return good >= 0 && good-- == 0;
}

void *__wrap_malloc(size_t size) { return fails(size) ? NULL : __real_malloc(size); }

void *__wrap_realloc(void *block, size_t size) { return fails(size) ? NULL : __real_realloc(block, size); }

/* ---- checks ---- */

#define CHECK(holds)                                                            \
    do {                                                                        \
        if (!(holds)) {                                                         \
            fprintf(stderr, "handles: line %d: " #holds "\n", __LINE__);        \
            exit(1);                                                            \
        }                                                                       \
    } while (0)

static const uint8_t CATALOG[] = "sites 2\nitem a 0 100\nitem b 1 50\n";
static const size_t CATALOG_LENGTH = sizeof CATALOG - 1;

static uint32_t step(polydb_world *world, const char *line) {
    return polydb_world_step(world, (const uint8_t *)line, strlen(line));
}

/* All that the world has to say, taken in pieces of so many bytes: how many bytes that are. */
static size_t take_all(polydb_world *world, uint8_t *out, size_t most, size_t piece) {
    size_t total = 0;
    for (;;) {
        size_t written = 99;
        size_t room = piece < most - total ? piece : most - total;
        CHECK(polydb_world_take(world, out + total, room, &written) == POLYDB_DONE);
        CHECK(written <= room);
        if (written == 0) {
            return total;
        }
        total += written;
    }
}

static void closed_handles(void) {
    polydb_world world = {0};
    uint8_t out[8] = "........";
    size_t written = 99;

    CHECK(step(&world, "tick 0") == POLYDB_CLOSED);
    CHECK(polydb_world_take(&world, out, sizeof out, &written) == POLYDB_CLOSED);
    CHECK(written == 0 && memcmp(out, "........", 8) == 0);
    polydb_world_close(&world);
    polydb_world_close(&world);
    CHECK(polydb_world_open(&world, CATALOG, 0) == POLYDB_MALFORMED);
    CHECK(!world.live && world.at == NULL);
    CHECK(step(&world, "tick 0") == POLYDB_CLOSED);
}

static void open_handles(void) {
    polydb_world world = {0};
    uint8_t out[1];
    size_t written = 99;

    CHECK(polydb_world_open(&world, CATALOG, CATALOG_LENGTH) == POLYDB_DONE);
    void *at = world.at;
    CHECK(world.live && at != NULL);
    CHECK(polydb_world_open(&world, CATALOG, CATALOG_LENGTH) == POLYDB_IN_USE);
    CHECK(world.live && world.at == at);
    CHECK(polydb_world_take(&world, out, 0, &written) == POLYDB_DONE && written == 0);
    polydb_world_close(&world);
    CHECK(!world.live && world.at == NULL);
    CHECK(polydb_world_open(&world, CATALOG, CATALOG_LENGTH) == POLYDB_DONE);
    polydb_world_close(&world);
    polydb_world_close(&world);
}

/* The same lines come out whatever the size of the pieces. */
static void small_buffers(void) {
    static uint8_t whole[65536], pieces[65536];
    size_t length = 0;
    for (size_t piece = 1; piece <= 64; piece *= 4) {
        polydb_world world = {0};
        CHECK(polydb_world_open(&world, CATALOG, CATALOG_LENGTH) == POLYDB_DONE);
        for (int i = 0; i < 1000; i++) {
            CHECK(step(&world, "submit 0 a := a - 1 ; b := b + 1") == POLYDB_DONE);
            CHECK(step(&world, "pump 20") == POLYDB_DONE);
            if (i % 100 == 99) {
                size_t some = take_all(&world, pieces + 0, sizeof pieces, piece);
                if (piece == 1 && i == 99) {
                    memcpy(whole, pieces, some);
                    length = some;
                } else if (i == 99) {
                    CHECK(some == length && memcmp(whole, pieces, some) == 0);
                }
            }
        }
        polydb_world_close(&world);
    }
    CHECK(length > 0);
}

/* Opens a world, makes two steps and closes it. Each call that there was no memory for is made again, unless the world is broken off. */
static void retried(void) {
    polydb_world world = {0};
    uint32_t status;
    do {
        status = polydb_world_open(&world, CATALOG, CATALOG_LENGTH);
        CHECK(status == POLYDB_DONE || status == POLYDB_NO_MEMORY);
        CHECK(world.live == (status == POLYDB_DONE));
    } while (status != POLYDB_DONE);
    const char *const lines[] = {"submit 0 a := a - 10 ; b := b + 10", "pump"};
    for (int i = 0; i < 2; i++) {
        do {
            status = step(&world, lines[i]);
        } while (status == POLYDB_NO_MEMORY);
        if (status == POLYDB_BROKEN_OFF) {
            /* No memory within the step: the world takes no more, and is closed like any other. */
            CHECK(step(&world, "tick 0") == POLYDB_ENDED);
            polydb_world_close(&world);
            return;
        }
        CHECK(status == POLYDB_DONE);
    }

    static uint8_t first[4096];
    static size_t first_length;
    uint8_t out[4096];
    size_t length = take_all(&world, out, sizeof out, sizeof out);
    if (first_length == 0) {
        CHECK(length > 0);
        memcpy(first, out, length);
        first_length = length;
    }
    CHECK(length == first_length && memcmp(first, out, length) == 0);
    polydb_world_close(&world);
}

/* ---- sites ---- */

static const uint8_t CONFIG[] = "sites 1\nitem a 0 100\n";
static const size_t CONFIG_LENGTH = sizeof CONFIG - 1;
static const uint8_t PROGRAM[] = "a := a - 10";
static const size_t PROGRAM_LENGTH = sizeof PROGRAM - 1;
static const uint8_t *const EMPTY = (const uint8_t *)POLYDB_EMPTY_JOURNAL;

static void closed_sites(void) {
    polydb_site site = {0};
    uint8_t out[8] = "........";
    size_t written = 99;
    uint64_t place = 99;

    CHECK(polydb_site_submit(&site, PROGRAM, PROGRAM_LENGTH, false) == POLYDB_CLOSED);
    CHECK(polydb_site_receive(&site, out, 0) == POLYDB_CLOSED);
    CHECK(polydb_site_tick(&site) == POLYDB_CLOSED);
    CHECK(polydb_site_journal_synced(&site, 10, 1) == POLYDB_CLOSED);
    CHECK(polydb_site_take_journal(&site, out, sizeof out, &written, &place) == POLYDB_CLOSED && written == 0);
    written = 99;
    CHECK(polydb_site_take_message(&site, out, sizeof out, &written, &place) == POLYDB_CLOSED && written == 0);
    written = 99;
    CHECK(polydb_site_read(&site, CONFIG, 1, out, sizeof out, &written) == POLYDB_CLOSED && written == 0);
    CHECK(memcmp(out, "........", 8) == 0);
    polydb_site_close(&site);
    polydb_site_close(&site);
    CHECK(polydb_site_open(&site, CONFIG, 0, 0, EMPTY, sizeof POLYDB_EMPTY_JOURNAL) == POLYDB_MALFORMED);
    CHECK(!site.live && site.at == NULL);
}

/* Makes a call again as long as there is no memory for it. */
#define RETRY(call)                                                             \
    do {                                                                        \
        status = (call);                                                        \
    } while (status == POLYDB_NO_MEMORY)

/* Opens a site, asks it for something and writes its journal down, into memory. Nothing is let out before. */
static void wait_for_journal(void) {
    polydb_site site = {0};
    uint8_t out[4096];
    uint8_t again[4096];
    size_t written = 99;
    uint64_t place = 99;
    uint64_t to = 99;
    uint32_t status;

    RETRY(polydb_site_open(&site, CONFIG, CONFIG_LENGTH, 0, EMPTY, sizeof POLYDB_EMPTY_JOURNAL));
    CHECK(status == POLYDB_DONE && site.live);
    CHECK(polydb_site_open(&site, CONFIG, CONFIG_LENGTH, 0, EMPTY, sizeof POLYDB_EMPTY_JOURNAL) == POLYDB_IN_USE);
    RETRY(polydb_site_receive(&site, out, 0));
    CHECK(status == POLYDB_BAD_MESSAGE);
    RETRY(polydb_site_read(&site, CONFIG, 0, out, sizeof out, &written));
    CHECK(status == POLYDB_UNKNOWN_NAME);
    RETRY(polydb_site_submit(&site, PROGRAM, PROGRAM_LENGTH, false));
    CHECK(status == POLYDB_DONE);

    int writes = 0;
    for (;;) {
        RETRY(polydb_site_take_journal(&site, out, 0, &written, &place));
        if (status == POLYDB_NOTHING) {
            CHECK(written == 0);
            break;
        }
        CHECK(status == POLYDB_TOO_SMALL && written > 0 && written <= sizeof out);
        size_t needed = written;
        RETRY(polydb_site_take_message(&site, again, sizeof again, &written, &to));
        CHECK(status == POLYDB_NOTHING && written == 0);
        RETRY(polydb_site_read(&site, (const uint8_t *)"a", 1, again, sizeof again, &written));
        CHECK(status == POLYDB_UNWRITTEN && written == 0);
        RETRY(polydb_site_take_journal(&site, out, needed, &written, &place));
        CHECK(status == POLYDB_DONE && written == needed);
        uint64_t first_place = place;
        RETRY(polydb_site_take_journal(&site, again, sizeof again, &written, &place));
        CHECK(status == POLYDB_DONE && written == needed && place == first_place && memcmp(out, again, needed) == 0);
        CHECK(polydb_site_journal_synced(&site, place, needed + 1) == POLYDB_NOT_NEXT);
        CHECK(polydb_site_journal_synced(&site, place, needed) == POLYDB_DONE);
        CHECK(polydb_site_journal_synced(&site, place, needed) == POLYDB_NOT_NEXT);
        writes++;
    }
    CHECK(writes > 0);

    RETRY(polydb_site_take_message(&site, out, 0, &written, &to));
    CHECK(status == POLYDB_TOO_SMALL && written > 0 && written <= sizeof out);
    size_t needed = written;
    RETRY(polydb_site_take_message(&site, out, needed, &written, &to));
    CHECK(status == POLYDB_DONE && written == needed);
    RETRY(polydb_site_tick(&site));
    CHECK(status == POLYDB_DONE);
    RETRY(polydb_site_read(&site, (const uint8_t *)"a", 1, out, 0, &written));
    CHECK(status == POLYDB_TOO_SMALL && written > 0);
    needed = written;
    RETRY(polydb_site_read(&site, (const uint8_t *)"a", 1, out, needed, &written));
    CHECK(status == POLYDB_DONE && written == needed);
    polydb_site_close(&site);
}

/* ---- what is asked ---- */

/* How many records a journal has: each stands behind an open gate, after its length in four bytes. */
static uint32_t records_in(const uint8_t *journal) {
    uint32_t count = 0;
    size_t gate = sizeof POLYDB_EMPTY_JOURNAL - 1;
    for (; journal[gate] == 1; count++) {
        const uint8_t *length = journal + gate + 1;
        gate += 5 + ((size_t)length[0] << 24 | (size_t)length[1] << 16 | (size_t)length[2] << 8 | (size_t)length[3]);
    }
    return count;
}

/* NULL with a length of 0 is an empty text, wherever a text is given. */
static void no_texts(void) {
    static const uint8_t names[] = "sites 1\nitem a 0 100\n";
    polydb_world world = {0};
    polydb_site site = {0};
    polydb_fault fault;
    uint8_t out[256];
    size_t written = 99;

    CHECK(polydb_run(NULL, 0, out, sizeof out, &written) == POLYDB_MALFORMED && written > 0);
    CHECK(polydb_world_open(&world, NULL, 0) == POLYDB_MALFORMED);
    CHECK(polydb_world_open(&world, names, sizeof names - 1) == POLYDB_DONE);
    CHECK(polydb_world_step(&world, NULL, 0) == POLYDB_NOT_ONE_EVENT);
    polydb_world_close(&world);
    CHECK(polydb_site_open(&site, NULL, 0, 0, EMPTY, sizeof POLYDB_EMPTY_JOURNAL) == POLYDB_MALFORMED);
    CHECK(polydb_site_open(&site, CONFIG, CONFIG_LENGTH, 0, NULL, 0) == POLYDB_NOT_OURS);
    CHECK(polydb_site_open_at(&site, CONFIG, CONFIG_LENGTH, 0, NULL, 0, &fault) == POLYDB_NOT_OURS && fault.number == 0);
    CHECK(polydb_site_open(&site, CONFIG, CONFIG_LENGTH, 0, EMPTY, sizeof POLYDB_EMPTY_JOURNAL) == POLYDB_DONE);
    CHECK(polydb_site_submit(&site, NULL, 0, false) == POLYDB_BAD_TEXT);
    CHECK(polydb_site_submit_at(&site, NULL, 0, false, &fault) == POLYDB_BAD_TEXT && fault.column == 1);
    CHECK(polydb_site_receive(&site, NULL, 0) == POLYDB_BAD_MESSAGE);
    CHECK(polydb_site_read(&site, NULL, 0, out, sizeof out, &written) == POLYDB_UNKNOWN_NAME);
    polydb_site_close(&site);
}

/* What the file holds behind the journal takes no memory, whatever it is. */
static void behind_the_journal(void) {
    static uint8_t file[1 << 20] = POLYDB_EMPTY_JOURNAL;
    polydb_site site = {0};

    memset(file + sizeof POLYDB_EMPTY_JOURNAL, 'x', sizeof file - sizeof POLYDB_EMPTY_JOURNAL);
    largest = 0;
    CHECK(polydb_site_open(&site, CONFIG, CONFIG_LENGTH, 0, file, sizeof file) == POLYDB_DONE);
    CHECK(largest > 0 && largest < 1 << 16);
    polydb_site_close(&site);
}

/* Each status has a text of its own, and other numbers have none. */
static void status_texts(void) {
    int texts = 0;
    for (uint32_t status = 0; status < 256; status++) {
        uint8_t out[POLYDB_MAX_STATUS_TEXT + 1];
        size_t written = 99;
        memset(out, '.', sizeof out);
        uint32_t found = polydb_status_text(status, out, 0, &written);
        if (found == POLYDB_NOTHING) {
            CHECK(written == 0 && status != POLYDB_DONE && status != POLYDB_UNWRITTEN);
            continue;
        }
        CHECK(found == POLYDB_TOO_SMALL && written > 0 && written <= POLYDB_MAX_STATUS_TEXT && out[0] == '.');
        size_t needed = written;
        CHECK(polydb_status_text(status, out, needed - 1, &written) == POLYDB_TOO_SMALL && out[0] == '.');
        CHECK(polydb_status_text(status, out, sizeof out, &written) == POLYDB_DONE && written == needed && out[needed] == '.');
        CHECK(memchr(out, '.', needed) == NULL);
        texts++;
    }
    CHECK(texts == 31);
    CHECK(polydb_status_text(UINT32_MAX, (uint8_t[1]){0}, 1, &(size_t){0}) == POLYDB_NOTHING);
}

/* Where what is given is at fault. */
static void faults(void) {
    static const struct {
        const char *program;
        uint32_t status, column;
        uint64_t number;
    } programs[] = {
        {"a := ", POLYDB_BAD_TEXT, 6, 0},
        {"a := x", POLYDB_BAD_TEXT, 6, 0},
        {"a := 1 ; return", POLYDB_BAD_TEXT, 16, 0},
        {"return 1", POLYDB_BAD_PROGRAM, 0, 0},
    };
    static const char config[] = "sites 1\n# a comment\nitem a 0 100\nitem a 0 1\n";
    static const char event[] = "sites 1\nitem a 0 100\nsubmit 0 a := b\n";
    static const char small[] = "sites 1\njournal 32\nitem a 0 1\n";
    static char long_program[POLYDB_MAX_PROGRAM + 1];
    polydb_site site = {0};
    polydb_fault fault = {9, 9, 9};
    uint8_t file[64] = POLYDB_EMPTY_JOURNAL;
    size_t length = sizeof POLYDB_EMPTY_JOURNAL;

    CHECK(polydb_site_submit_at(&site, PROGRAM, PROGRAM_LENGTH, false, &fault) == POLYDB_CLOSED);
    CHECK(fault.line == 0 && fault.column == 0 && fault.number == 0);
    CHECK(polydb_site_open_at(&site, (const uint8_t *)config, sizeof config - 1, 0, EMPTY, length, &fault) == POLYDB_MALFORMED);
    CHECK(fault.line == 4 && fault.column == 0 && fault.number == 0);
    CHECK(polydb_site_open_at(&site, (const uint8_t *)event, sizeof event - 1, 0, EMPTY, length, &fault) == POLYDB_MALFORMED);
    CHECK(fault.line == 3 && fault.column == 6 && fault.number == 0);
    CHECK(polydb_site_open_at(&site, CONFIG, CONFIG_LENGTH, 0, CONFIG, CONFIG_LENGTH, &fault) == POLYDB_NOT_OURS && fault.number == 0);

    /* Its limit has room for two epochs. A third wants a higher one, and then the same journal is opened. */
    for (int epoch = 1; epoch <= 2; epoch++) {
        uint64_t place;
        size_t written;
        CHECK(polydb_site_open_at(&site, (const uint8_t *)small, sizeof small - 1, 0, file, length, &fault) == POLYDB_DONE && fault.number == 0);
        while (polydb_site_take_journal(&site, file + length, sizeof file - length, &written, &place) == POLYDB_DONE) {
            memmove(file + place, file + length, written);
            CHECK(polydb_site_journal_synced(&site, place, written) == POLYDB_DONE);
            if (place == length) {
                length += written;
            }
        }
        polydb_site_close(&site);
    }
    CHECK(length == 29);
    CHECK(polydb_site_open_at(&site, (const uint8_t *)small, sizeof small - 1, 0, file, length, &fault) == POLYDB_FULL && fault.number == 39);
    CHECK(polydb_site_open_at(&site, CONFIG, CONFIG_LENGTH, 0, file, length, &fault) == POLYDB_DONE);

    for (size_t i = 0; i < sizeof programs / sizeof *programs; i++) {
        const char *program = programs[i].program;
        CHECK(polydb_site_submit_at(&site, (const uint8_t *)program, strlen(program), false, &fault) == programs[i].status);
        CHECK(fault.line == 0 && fault.column == programs[i].column && fault.number == programs[i].number);
    }
    memset(long_program, ' ', sizeof long_program);
    CHECK(polydb_site_submit_at(&site, (const uint8_t *)long_program, sizeof long_program, false, &fault) == POLYDB_BAD_TEXT);
    CHECK(fault.column == 0 && fault.number == sizeof long_program);
    CHECK(polydb_site_submit_at(&site, PROGRAM, PROGRAM_LENGTH, false, &fault) == POLYDB_DONE && fault.number == 0);
    polydb_site_close(&site);
}

/* Writes all that the site asks for into a file in memory. */
static void write_all(polydb_site *site, uint8_t *file, size_t most, size_t *length) {
    static uint8_t bytes[4096];
    size_t written;
    uint64_t place;
    while (polydb_site_take_journal(site, bytes, sizeof bytes, &written, &place) == POLYDB_DONE) {
        CHECK(place + written <= most);
        memcpy(file + place, bytes, written);
        if (place + written > *length) {
            *length = place + written;
        }
        CHECK(polydb_site_journal_synced(site, place, written) == POLYDB_DONE);
    }
}

/* Writes, and gives the site its own messages, until it lets out nothing more. */
static void carry_own(polydb_site *site, uint8_t *file, size_t most, size_t *length) {
    static uint8_t message[4096];
    for (;;) {
        size_t written;
        uint64_t to;
        write_all(site, file, most, length);
        uint32_t status = polydb_site_take_message(site, message, sizeof message, &written, &to);
        if (status == POLYDB_NOTHING) {
            return;
        }
        CHECK(status == POLYDB_DONE);
        if (to == 0) {
            CHECK(polydb_site_receive(site, message, written) == POLYDB_DONE);
        }
    }
}

static uint32_t outcome_of(polydb_site *site, uint32_t epoch, uint32_t number) {
    uint32_t outcome = 99;
    uint32_t status = polydb_site_outcome(site, 0, epoch, number, &outcome);
    CHECK((status == POLYDB_DONE) == (outcome != 0));
    return status == POLYDB_DONE ? outcome : 100 + status;
}

/* What became of transactions: before anything is written, while they are at work, after a commit, and in a later process. */
static void what_became(void) {
    static const uint8_t two[] = "sites 2\nitem a 0 100\nitem b 1 50\n";
    static const uint8_t transfer[] = "a := a - 10 ; b := b + 10";
    static uint8_t file[4096] = POLYDB_EMPTY_JOURNAL;
    size_t length = sizeof POLYDB_EMPTY_JOURNAL;
    polydb_site site = {0};
    polydb_info info;
    uint32_t outcome = 99;
    uint8_t out[64] = {0};
    size_t written = 99;
    uint64_t at = 99;

    CHECK(polydb_site_outcome(&site, 0, 1, 0, &outcome) == POLYDB_CLOSED && outcome == 0);
    CHECK(polydb_site_info(&site, &info) == POLYDB_CLOSED && info.epoch == 0 && info.limit == 0 && info.records == 0);
    CHECK(polydb_site_item(&site, 0, out, sizeof out, &written, &at) == POLYDB_CLOSED && written == 0 && at == 0);

    CHECK(polydb_site_open(&site, two, sizeof two - 1, 0, file, length) == POLYDB_DONE);
    CHECK(polydb_site_item(&site, 0, out, sizeof out, &written, &at) == POLYDB_DONE && written == 1 && out[0] == 'a' && at == 0);
    CHECK(polydb_site_item(&site, 1, out, 0, &written, &at) == POLYDB_TOO_SMALL && written == 1 && out[0] == 'a' && at == 0);
    CHECK(polydb_site_item(&site, 1, out, sizeof out, &written, &at) == POLYDB_DONE && written == 1 && out[0] == 'b' && at == 1);
    CHECK(polydb_site_item(&site, 2, out, sizeof out, &written, &at) == POLYDB_NOTHING && written == 0 && at == 0);
    CHECK(polydb_site_item(&site, UINT64_MAX, out, sizeof out, &written, &at) == POLYDB_NOTHING);

    CHECK(polydb_site_info(&site, &info) == POLYDB_DONE && info.stored == 9 && info.asked == 19 && info.limit == POLYDB_MAX_JOURNAL && info.epoch == 0 && info.records == 0);
    CHECK(polydb_site_submit(&site, PROGRAM, PROGRAM_LENGTH, false) == POLYDB_DONE);
    CHECK(outcome_of(&site, 1, 0) == 100 + POLYDB_UNWRITTEN);
    CHECK(polydb_site_outcome(&site, 1, 1, 0, &outcome) == POLYDB_NOT_HERE && outcome == 0);
    write_all(&site, file, sizeof file, &length);
    CHECK(polydb_site_info(&site, &info) == POLYDB_DONE && info.stored == info.asked && info.stored == length && info.epoch == 1);
    CHECK(info.records == 1 && records_in(file) == 1);
    CHECK(outcome_of(&site, 1, 0) == POLYDB_AT_WORK);
    CHECK(outcome_of(&site, 1, 1) == 100 + POLYDB_NOTHING);
    CHECK(outcome_of(&site, 2, 0) == 100 + POLYDB_NOTHING);
    CHECK(outcome_of(&site, 0, 7) == POLYDB_NOT_COMMITTED);

    /* The first goes on by messages of the site to itself; the second waits for the other site, which isn't there. */
    carry_own(&site, file, sizeof file, &length);
    CHECK(outcome_of(&site, 1, 0) == POLYDB_COMMITTED);
    CHECK(polydb_site_submit(&site, transfer, sizeof transfer - 1, false) == POLYDB_DONE);
    carry_own(&site, file, sizeof file, &length);
    CHECK(outcome_of(&site, 1, 0) == POLYDB_COMMITTED);
    CHECK(outcome_of(&site, 1, 1) == POLYDB_AT_WORK);
    polydb_site_close(&site);

    CHECK(polydb_site_open(&site, two, sizeof two - 1, 0, file, length) == POLYDB_DONE);
    CHECK(outcome_of(&site, 1, 0) == 100 + POLYDB_UNWRITTEN);
    write_all(&site, file, sizeof file, &length);
    CHECK(outcome_of(&site, 1, 0) == POLYDB_COMMITTED);
    CHECK(outcome_of(&site, 1, 1) == POLYDB_NOT_COMMITTED);
    CHECK(outcome_of(&site, 2, 0) == 100 + POLYDB_NOTHING);
    CHECK(polydb_site_info(&site, &info) == POLYDB_DONE && info.epoch == 2);
    CHECK(info.records == records_in(file) && info.records > 2);
    polydb_site_close(&site);
}

/* A tag comes with the report of its request's number, and with nothing else; a refused request leaves none. */
static void tags(void) {
    static const uint64_t wanted[] = {7, 0, UINT64_MAX};
    static uint8_t file[4096];
    size_t length = sizeof POLYDB_EMPTY_JOURNAL;
    polydb_site site = {0};
    polydb_fault fault = {9, 9, 9};
    uint8_t out[4096];
    size_t written = 99;
    uint64_t to = 99;
    uint64_t tag = 99;
    size_t count = 0;
    uint32_t status;

    memcpy(file, EMPTY, length);
    CHECK(polydb_site_submit_tagged(&site, PROGRAM, PROGRAM_LENGTH, false, 7, &fault) == POLYDB_CLOSED && fault.column == 0);
    CHECK(polydb_site_take_tagged(&site, out, sizeof out, &written, &to, &tag) == POLYDB_CLOSED && written == 0 && to == 0 && tag == 0);
    RETRY(polydb_site_open(&site, CONFIG, CONFIG_LENGTH, 0, EMPTY, length));
    RETRY(polydb_site_submit_tagged(&site, PROGRAM, PROGRAM_LENGTH, false, 7, &fault));
    RETRY(polydb_site_submit_tagged(&site, NULL, 0, false, 8, &fault));
    CHECK(status == POLYDB_BAD_TEXT && fault.column == 1);
    RETRY(polydb_site_submit(&site, PROGRAM, PROGRAM_LENGTH, false));
    RETRY(polydb_site_submit_tagged(&site, PROGRAM, PROGRAM_LENGTH, false, UINT64_MAX, &fault));
    CHECK(status == POLYDB_DONE && fault.column == 0);
    tag = 99;
    CHECK(polydb_site_take_tagged(&site, out, sizeof out, &written, &to, &tag) == POLYDB_NOTHING && tag == 0);
    write_all(&site, file, sizeof file, &length);
    for (;;) {
        RETRY(polydb_site_take_tagged(&site, out, 0, &written, &to, &tag));
        if (status == POLYDB_NOTHING) {
            break;
        }
        CHECK(status == POLYDB_TOO_SMALL && tag == 0 && to == 0);
        RETRY(polydb_site_take_tagged(&site, out, sizeof out, &written, &to, &tag));
        CHECK(status == POLYDB_DONE);
        if (to == POLYDB_REPORT && memcmp(out, "txn ", 4) == 0) {
            CHECK(count < 3 && tag == wanted[count]);
            count++;
        } else {
            CHECK(tag == 0);
        }
    }
    CHECK(count == 3);
    polydb_site_close(&site);
}

/* ---- a whole run ---- */

static void whole_run(void) {
    static const uint8_t schedule[] = "sites 1\nitem a 0 100\nreport\n";
    uint8_t out[256];
    size_t written = 99;
    CHECK(polydb_run(schedule, sizeof schedule - 1, out, 0, &written) == POLYDB_TOO_SMALL && written > 0 && written <= sizeof out);
    size_t needed = written;
    uint32_t status = polydb_run(schedule, sizeof schedule - 1, out, needed, &written);
    CHECK((status == 0 || status == 7) && written == (status == 0 ? needed : 0));
}

/* Runs it with no allocation failing, and then with each failing in turn. */
static void with_failing_allocations(void (*body)(void)) {
    asked = 0;
    body();
    long all = asked;
    for (long i = 0; i < all; i++) {
        good = i;
        body();
        good = -1;
    }
}

int main(void) {
    CHECK(polydb_version() == POLYDB_VERSION_NUMBER);
    closed_handles();
    open_handles();
    small_buffers();
    closed_sites();
    wait_for_journal();
    no_texts();
    behind_the_journal();
    status_texts();
    faults();
    what_became();
    tags();
    whole_run();
    with_failing_allocations(retried);
    with_failing_allocations(wait_for_journal);
    with_failing_allocations(tags);
    puts("handles: as the header says");
    return 0;
}
