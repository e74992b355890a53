/* A journal as bytes: where it ends, and how many records it has. */
#include "journal.h"

#include <stdlib.h>
#include <string.h>

#include "polydb.h"

const size_t EMPTY_LENGTH = sizeof POLYDB_EMPTY_JOURNAL;
enum { HEADER_LENGTH = 8 };

static uint64_t number_at(const uint8_t *bytes) {
    return (uint64_t)bytes[0] << 24 | (uint64_t)bytes[1] << 16 | (uint64_t)bytes[2] << 8 | (uint64_t)bytes[3];
}

/*
 * By the lengths of its records alone, a window of the bytes at a time. Behind an open gate whose record goes past the end of the bytes it stops: what is up to that gate
 * shows that it is no journal.
 */
static bool find_gate(const journal_source *source, journal_content *content) {
    enum { HEAD = 5 }; /* a gate, and the length of its record */
    uint8_t window[8192];
    uint64_t size = source->size, from = 0, place = HEADER_LENGTH;
    size_t count = 0;
    for (;;) {
        if (place + HEAD > from + count || place < from) {
            ssize_t more = source->read(source->from, window, sizeof window, place);
            if (more < 0) {
                return false;
            }
            from = place;
            count = (size_t)more;
        }
        const uint8_t *head = window + (place - from);
        size_t there = count - (size_t)(place - from);
        content->length = (size_t)place + (there > 0);
        if (there < HEAD || size < place + HEAD || head[0] != GATE_OPEN || number_at(head + 1) >= size - place - HEAD) {
            return true;
        }
        place += HEAD + number_at(head + 1);
        content->records++;
    }
}

bool find_end(const journal_source *source, journal_content *content) {
    uint8_t header[HEADER_LENGTH];
    ssize_t count = source->read(source->from, header, sizeof header, 0);
    content->records = 0;
    if (count < 0) {
        return false;
    }
    if (count < HEADER_LENGTH || memcmp(header, POLYDB_EMPTY_JOURNAL, HEADER_LENGTH) != 0) {
        content->length = (size_t)count; /* no journal, by its first bytes */
        return true;
    }
    return find_gate(source, content);
}

bool without_records(journal_content *content) {
    *content = (journal_content){.bytes = malloc(EMPTY_LENGTH), .length = EMPTY_LENGTH};
    if (content->bytes != NULL) {
        memcpy(content->bytes, POLYDB_EMPTY_JOURNAL, EMPTY_LENGTH);
    }
    return content->bytes != NULL;
}
