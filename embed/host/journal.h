/* A journal as bytes: where it ends, and how many records it has. */
#ifndef POLYDB_JOURNAL_H
#define POLYDB_JOURNAL_H

#include <sys/types.h>

#include "polydb_host.h"

/* What a journal holds, from its header to its closed gate. Of what is no journal it is as much as shows that. */
typedef struct {
    uint8_t *bytes; /* to be freed */
    size_t length;
    uint64_t records;
} journal_content;

/* Bytes of a journal without records, which are those of POLYDB_EMPTY_JOURNAL and its zero. */
extern const size_t EMPTY_LENGTH;

/* A gate that lets the record behind it count, and one that doesn't. */
enum { GATE_CLOSED = 0, GATE_OPEN = 1 };

/* Where bytes are: `read` reads so many from this place on, or fewer where they end, and gives how many, or -1 with errno. */
typedef struct {
    ssize_t (*read)(const void *from, uint8_t *bytes, size_t length, uint64_t place);
    const void *from;
    uint64_t size;
} journal_source;

/* Finds how long the journal is that bytes begin with, and how many records it has. Gives false, with errno, where they can't be read. */
bool find_end(const journal_source *source, journal_content *content);

/* The journal of a new site. Gives false where there is no memory. */
bool without_records(journal_content *content);

#endif
