/*
 * Where a site's journal is kept, as a host sees it: a folder (`folder.c`), or another place that keeps to the same duties (`../etcd/`). The host of `host.c` does the rest for each.
 */
#ifndef POLYDB_STORE_H
#define POLYDB_STORE_H

#include "journal.h"
#include "polydb_host.h"

/* Bytes that the library wants at a place of the journal. */
typedef struct {
    const uint8_t *bytes;
    size_t length;
    uint64_t place;
} store_write;

typedef struct {
    /* Looks whether the place is this site's, with this configuration; sees to it that no other process writes there from now on; and reads the journal. */
    polydb_host_cause (*read)(polydb_store *store, const polydb_host_setup *setup, journal_content *content, polydb_host_found *found, polydb_host_error *error);

    /* The library has taken the journal: what was read is there for good from now on, and says whose it is. */
    polydb_host_cause (*settle)(polydb_store *store, const polydb_host_setup *setup, const journal_content *content, polydb_host_found *found, polydb_host_error *error);

    /* Makes these writes, one after another. With the answer POLYDB_HOST_DONE all are there for good. With another one the same are asked for again, before any other. */
    polydb_host_cause (*write)(polydb_store *store, const store_write *writes, size_t count, polydb_host_error *error);

    /* Whether no other process has taken the site, by now, and the journal has the last write. Null where that is so while this one is there. */
    polydb_host_cause (*confirm)(polydb_store *store, polydb_host_error *error);

    /* How full the place is. Null where that isn't known. */
    polydb_host_fill (*fill)(polydb_store *store);

    /* Closes it. `is_owner` is false in the child of a fork, whose parent has it as before. */
    void (*close)(polydb_store *store, bool is_owner);

    /* Whether several writes are there all at once or not at all, whatever happens. */
    bool is_whole;
} store_calls;

/* The first member of each kind of store. */
struct polydb_store {
    const store_calls *calls;
};

#endif
