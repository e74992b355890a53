/*
 * A site of polydb on a folder: what every host of a site in C needs of files, over the calls of `polydb.h`. `../etcd/polydb_etcd.h` has a journal in etcd for the same calls.
 *
 * A host of this kind opens a site on a folder, writes what the site wants written, syncs it, and hands over what the site lets out by two calls of
 * the program: one for messages to other sites, one for reports. The program carries messages, and tells the site of requests, messages and time:
 *
 *     polydb_host *host;
 *     polydb_host_found found;
 *     polydb_host_error error;
 *     if (polydb_host_open(&host, &setup, &found, &error) != POLYDB_HOST_DONE) { polydb_host_describe(&error, text, sizeof text); .. }
 *     for ever:
 *         polydb_host_settle(host, &error)          the messages and reports come within this call
 *         polydb_host_submit, polydb_host_receive, polydb_host_tick, as many as there are
 *     polydb_host_close(host);
 *
 * What it does of that which `polydb.h` says a host owes:
 *   - a lock excludes every other process, and every other opening in this one (an open file description lock, fcntl(2), on `site-S.lock`);
 *   - after a fork the child is refused (POLYDB_HOST_FORKED), and the parent goes on;
 *   - the folder says which site it is and with which configuration (`site-S.id`), in its file and its folder's entry before anything else is written, and is
 *     compared at each opening;
 *   - a new journal is on the disk with its entry in the folder before the site is given anything. A file without a byte counts as new, as `polydb show` makes one;
 *   - where the process before didn't end by polydb_host_close, or one of its writes or syncs has failed, the bytes that can be read needn't be on the disk, and a
 *     sync alone needn't bring them there: the journal is written anew under another name, synced, and takes the old one's place;
 *   - files that were copied, or set back to what they were before the last opening, are refused where it shows: the lock's file is another one, or the journal is shorter. It doesn't show where
 *     the disk itself was copied or set back, as with a virtual machine, nor where the lock's file was removed;
 *   - a write or a sync that fails is never told to the site. The same bytes are written again at the next polydb_host_settle;
 *   - a message of the site to itself is given back to it at once.
 *
 * What the program owes: the folder is on a file system of this machine on which the system keeps to locks and syncs; nobody else writes files `site-S.*` of
 * it, copies them to go on from both, or sets them back; a message is given to the site only if a site of this very deployment has let it out, as `polydb.h` says; and no host
 * is used by two threads at once.
 *
 * Files of site S in its folder, which several sites may share: `site-S.pv` the journal; `site-S.id` the number and the configuration; `site-S.lock` the lock,
 * whose text says whether the last process ended well, and by which a copy is known; `site-S.new` and `site-S.id.new`, which are there for a moment. To move a site, close it and move all;
 * from one file system to another the system copies, so `adopts` is to be said then, once, and the files before are to be gone.
 *
 * It opens files and calls the program back, which the library of `polydb.h` never does. Link it before that: `libpolydb_host.a libpolydb.a`.
 */
#ifndef POLYDB_HOST_H
#define POLYDB_HOST_H

#include <stdbool.h>
#include <stddef.h>
#include <stdint.h>

#ifdef __cplusplus
extern "C" {
#endif

/* Why a call was refused. But where the text says otherwise nothing has changed, and the call can be made again. */
typedef enum {
    POLYDB_HOST_DONE = 0,
    /* The system refused something: `number` is its errno. */
    POLYDB_HOST_SYSTEM = 1,
    /* Another process has the site open, or this one has already. */
    POLYDB_HOST_BUSY = 2,
    /* The folder's files are those of a site with another number. */
    POLYDB_HOST_OTHER_SITE = 3,
    /* The site was opened before with another configuration; on a folder, with one that hasn't grown to this one (polydb_config_grows). */
    POLYDB_HOST_OTHER_CONFIG = 4,
    /* The journal has records, and nothing says of which site and configuration. `adopts` takes it. */
    POLYDB_HOST_UNNAMED = 5,
    /* The site was opened before, and its journal isn't there, or has no byte, or is shorter than it was. Of a store: a write that it had acknowledged isn't there. */
    POLYDB_HOST_LOST = 6,
    /* The file that says which site it is can't be read as such. */
    POLYDB_HOST_DAMAGED = 7,
    /* The library refused it: `status` says why, as `polydb.h` has it. */
    POLYDB_HOST_ENGINE = 8,
    /* There was no memory. */
    POLYDB_HOST_NO_MEMORY = 9,
    /* This process is a child of the one that opened the site. */
    POLYDB_HOST_FORKED = 10,
    /* Nothing of the site is in the folder, and it was said to be there. */
    POLYDB_HOST_NOT_THERE = 11,
    /* The site is there with records, and was said to be new. */
    POLYDB_HOST_THERE = 12,
    /* The store is another one than that in which the site was made, or a copy of it; or the folder's files were copied, or moved from another file system. `adopts` takes it. */
    POLYDB_HOST_OTHER_STORE = 15,

    /* Of a store (`setup.store`). */

    /* Another process has opened the site since. What this one has waits for ever, and each later call is refused: close it. */
    POLYDB_HOST_REPLACED = 13,
    /* The store can't be reached, or refuses something: `what` says which. */
    POLYDB_HOST_STORE = 14
} polydb_host_cause;

/* A refusal with its circumstances. */
typedef struct {
    polydb_host_cause cause;
    int number;      /* errno, where the cause is POLYDB_HOST_SYSTEM; else 0 */
    uint32_t status; /* of polydb.h, where the cause is POLYDB_HOST_ENGINE; else 0 */
    char what[120];  /* what was done with which file: "fdatasync site-0.pv" */
} polydb_host_error;

/* Where a journal is kept, if not on a folder. */
typedef struct polydb_store polydb_store;

/* What to open, and whom to hand what the site lets out. All that is pointed to but the context and the store may be freed after the opening. */
typedef struct {
    const char *folder;  /* is there already */
    polydb_store *store; /* where the journal is kept, in place of the folder; or null. The opening takes it: it is closed with the host, or where the opening is refused */
    const uint8_t *config;
    size_t config_length;
    uint8_t site;
    bool is_there; /* the site was opened here before: a folder without it is refused, and not taken for a new site's. A site whose files were lost isn't to begin anew */
    bool is_new;   /* the site isn't there yet, or has no record: one that has is refused, and stays as it is */
    bool adopts;   /* takes a journal with records beside which nothing says whose it is, or a store that is another one */

    /* Called within polydb_host_settle alone. Of this host's functions they may call polydb_host_submit, polydb_host_submit_tagged, polydb_host_receive and polydb_host_tick. Neither pointer may be null. */
    void *context;
    /* A message for site `to`, another one. `to` may be no site of the configuration: then it is lost. */
    void (*message)(void *context, uint8_t to, const uint8_t *bytes, size_t length);
    /* A report, as a run prints it, without its line feed; `txn ..` with the tag of its request, and all else with 0. Nothing more is taken from the site before it returns: so a number
     * that it keeps on a disk is there before its transaction can commit. A program that can't keep it ends the process here: once this returns, the transaction may commit. */
    void (*report)(void *context, const char *line, size_t length, uint64_t tag);
} polydb_host_setup;

/* What an opening has found. */
typedef struct {
    bool is_new;      /* nobody has opened this site here before */
    bool is_copied;   /* the process before didn't end well: the journal was written anew */
    uint64_t records; /* how many the journal had */
    uint64_t length;  /* how long the journal was, from its header to its closed gate */
    uint64_t owner;   /* of a store: how many openings the site has had with this one, which tells its process from the ones before; else 0 */
} polydb_host_found;

/* A site that is open. */
typedef struct polydb_host polydb_host;

/*
 * Opens a site on its folder. With another answer than POLYDB_HOST_DONE `*host` is null, and of the files nothing has changed that counts.
 * It takes memory for what the journal holds, whatever stands in the file behind it.
 */
polydb_host_cause polydb_host_open(polydb_host **host, const polydb_host_setup *setup, polydb_host_found *found, polydb_host_error *error);

/* A request, as polydb_site_submit takes it. */
polydb_host_cause polydb_host_submit(polydb_host *host, const uint8_t *program, size_t length, bool is_query, polydb_host_error *error);

/* The same, with a number of the program's, which comes again with the report of the transaction's number. What a program keeps so that a retry does nothing twice, `polydb.h` says at
 * polydb_site_submit_tagged. */
polydb_host_cause polydb_host_submit_tagged(polydb_host *host, const uint8_t *program, size_t length, bool is_query, uint64_t tag, polydb_host_error *error);

/* A message of another site comes. */
polydb_host_cause polydb_host_receive(polydb_host *host, const uint8_t *message, size_t length, polydb_host_error *error);

/* Time has passed. */
polydb_host_cause polydb_host_tick(polydb_host *host, polydb_host_error *error);

/*
 * Writes and syncs what the site wants written, hands over what it lets out, and goes on until there is nothing of either. Where a write fails, what
 * doesn't rest on it is handed over all the same. The rest waits, and the next call tries again.
 */
polydb_host_cause polydb_host_settle(polydb_host *host, polydb_host_error *error);

/*
 * What the site shows of an item, as a line without its line feed, which is good until the next call on this host: `item a 90`. Where it is refused with
 * the status POLYDB_UNWRITTEN, polydb_host_settle comes first.
 */
polydb_host_cause polydb_host_read(polydb_host *host, const uint8_t *name, size_t name_length, const char **line, size_t *length, polydb_host_error *error);

/*
 * What became of a transaction of this site, by the three numbers of its `txn` report: POLYDB_COMMITTED, POLYDB_NOT_COMMITTED or POLYDB_AT_WORK, as polydb_site_outcome says. Where it is
 * refused with the status POLYDB_UNWRITTEN, polydb_host_settle comes first; with POLYDB_NOTHING the site may still give this number to a transaction.
 */
polydb_host_cause polydb_host_outcome(polydb_host *host, uint8_t coordinator, uint32_t epoch, uint32_t number, uint32_t *outcome, polydb_host_error *error);

/*
 * Whether the site is still this process's, as its store says now: POLYDB_HOST_DONE, or POLYDB_HOST_REPLACED; or POLYDB_HOST_LOST, where the store was set back; or POLYDB_HOST_STORE, where it
 * doesn't say. Nobody has to ask, as nothing is let out or shown without it; but a site in which nothing happens hears of it late. Of a folder it always is.
 */
polydb_host_cause polydb_host_confirm(polydb_host *host, polydb_host_error *error);

/* How long the journal in the file is, by what was written and synced. */
uint64_t polydb_host_length(const polydb_host *host);

/* How full a store is: so many bytes of so many, as it said last. Of a folder both are 0. */
typedef struct {
    uint64_t used;
    uint64_t limit;
} polydb_host_fill;
polydb_host_fill polydb_host_filled(const polydb_host *host);

/*
 * Closes the site and lets go of its lock. What wasn't settled is lost, as in a crash. In the child of a fork it closes the child's descriptors alone: the
 * parent has the site as before. Null is fine.
 */
void polydb_host_close(polydb_host *host);

/* Closes a store that no opening has taken. Null is fine. */
void polydb_store_close(polydb_store *store);

/* An error in words: `fdatasync site-0.pv: No space left on device`. At most `room` bytes with the zero at the end; gives `out`. */
const char *polydb_host_describe(const polydb_host_error *error, char *out, size_t room);

#ifdef __cplusplus
}
#endif

#endif
