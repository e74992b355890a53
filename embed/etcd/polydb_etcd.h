/*
 * A site's journal in etcd (3.4 or later), for a host (`../host/polydb_host.h`) or a node (`../node/polydb_node.h`): a site that survives its machine.
 *
 *     polydb_store *store;
 *     polydb_etcd_setup etcd = {.urls = "http://10.0.0.1:2379,http://10.0.0.2:2379,http://10.0.0.3:2379"};
 *     if (polydb_etcd_open(&store, &etcd, site, &error) != POLYDB_HOST_DONE) { polydb_host_describe(&error, text, sizeof text); .. }
 *     polydb_host_setup setup = {.store = store, ..};      and polydb_host_open as for a folder; it takes the store
 *
 * What it does of that which `polydb.h` says a host owes:
 *   - an opening takes the site: it writes a new owner into the site's key `owner`, and then reads the journal. Each write is one transaction that compares the owner, and compares
 *     that the write before it is the last one; so a process that was replaced is refused at its next write, or before it lets out or shows anything, and stops (POLYDB_HOST_REPLACED). Whoever opens
 *     a site that is open elsewhere takes it from there: nothing excludes that, as nobody can tell a machine that has gone from one that is only out of reach;
 *   - a write counts once etcd has acknowledged it. One whose acknowledgement doesn't come is sent again, the same, before anything else: its transaction takes it once, and says so where
 *     an earlier one was taken;
 *   - the number of the site and its configuration stand beside the journal, and are compared at each opening; so is the number of the cluster, which is another one after a backup was
 *     restored with a token of its own.
 *
 * Keys of site S, behind a prefix (`polydb/`): `site-S/id` as in a folder's `site-S.id`; `site-S/cluster` the cluster's number; `site-S/owner` who has the site; and
 * `site-S/journal/N`, with N of 16 hexadecimal digits from 0 on, the writes: the number of the opening that has made it (8 bytes, the highest first), and of each piece the place
 * (8 bytes), the length (4 bytes), and its bytes.
 *
 * It opens sockets, starts no thread but those of libcurl, and waits: at most `patience` for a write. What etcd has to keep for all this is said in `../ETCD.md`.
 * Link: `libpolydb_etcd.a libpolydb_host.a libpolydb.a -lcurl`.
 */
#ifndef POLYDB_ETCD_H
#define POLYDB_ETCD_H

#include "host/polydb_host.h"

#ifdef __cplusplus
extern "C" {
#endif

/* Where etcd is. All that is pointed to may be freed after the call. */
typedef struct {
    const char *urls;   /* of the members' clients, with commas between: `http://10.0.0.1:2379,http://10.0.0.2:2379`; at most 16 */
    const char *prefix; /* of the keys; or null for `polydb/` */
    unsigned patience;  /* milliseconds that a call waits for the store; 0 for 3,000 */
    uint64_t limit;     /* bytes that the store may have, by the members' `--quota-backend-bytes`; 0 for etcd's own 2 GiB */
    const char *authority, *certificate, *key; /* for https: files of who vouches for the members, and of this process's certificate and key; or null */
} polydb_etcd_setup;

/* Makes a store of a site in etcd. It asks nothing of etcd yet. Where it is refused, `*store` is null. */
polydb_host_cause polydb_etcd_open(polydb_store **store, const polydb_etcd_setup *setup, uint8_t site, polydb_host_error *error);

#ifdef __cplusplus
}
#endif

#endif
