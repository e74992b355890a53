/*
 * A node: a site on a folder (`host/polydb_host.h`) that talks with the sites of other processes over ZeroMQ (libzmq 4.3) and ticks by the clock.
 *
 *     polydb_node *node;
 *     polydb_host_error error;
 *     if (polydb_node_open(&node, &setup, &found, &error) != POLYDB_HOST_DONE) { polydb_node_describe(&error, text, sizeof text); .. }
 *     for ever:
 *         poll polydb_node_descriptor(node), with whatever else the program waits for, and when it can be read:
 *             polydb_node_work(node)                           the answers come within this call
 *         polydb_node_submit(node, tag, program, ..)           at any time; a call of polydb_node_work comes after it
 *     polydb_node_close(node);
 *
 * Who is who. Each site has a pair of CURVE keys. A file of peers says of each site its address and its public key, the same for all; each site has its secret key in a file of its
 * own. What comes is of the site whose key it came by; strangers aren't let in; and all is encrypted. A line of the file of peers, with `#` at the beginning of a comment:
 *
 *     1 tcp://10.0.0.2:7400 Yne@$w-vo<fVvi]a<NY6T1ed:M$fCG*[IaLV{hID
 *
 * What goes over the wire. A frame is 20 bytes and what follows: `PV`, the version 2, the kind, and 16 bytes of BLAKE2b of the configuration. So each frame is compared, the
 * first one too; of a site with another version or configuration nothing is taken, and both say so. Kinds: `h` a hello, which comes first and about once a second;
 * `w` its answer; `n` the answer to a frame of another version or configuration; `m` a message of a site. What can't be sent waits in a queue of 4,096 frames
 * for each peer. Where that is full, messages are lost, which a message may be; and where nothing has come back for 4 seconds then, all that waits is lost, too.
 *
 * It starts no thread but those of libzmq, is used by one thread at a time, and after a fork by the parent alone. Syncs are made within polydb_node_work.
 * Link: `libpolydb_node.a libpolydb_host.a libpolydb.a -lzmq -lsodium`.
 */
#ifndef POLYDB_NODE_H
#define POLYDB_NODE_H

#include "host/polydb_host.h"

#ifdef __cplusplus
extern "C" {
#endif

/* More causes than a host has. */

/* The file of peers, or of a key, isn't as it should be; `what` says which line, or what is wrong. */
#define POLYDB_NODE_BAD_FILE ((polydb_host_cause)32)
/* libzmq refused something: `number` is its errno. */
#define POLYDB_NODE_NET ((polydb_host_cause)33)
/* The site has no number left: close it and open it again. */
#define POLYDB_NODE_SPENT ((polydb_host_cause)34)

/* A public or secret key in the letters of Z85, and its zero. */
#define POLYDB_NODE_KEY_ROOM 41

typedef struct {
    const char *folder;
    polydb_store *store;
    const uint8_t *config;
    size_t config_length;
    uint8_t site;
    bool is_there, adopts; /* all as a host has them */

    const char *peers;  /* the file of addresses and public keys */
    const char *key;    /* the file of the secret key */
    const char *listen; /* where to listen, if not at the address that the file of peers has for this site; or null */
    unsigned tick;      /* milliseconds between two ticks; 0 for 100 */

    /* Called within polydb_node_work alone. They call no function of this node but polydb_node_submit. */
    void *context;
    /* An answer to the request that came with this tag, as a line without its line feed: first `txn T`, then `commit T ..` or `refuse T ..`. Nothing more is taken from the site before it
     * returns: so a number that it keeps on a disk is there before its transaction can commit (polydb_site_submit_tagged). */
    void (*answer)(void *context, uint64_t tag, const char *line, size_t length);
    /* Something that whoever looks after the node should know, in words: a peer that has come, or that is refused; a write that has failed. */
    void (*notice)(void *context, const char *words);
} polydb_node_setup;

typedef struct polydb_node polydb_node;

/* Opens the site and listens. Where that is refused, `*node` is null. */
polydb_host_cause polydb_node_open(polydb_node **node, const polydb_node_setup *setup, polydb_host_found *found, polydb_host_error *error);

/* A request, whose answers come with this tag. If the node is closed before the last of them, it may have committed or not. */
polydb_host_cause polydb_node_submit(polydb_node *node, uint64_t tag, const uint8_t *program, size_t length, bool is_query, polydb_host_error *error);

/* What the site shows of an item, as polydb_host_read. Where records wait, it writes them first; POLYDB_UNWRITTEN comes only where that fails. While a store fails, POLYDB_HOST_STORE comes at
 * once: it isn't asked for this, and is asked again at a tick. */
polydb_host_cause polydb_node_read(polydb_node *node, const uint8_t *name, size_t name_length, const char **line, size_t *length, polydb_host_error *error);

/* What became of a transaction of this site, as polydb_host_outcome. Records that wait are written first, and a store that fails isn't asked, as with polydb_node_read. */
polydb_host_cause polydb_node_outcome(polydb_node *node, uint8_t coordinator, uint32_t epoch, uint32_t number, uint32_t *outcome, polydb_host_error *error);

/* Can be read when there is something to do, also for a tick. It isn't to be read. */
int polydb_node_descriptor(const polydb_node *node);

/* Does what there is to do, and doesn't wait but for syncs and a store. What fails is made again at a later tick, and was given to `notice`; POLYDB_NODE_SPENT and POLYDB_HOST_REPLACED
 * are refused: the node is to be closed then. */
polydb_host_cause polydb_node_work(polydb_node *node, polydb_host_error *error);

/* Waits for at most so many milliseconds until there is something to do, and does it. */
polydb_host_cause polydb_node_wait(polydb_node *node, int milliseconds, polydb_host_error *error);

/* Whether something was heard from this site within the last seconds. */
bool polydb_node_hears(const polydb_node *node, uint8_t site);

/* How many requests wait for their end; how many messages were sent or wait for that, were taken, and were lost for want of room; and how long the journal is. */
typedef struct {
    uint64_t open;
    uint64_t sent;
    uint64_t taken;
    uint64_t lost;
    uint64_t refused; /* frames that were of a stranger, of another version or configuration, or nothing */
    uint64_t journal;
} polydb_node_counts;
polydb_node_counts polydb_node_count(const polydb_node *node);

/* Stops. What was under way goes on when the node is opened again. Null is fine. */
void polydb_node_close(polydb_node *node);

/* The public key of the secret one in a file. One that others than its owner may read or write is refused, here and at an opening. */
polydb_host_cause polydb_node_public_key(const char *path, char public_key[POLYDB_NODE_KEY_ROOM], polydb_host_error *error);

/* Makes a new pair of keys, and a file of the secret one, which isn't there yet and which only its owner can read. */
polydb_host_cause polydb_node_new_key(const char *path, char public_key[POLYDB_NODE_KEY_ROOM], polydb_host_error *error);

/* An error in words, also one of a host. */
const char *polydb_node_describe(const polydb_host_error *error, char *out, size_t room);

#ifdef __cplusplus
}
#endif

#endif
