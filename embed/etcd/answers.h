/* What etcd answers, out of its JSON: whether a transaction was done, and the keys that were asked for. */
#ifndef POLYDB_ANSWERS_H
#define POLYDB_ANSWERS_H

#include "node/text.h"

/* A key and what it has. Both point into the text that was read. */
typedef struct {
    const char *key, *value;
    size_t key_length, value_length;
    uint64_t revision; /* of its last change */
} etcd_pair;

/* An answer. What isn't in it is 0, false or nothing, as the interface leaves out what is so. */
typedef struct {
    uint64_t cluster, revision; /* the cluster's number, and the store's revision */
    bool succeeded;             /* of a transaction: what it compares is so, and what it was to do is done */
    etcd_pair *pairs;           /* of all that were asked for, in their order; to be freed by answer_free */
    size_t count, room;
    bool more;                  /* there are more keys than were asked for */
    uint64_t total;             /* how many keys there are in the range */
    uint64_t size;              /* of the member's store, in bytes */
} etcd_answer;

/* Reads an answer. The text is changed: strings stand in it without their escapes, and keys and values as bytes. Gives false where it isn't one, or there is no memory. */
bool answer_read(etcd_answer *answer, text *json);
void answer_free(etcd_answer *answer);

/* The pair of a key, or null. */
const etcd_pair *answer_pair(const etcd_answer *answer, const char *key);

/* Whether a pair has this value. */
bool has_value(const etcd_pair *pair, const void *value, size_t length);

#endif
