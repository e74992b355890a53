/* Which request is which: the tags of requests that have no number yet, and of those that have one and no answer. */
#ifndef POLYDB_REQUESTS_H
#define POLYDB_REQUESTS_H

#include <stdbool.h>
#include <stddef.h>
#include <stdint.h>

/* A queue of tags that grows as it has to. */
typedef struct {
    uint64_t *tags;
    bool *ended; /* of a numbered request: it has its answer */
    size_t room, first, count;
} tag_queue;

typedef struct {
    tag_queue waiting;  /* for their numbers, the oldest first: numbers are given in the order of the requests */
    tag_queue numbered; /* by their numbers, from `least` on */
    uint64_t least;
    uint64_t open; /* how many of both have no answer */
} requests;

/* Makes room for one more of each kind, so that what follows can't fail. */
bool requests_reserve(requests *all);

/* A request was given. */
void requests_add(requests *all, uint64_t tag);

/* The request with this tag, the oldest one without a number, has this one; whether it is that. */
bool requests_number(requests *all, uint64_t number, uint64_t tag);

/* The request of this number has its answer. */
bool requests_end(requests *all, uint64_t number, uint64_t *tag);

/* A request that has neither number nor answer, and is given up. */
bool requests_give_up(requests *all, uint64_t *tag);

void requests_free(requests *all);

#endif
