/* Which request is which. Numbers of one epoch are given one after another, so those that have no answer yet are a stretch of them, kept in a ring. */
#include "requests.h"

#include <stdlib.h>
#include <string.h>

static size_t place(const tag_queue *queue, size_t index) { return (queue->first + index) % queue->room; }

static bool reserve(tag_queue *queue, size_t needed) {
    if (needed <= queue->room) {
        return true;
    }
    size_t room = needed < 64 ? 64 : 2 * needed;
    uint64_t *tags = malloc(room * sizeof *tags);
    bool *ended = malloc(room * sizeof *ended);
    if (tags == NULL || ended == NULL) {
        free(tags);
        free(ended);
        return false;
    }
    for (size_t i = 0; i < queue->count; i++) {
        tags[i] = queue->tags[place(queue, i)];
        ended[i] = queue->ended[place(queue, i)];
    }
    free(queue->tags);
    free(queue->ended);
    *queue = (tag_queue){.tags = tags, .ended = ended, .room = room, .count = queue->count};
    return true;
}

static void push(tag_queue *queue, uint64_t tag) {
    size_t at = place(queue, queue->count);
    queue->tags[at] = tag;
    queue->ended[at] = false;
    queue->count++;
}

static void pop(tag_queue *queue) {
    queue->first = place(queue, 1);
    queue->count--;
}

/* Each request that waits gets a number at some time, so the numbered ones have room for them too. */
bool requests_reserve(requests *all) {
    return reserve(&all->waiting, all->waiting.count + 1) && reserve(&all->numbered, all->numbered.count + all->waiting.count + 1);
}

void requests_add(requests *all, uint64_t tag) {
    push(&all->waiting, tag);
    all->open++;
}

bool requests_number(requests *all, uint64_t number, uint64_t tag) {
    if (all->waiting.count == 0 || all->waiting.tags[all->waiting.first] != tag) {
        return false;
    }
    pop(&all->waiting);
    if (all->numbered.count == 0) {
        all->least = number;
    }
    push(&all->numbered, tag);
    return true;
}

bool requests_end(requests *all, uint64_t number, uint64_t *tag) {
    if (number < all->least || number - all->least >= all->numbered.count) {
        return false;
    }
    size_t at = place(&all->numbered, (size_t)(number - all->least));
    if (all->numbered.ended[at]) {
        return false;
    }
    *tag = all->numbered.tags[at];
    all->numbered.ended[at] = true;
    all->open--;
    while (all->numbered.count > 0 && all->numbered.ended[all->numbered.first]) {
        pop(&all->numbered);
        all->least++;
    }
    return true;
}

bool requests_give_up(requests *all, uint64_t *tag) {
    if (all->waiting.count == 0) {
        return false;
    }
    *tag = all->waiting.tags[all->waiting.first];
    pop(&all->waiting);
    all->open--;
    return true;
}

void requests_free(requests *all) {
    free(all->waiting.tags);
    free(all->waiting.ended);
    free(all->numbered.tags);
    free(all->numbered.ended);
    memset(all, 0, sizeof *all);
}
