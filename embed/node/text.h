/* Bytes that come and go: a buffer that grows, and answers in it as lines or as JSON. */
#ifndef POLYDB_TEXT_H
#define POLYDB_TEXT_H

#include <stdbool.h>
#include <stddef.h>
#include <stdint.h>

/* A buffer. It notes that there was no memory, and stays as it is from then on. */
typedef struct {
    char *bytes;
    size_t length, room;
    bool has_failed;
} text;

void text_add(text *out, const char *bytes, size_t length);
void text_print(text *out, const char *words, ...) __attribute__((format(printf, 2, 3)));
/* Drops so many bytes of the beginning. */
void text_drop(text *out, size_t length);
void text_free(text *out);

/*
 * An answer to a request with this tag: a report or an item's line, `outcome T WORD`, `error WORDS` or `info WORDS`, with the tag as its second word, and a line feed. As JSON it is an object with
 * the members that `polydb json` prints for the line, and `tag`.
 */
void text_answer(text *out, bool is_json, uint64_t tag, const char *line);

#endif
