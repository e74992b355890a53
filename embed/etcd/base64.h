/* Bytes as base64 (RFC 4648, with its padding), as etcd's JSON interface has keys and values. */
#ifndef POLYDB_BASE64_H
#define POLYDB_BASE64_H

#include "node/text.h"

/* Adds bytes as base64. The calls for one value give 3 bytes or a multiple each, but for the last. */
void base64_add(text *out, const void *bytes, size_t length);

/* Bytes of what is spelled, in the place of its letters. Gives false where it is no base64. */
bool base64_decode(char *letters, size_t *length);

#endif
