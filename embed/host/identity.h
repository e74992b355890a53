/* Which site a journal is of, and with which configuration: what stands beside a journal, and is compared at each opening. */
#ifndef POLYDB_IDENTITY_H
#define POLYDB_IDENTITY_H

#include "polydb_host.h"

/* The lines before the configuration, and their zero. */
enum { IDENTITY_ROOM = 64 };

/* Bytes of the longest identity. */
enum { MOST_IDENTITY = IDENTITY_ROOM + (16 << 20) };

/* Spells the identity of a site, which is to be freed: its lines, and the configuration. Null where there is no memory. */
uint8_t *spell_identity(uint8_t site, const uint8_t *config, size_t config_length, size_t *length);

/*
 * Whether an identity is this site's with this configuration, or with one that has grown to it: `*grows` says that, and where `grows` is NULL it is refused. `name` is
 * where the identity stands.
 */
polydb_host_cause compare_identity(const uint8_t *bytes, size_t length, uint8_t site, const uint8_t *config, size_t config_length, bool *grows, const char *name,
                                   polydb_host_error *error);

#endif
