/* A site's files in its folder: the lock, who the site is, and the journal. */
#ifndef POLYDB_FOLDER_H
#define POLYDB_FOLDER_H

#include "store.h"

/* Opens the folder and takes the lock. Where it is refused, `*store` is null. */
polydb_host_cause folder_open(polydb_store **store, const char *path, uint8_t site, polydb_host_error *error);

#endif
