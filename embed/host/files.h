/* What the system does with files, whole or with an error: reads, writes and syncs that go on where they were cut short. */
#ifndef POLYDB_FILES_H
#define POLYDB_FILES_H

#include <sys/types.h>

#include "errors.h"

/* A name in a site's folder: `site-15.id.new` and its zero. */
enum { NAME_ROOM = 24 };

/* Writes all these bytes from this place on. Gives false, with errno, where not all of them are written. */
bool write_at(int file, const uint8_t *bytes, size_t length, uint64_t place);

/* Reads so many bytes from this place on, or fewer where the file ends; gives how many, or -1 with errno. */
ssize_t read_at(int file, uint8_t *bytes, size_t length, uint64_t place);

/* What was written into the file is on the disk, with its length. */
bool sync_data(int file);

/* The same of a folder's entries. */
bool sync_folder(int folder);

/* Makes a file of these bytes under the name: it is written beside, synced, and takes its place, also of an older file, in one go. It is on the disk with its entry then.
 * Where `*kept` isn't null, it is open there for reading and writing. */
polydb_host_cause put_file(int folder, const char *name, const char *beside, const uint8_t *bytes, size_t length, int *kept, polydb_host_error *error);

#endif
