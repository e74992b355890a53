/* Refusals of a host, with their circumstances. */
#ifndef POLYDB_ERRORS_H
#define POLYDB_ERRORS_H

#include "polydb_host.h"

/* Sets an error, and gives its cause. `what` and `name` are joined. */
polydb_host_cause refuse(polydb_host_error *error, polydb_host_cause cause, const char *what, const char *name);

/* The same of POLYDB_HOST_SYSTEM, with errno. */
polydb_host_cause refuse_system(polydb_host_error *error, const char *what, const char *name);

/* The same of POLYDB_HOST_ENGINE, with a status. */
polydb_host_cause refuse_status(polydb_host_error *error, const char *what, uint32_t status);

#endif
