/* Refusals of a host, with their circumstances. */
#include "errors.h"

#include <errno.h>
#include <stdio.h>

#include "polydb.h"

polydb_host_cause refuse(polydb_host_error *error, polydb_host_cause cause, const char *what, const char *name) {
    *error = (polydb_host_error){.cause = cause};
    snprintf(error->what, sizeof error->what, "%s%s%s", what, *name == '\0' ? "" : " ", name);
    return cause;
}

polydb_host_cause refuse_system(polydb_host_error *error, const char *what, const char *name) {
    int number = errno;
    refuse(error, POLYDB_HOST_SYSTEM, what, name);
    error->number = number;
    return POLYDB_HOST_SYSTEM;
}

polydb_host_cause refuse_status(polydb_host_error *error, const char *what, uint32_t status) {
    refuse(error, status == POLYDB_NO_MEMORY ? POLYDB_HOST_NO_MEMORY : POLYDB_HOST_ENGINE, what, "");
    error->status = status;
    return error->cause;
}
