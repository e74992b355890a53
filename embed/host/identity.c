/* Which site a journal is of, and with which configuration: `polydb site 1`, `site S` and `config N`, a line each, and the N bytes of the configuration. */
#include "identity.h"

#include <stdio.h>
#include <stdlib.h>
#include <string.h>

#include "errors.h"
#include "polydb.h"

uint8_t *spell_identity(uint8_t site, const uint8_t *config, size_t config_length, size_t *length) {
    char head[IDENTITY_ROOM];
    size_t head_length = (size_t)snprintf(head, sizeof head, "polydb site 1\nsite %u\nconfig %zu\n", (unsigned)site, config_length);
    uint8_t *bytes = malloc(head_length + config_length);
    if (bytes != NULL) {
        memcpy(bytes, head, head_length);
        memcpy(bytes + head_length, config, config_length);
        *length = head_length + config_length;
    }
    return bytes;
}

static bool is_same(const uint8_t *kept, size_t kept_length, const uint8_t *given, size_t given_length) {
    return kept_length == given_length && memcmp(kept, given, given_length) == 0;
}

/* The number of the first line in which two texts differ. */
static unsigned first_line_apart(const uint8_t *one, size_t one_length, const uint8_t *other, size_t other_length) {
    unsigned line = 1;
    for (size_t i = 0; i < one_length && i < other_length && one[i] == other[i]; i++) {
        line += one[i] == '\n';
    }
    return line;
}

polydb_host_cause compare_identity(const uint8_t *bytes, size_t length, uint8_t site, const uint8_t *config, size_t config_length, bool *grows, const char *name,
                                   polydb_host_error *error) {
    char head[IDENTITY_ROOM + 1] = {0};
    unsigned kept_site, version;
    size_t kept_length;
    int head_length = 0;
    memcpy(head, bytes, length < IDENTITY_ROOM ? length : IDENTITY_ROOM);
    if (sscanf(head, "polydb site %u\nsite %u\nconfig %zu%n", &version, &kept_site, &kept_length, &head_length) != 3 || version != 1) {
        return refuse(error, POLYDB_HOST_DAMAGED, "read", name);
    }
    head_length++; /* the line's end */
    if ((size_t)head_length > length || length - (size_t)head_length != kept_length) {
        return refuse(error, POLYDB_HOST_DAMAGED, "read", name);
    }
    if (kept_site != site) {
        snprintf(head, sizeof head, "it is site %u", kept_site);
        return refuse(error, POLYDB_HOST_OTHER_SITE, name, head);
    }
    const uint8_t *kept = bytes + head_length;
    if (is_same(kept, kept_length, config, config_length)) {
        return POLYDB_HOST_DONE;
    }
    uint32_t status = grows == NULL ? POLYDB_NOT_GROWN : polydb_config_grows(kept, kept_length, config, config_length);
    if (status == POLYDB_NO_MEMORY) {
        return refuse(error, POLYDB_HOST_NO_MEMORY, "read", name);
    }
    if (status != POLYDB_DONE) {
        snprintf(head, sizeof head, "from line %u on", first_line_apart(kept, kept_length, config, config_length));
        return refuse(error, POLYDB_HOST_OTHER_CONFIG, name, head);
    }
    *grows = true;
    return POLYDB_HOST_DONE;
}
