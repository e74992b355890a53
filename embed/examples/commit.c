/* The smallest commit: ten go from `a` at site 0 to `b` at site 1, in one world, and what it prints comes out in small pieces. */
#include <stdio.h>
#include <string.h>

#include "polydb.h"

static const char CATALOG[] = "sites 2\nitem a 0 100\nitem b 1 50\n";

static const char *const EVENTS[] = {
    "submit 0 a := a - 10 ; b := b + 10",
    "pump",
    "report",
};

/* Prints all that the world has printed. What doesn't get out is lost, and seen at the end of `main`: it is dropped from the world. */
static uint32_t print_lines(polydb_world *world) {
    uint8_t piece[16];
    size_t written;
    do {
        uint32_t status = polydb_world_take(world, piece, sizeof piece, &written);
        if (status != POLYDB_DONE) {
            return status;
        }
        if (fwrite(piece, 1, written, stdout) != written) {
            break;
        }
    } while (written > 0);
    return POLYDB_DONE;
}

int main(void) {
    polydb_world world = {0};

    uint32_t status = polydb_world_open(&world, (const uint8_t *)CATALOG, sizeof CATALOG - 1);
    for (size_t i = 0; status == POLYDB_DONE && i < sizeof EVENTS / sizeof *EVENTS; i++) {
        status = polydb_world_step(&world, (const uint8_t *)EVENTS[i], strlen(EVENTS[i]));
        if (status == POLYDB_DONE) {
            status = print_lines(&world);
        }
    }

    polydb_world_close(&world);
    polydb_world_close(&world); /* a second time is fine */

    if (status != POLYDB_DONE) {
        fprintf(stderr, "commit: status %u\n", (unsigned)status);
        return 1;
    }
    if (fflush(stdout) != 0 || ferror(stdout)) {
        perror("commit: standard output");
        return 1;
    }
    return 0;
}
