/*
 * A site's files in its folder. The lock comes first, as all else is looked at and changed under it. What is changed comes last (folder_settle), when all has been read
 * and the library has taken it: so a refused opening leaves the files as they were.
 */
#define _GNU_SOURCE

#include "folder.h"

#include <errno.h>
#include <fcntl.h>
#include <inttypes.h>
#include <stdio.h>
#include <stdlib.h>
#include <string.h>
#include <sys/stat.h>
#include <unistd.h>

#include "files.h"
#include "identity.h"

/* The files of a site. A descriptor is -1 where the file isn't open. */
typedef struct {
    polydb_store store;
    int folder;
    int lock;
    int journal;
    uint8_t site;
    bool is_named;    /* the folder says which site it is */
    bool grows;       /* and its configuration is one that has grown to the one that is given */
    bool ended_well;  /* so did the last process that had the site here */
    bool is_copy;     /* the lock's file isn't the one that a process had here */
    uint64_t noted;   /* so long the journal was on the disk when a process opened it, if that was noted */
    bool has_journal; /* the journal's file is there and has bytes */
    bool runs;        /* the lock's file says that this process has the site */
    bool has_failed;  /* a write or a sync of this process has, and no copy of the journal was made since */
    char journal_name[NAME_ROOM];
} site_folder;

/*
 * What the lock's file says of the process that has the lock, or had it last: first one of these words, of one length, so that the one covers the other. Behind it stands which file it is, since a
 * copy is another one, and how long the journal was on the disk then, since one that was set back may be shorter.
 */
static const char RUNS[] = "runs\n";
static const char ENDED[] = "done\n";
enum { STATE_LENGTH = sizeof RUNS - 1, NOTES_ROOM = 64 };
#define NOTES "file %020" PRIu64 "\njournal %020" PRIu64 "\n"
#define NOTED "file %20" SCNu64 "\njournal %20" SCNu64 "\n"

static void name_of(char *out, uint8_t site, const char *end) { snprintf(out, NAME_ROOM, "site-%u.%s", (unsigned)site, end); }

/* ---- the lock ---- */

/* Whether the name still leads to the file that is open: else somebody has removed it, and the lock on it excludes nobody. */
static bool is_there(int folder, const char *name, int file) {
    struct stat open_file, named_file;
    return fstat(file, &open_file) == 0 && fstatat(folder, name, &named_file, AT_SYMLINK_NOFOLLOW) == 0 && open_file.st_dev == named_file.st_dev &&
           open_file.st_ino == named_file.st_ino;
}

/* A lock of the open file and not of the process: it excludes a second opening in this process, and isn't lost where another descriptor of the file is closed. */
static int set_lock(int file, short kind) {
    struct flock whole = {.l_type = kind, .l_whence = SEEK_SET};
    return fcntl(file, F_OFD_SETLK, &whole);
}

/* Reads what the lock's file says. One that has the word alone, or nothing, says nothing of copies. */
static polydb_host_cause read_notes(site_folder *files, const char *name, polydb_host_error *error) {
    char text[STATE_LENGTH + NOTES_ROOM + 1] = "";
    struct stat about;
    uint64_t file, noted;
    ssize_t count = read_at(files->lock, (uint8_t *)text, sizeof text - 1, 0);
    if (count < 0 || fstat(files->lock, &about) != 0) {
        return refuse_system(error, "read", name);
    }
    files->ended_well = count >= STATE_LENGTH && memcmp(text, ENDED, STATE_LENGTH) == 0;
    if (count > STATE_LENGTH && sscanf(text + STATE_LENGTH, NOTED, &file, &noted) == 2) {
        files->is_copy = file != about.st_ino;
        files->noted = noted;
    }
    return POLYDB_HOST_DONE;
}

static polydb_host_cause take_lock(site_folder *files, polydb_host_error *error) {
    char name[NAME_ROOM];
    name_of(name, files->site, "lock");
    files->lock = openat(files->folder, name, O_RDWR | O_CREAT | O_CLOEXEC | O_NOFOLLOW, 0600);
    if (files->lock < 0) {
        return refuse_system(error, "open", name);
    }
    if (set_lock(files->lock, F_WRLCK) != 0) {
        bool is_taken = errno == EAGAIN || errno == EACCES;
        return is_taken ? refuse(error, POLYDB_HOST_BUSY, "lock", name) : refuse_system(error, "lock", name);
    }
    if (!is_there(files->folder, name, files->lock)) {
        return refuse(error, POLYDB_HOST_BUSY, "lock", name);
    }
    return read_notes(files, name, error);
}

/* Says in the lock's file that this process has the site, so that the next one knows where this one ends without a word. */
static polydb_host_cause say_it_runs(site_folder *files, polydb_host_error *error) {
    char text[STATE_LENGTH + NOTES_ROOM];
    struct stat about;
    if (fstat(files->lock, &about) != 0) {
        return refuse_system(error, "stat", "the lock");
    }
    int length = snprintf(text, sizeof text, "%s" NOTES, RUNS, (uint64_t)about.st_ino, files->noted);
    if (!write_at(files->lock, (const uint8_t *)text, (size_t)length, 0)) {
        return refuse_system(error, "write", "the lock");
    }
    if (!sync_data(files->lock)) {
        return refuse_system(error, "fdatasync", "the lock");
    }
    files->runs = true;
    return POLYDB_HOST_DONE;
}

/* Says that the process ended well: what can be read of the journal is on the disk. If this gets lost, a copy is made for nothing. */
static void say_it_ended(site_folder *files) {
    if (files->runs && !files->has_failed) {
        (void)write_at(files->lock, (const uint8_t *)ENDED, STATE_LENGTH, 0);
    }
}

/* ---- who the site is ---- */

/* Reads a small file whole: at most `most` bytes. The bytes are to be freed. */
static polydb_host_cause read_small(int file, size_t most, uint8_t **bytes, size_t *length, const char *name, polydb_host_error *error) {
    struct stat about;
    if (fstat(file, &about) != 0) {
        return refuse_system(error, "stat", name);
    }
    if (!S_ISREG(about.st_mode) || (uint64_t)about.st_size > most) {
        return refuse(error, POLYDB_HOST_DAMAGED, "read", name);
    }
    *bytes = malloc((size_t)about.st_size + 1);
    if (*bytes == NULL) {
        return refuse(error, POLYDB_HOST_NO_MEMORY, "read", name);
    }
    ssize_t count = read_at(file, *bytes, (size_t)about.st_size, 0);
    if (count < 0) {
        polydb_host_cause cause = refuse_system(error, "read", name);
        free(*bytes);
        *bytes = NULL;
        return cause;
    }
    *length = (size_t)count;
    return POLYDB_HOST_DONE;
}

/* Looks whether the folder is this site's with this configuration, if it says so at all. */
static polydb_host_cause compare(site_folder *files, const polydb_host_setup *setup, polydb_host_error *error) {
    char name[NAME_ROOM];
    name_of(name, files->site, "id");
    int file = openat(files->folder, name, O_RDONLY | O_CLOEXEC);
    if (file < 0) {
        return errno == ENOENT ? POLYDB_HOST_DONE : refuse_system(error, "open", name);
    }
    uint8_t *bytes = NULL;
    size_t count = 0;
    polydb_host_cause cause = read_small(file, MOST_IDENTITY, &bytes, &count, name, error);
    if (cause == POLYDB_HOST_DONE) {
        cause = compare_identity(bytes, count, files->site, setup->config, setup->config_length, &files->grows, name, error);
    }
    free(bytes);
    close(file);
    files->is_named = cause == POLYDB_HOST_DONE;
    return cause;
}

static polydb_host_cause put_identity(site_folder *files, const polydb_host_setup *setup, polydb_host_error *error) {
    char name[NAME_ROOM], beside[NAME_ROOM];
    name_of(name, files->site, "id");
    name_of(beside, files->site, "id.new");
    size_t length;
    uint8_t *bytes = spell_identity(files->site, setup->config, setup->config_length, &length);
    if (bytes == NULL) {
        return refuse(error, POLYDB_HOST_NO_MEMORY, "write", name);
    }
    polydb_host_cause cause = put_file(files->folder, name, beside, bytes, length, NULL, error);
    free(bytes);
    files->is_named |= cause == POLYDB_HOST_DONE;
    return cause;
}

/* ---- the journal ---- */

static ssize_t read_from(const void *from, uint8_t *bytes, size_t length, uint64_t place) { return read_at(((const site_folder *)from)->journal, bytes, length, place); }

static polydb_host_cause read_content(site_folder *files, uint64_t size, journal_content *content, polydb_host_error *error) {
    journal_source source = {.read = read_from, .from = files, .size = size};
    if (!find_end(&source, content)) {
        return refuse_system(error, "read", files->journal_name);
    }
    content->bytes = malloc(content->length + 1);
    if (content->bytes == NULL) {
        return refuse(error, POLYDB_HOST_NO_MEMORY, "read", files->journal_name);
    }
    ssize_t count = read_at(files->journal, content->bytes, content->length, 0);
    if (count < 0) {
        return refuse_system(error, "read", files->journal_name);
    }
    content->length = (size_t)count;
    return POLYDB_HOST_DONE;
}

/* Syncs the journal and reads it: of a new site, which is refused where the site was said to be there, the journal without records. */
static polydb_host_cause read_journal(site_folder *files, const polydb_host_setup *setup, journal_content *content, polydb_host_error *error) {
    struct stat about = {.st_size = 0};
    files->journal = openat(files->folder, files->journal_name, O_RDWR | O_CLOEXEC);
    if (files->journal < 0 && errno != ENOENT) {
        return refuse_system(error, "open", files->journal_name);
    }
    if (files->journal >= 0 && fstat(files->journal, &about) != 0) {
        return refuse_system(error, "stat", files->journal_name);
    }
    files->has_journal = files->journal >= 0 && about.st_size > 0;
    if (!files->has_journal && files->is_named) {
        return refuse(error, POLYDB_HOST_LOST, "open", files->journal_name);
    }
    if (!files->has_journal && setup->is_there) {
        return refuse(error, POLYDB_HOST_NOT_THERE, "open", files->journal_name);
    }
    if (!files->has_journal) {
        return without_records(content) ? POLYDB_HOST_DONE : refuse(error, POLYDB_HOST_NO_MEMORY, "a new journal", "");
    }
    polydb_host_cause cause = POLYDB_HOST_DONE;
    if (!sync_data(files->journal) || !sync_folder(files->folder)) {
        files->ended_well = false;
        files->has_failed = true;
        cause = say_it_runs(files, error); /* the next sync may say nothing, so the doubt is kept for the next opening, if this one comes to nothing */
    }
    if (cause != POLYDB_HOST_DONE) {
        return cause;
    }
    cause = read_content(files, (uint64_t)about.st_size, content, error);
    if (cause == POLYDB_HOST_DONE && !files->is_named && content->records > 0 && !setup->adopts) {
        cause = refuse(error, POLYDB_HOST_UNNAMED, "open", files->journal_name);
    }
    if (cause == POLYDB_HOST_DONE && !files->is_named && content->records == 0 && setup->is_there) {
        cause = refuse(error, POLYDB_HOST_NOT_THERE, "open", files->journal_name);
    }
    if (cause == POLYDB_HOST_DONE && content->records > 0 && setup->is_new) {
        cause = refuse(error, POLYDB_HOST_THERE, "make", files->journal_name);
    }
    return cause;
}

/* Writes the journal anew, under another name, and lets it take the old one's place. */
static polydb_host_cause put_journal(site_folder *files, const journal_content *content, polydb_host_error *error) {
    char beside[NAME_ROOM];
    name_of(beside, files->site, "new");
    int file = -1;
    polydb_host_cause cause = put_file(files->folder, files->journal_name, beside, content->bytes, content->length, &file, error);
    if (cause == POLYDB_HOST_DONE) {
        if (files->journal >= 0) {
            close(files->journal); /* the old one, of which nothing counts any more */
        }
        files->journal = file;
        files->has_journal = true;
        files->has_failed = false; /* what had failed was a sync of the old one */
    }
    return cause;
}

/* ---- the folder as a store ---- */

static site_folder *files_of(polydb_store *store) { return (site_folder *)store; }

static polydb_host_cause folder_read(polydb_store *store, const polydb_host_setup *setup, journal_content *content, polydb_host_found *found, polydb_host_error *error) {
    site_folder *files = files_of(store);
    polydb_host_cause cause = compare(files, setup, error);
    if (cause == POLYDB_HOST_DONE && files->is_copy && !setup->adopts) {
        cause = refuse(error, POLYDB_HOST_OTHER_STORE, "open", "the folder");
    }
    bool was_named = files->is_named;
    if (cause == POLYDB_HOST_DONE) {
        cause = read_journal(files, setup, content, error);
    }
    found->is_new = !was_named && content->records == 0;
    found->is_copied = files->has_journal && !files->ended_well;
    return cause;
}

/*
 * Makes that what was read is in the journal's file and on the disk, by a file of its own where there is none or the one that is there is in doubt; that the
 * folder says whose it is, and with which configuration from now on; and that the next opening knows of this one.
 */
static polydb_host_cause folder_settle(polydb_store *store, const polydb_host_setup *setup, const journal_content *content, polydb_host_found *found, polydb_host_error *error) {
    (void)found;
    site_folder *files = files_of(store);
    if (content->length < files->noted) {
        return refuse(error, POLYDB_HOST_LOST, "set back:", files->journal_name);
    }
    if (files->has_journal && files->ended_well) {
        files->noted = content->length; /* else what can be read needn't be on the disk, and a crash may leave less */
    }
    polydb_host_cause cause = say_it_runs(files, error);
    if (cause == POLYDB_HOST_DONE && (!files->has_journal || !files->ended_well)) {
        cause = put_journal(files, content, error);
    }
    if (cause == POLYDB_HOST_DONE && (!files->is_named || files->grows)) {
        cause = put_identity(files, setup, error);
    }
    files->has_failed |= cause != POLYDB_HOST_DONE;
    return cause;
}

/* Each write is synced before the next begins. */
static polydb_host_cause folder_write(polydb_store *store, const store_write *writes, size_t count, polydb_host_error *error) {
    site_folder *files = files_of(store);
    polydb_host_cause cause = POLYDB_HOST_DONE;
    for (size_t i = 0; i < count && cause == POLYDB_HOST_DONE; i++) {
        if (!write_at(files->journal, writes[i].bytes, writes[i].length, writes[i].place)) {
            cause = refuse_system(error, "write", files->journal_name);
        } else if (!sync_data(files->journal)) {
            cause = refuse_system(error, "fdatasync", files->journal_name);
        }
    }
    files->has_failed |= cause != POLYDB_HOST_DONE;
    return cause;
}

/* Where this process is the one that took the lock it says that it ended well, if so, and lets go of the lock. In a child the memory is left, as another thread of the parent may
 * have been within malloc. */
static void folder_close(polydb_store *store, bool is_owner) {
    site_folder *files = files_of(store);
    if (files->journal >= 0) {
        close(files->journal); /* all of it that counts was synced */
    }
    if (files->lock >= 0) {
        if (is_owner) {
            say_it_ended(files);
            set_lock(files->lock, F_UNLCK); /* a child of a fork may have the file open, too */
        }
        close(files->lock);
    }
    if (files->folder >= 0) {
        close(files->folder);
    }
    if (is_owner) {
        free(files);
    } else {
        files->folder = files->lock = files->journal = -1;
    }
}

static const store_calls FOLDER = {.read = folder_read, .settle = folder_settle, .write = folder_write, .close = folder_close};

polydb_host_cause folder_open(polydb_store **store, const char *path, uint8_t site, polydb_host_error *error) {
    *store = NULL;
    site_folder *files = malloc(sizeof *files);
    if (files == NULL) {
        return refuse(error, POLYDB_HOST_NO_MEMORY, "open", "the folder");
    }
    *files = (site_folder){.store = {.calls = &FOLDER}, .folder = -1, .lock = -1, .journal = -1, .site = site};
    name_of(files->journal_name, site, "pv");
    files->folder = open(path, O_RDONLY | O_DIRECTORY | O_CLOEXEC);
    polydb_host_cause cause = files->folder < 0 ? refuse_system(error, "open", "the folder") : take_lock(files, error);
    if (cause != POLYDB_HOST_DONE) {
        folder_close(&files->store, true);
        return cause;
    }
    *store = &files->store;
    return cause;
}
