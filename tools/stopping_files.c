// Calls on files and on the standard streams, in front of the C library's, which are refused, moved in pieces, or at which the process
// ends. Variables of the environment say which:
//
//     CALLS     the kinds of calls that count, by their letters: w pwrite, t ftruncate, s fsync and fdatasync, r pread, l the length
//               of an open file, n the open of a name, i a read of the standard input, o a write of the standard output
//     ON        log or db: only calls on the file FILE-wal, or only those on others, count
//     STRIKE    the number of the call that is struck, from 1; 0 for none
//     HOW       refuse: it is refused, and so is each one behind it; once: it alone is; short: a read or a write moves half of what it
//               could; end: the process ends there
//     ERROR     the error of a refused call
//     LOSES     what is lost of the writes that weren't synced when the process ends, struck or by itself: nothing without this
//               variable; all, with the names of files that were made since their folder was synced; else a number by which each
//               sector is drawn. A sector behind the synced end may hold anything then
//     MOVES     how many bytes a pwrite moves at most
//     IN_MOVES, OUT_MOVES, ERR_MOVES
//               the same of calls on the standard streams; IN_MOVES may be `line`: then each read ends with a line, and the input is a file
//     IN_ROOM, OUT_ROOM, ERR_ROOM
//               how many bytes a stream moves before it fails; with OUT_ERROR=0 a full output answers that it took none
//     INTERRUPT each call on a standard stream is interrupted once before
//     LIE       what is wrong, to test the tests. syncs: nothing that is written is ever synced; late: a sync is made at the next one,
//               or when the program ends by itself; writes: the last byte of each write isn't written; rounds: the program gets a
//               `drive` in place of a `work`, so that it writes the steps of a round one by one
//
// A sync waits for no disk. If the process ends at a write, that is made, and may be lost; at a sync, that isn't made; at a write of the
// standard output, half of it is made. The open file 3 gets the letter of each call that counts, a capital if it is on FILE-wal.
// The program uses files and streams in one thread, so nothing is locked here.
#define _GNU_SOURCE
#include <errno.h>
#include <fcntl.h>
#include <limits.h>
#include <signal.h>
#include <stdarg.h>
#include <stdio.h>
#include <stdlib.h>
#include <string.h>
#include <sys/stat.h>
#include <sys/syscall.h>
#include <unistd.h>

enum { COUNT_FILE = 3, SECTOR = 512, FAILED_END = 125 };

// A write or a new length that may be lost, with what was there before.
struct change {
    struct change *next;
    char path[PATH_MAX];
    int is_length, is_past_help, is_due;
    off_t place, length_before, length_synced;
    size_t size, size_before;
    char *bytes, *bytes_before;
};

// A name that was made since its folder was synced.
struct name {
    struct name *next;
    char path[PATH_MAX];
};

static struct change *last_change;
static struct name *last_name;
static unsigned long struck, calls, moves;
static const char *counted, *on, *how, *loses, *lie;
static int error_of_calls;

static unsigned long number_of(const char *name, unsigned long without) {
    const char *text = getenv(name);
    return text ? strtoul(text, NULL, 10) : without;
}

static const char *text_of(const char *name) {
    const char *text = getenv(name);
    return text ? text : "";
}

__attribute__((constructor)) static void begin(void) {
    counted = text_of("CALLS");
    on = text_of("ON");
    how = text_of("HOW");
    loses = text_of("LOSES");
    lie = text_of("LIE");
    struck = number_of("STRIKE", 0);
    moves = number_of("MOVES", SSIZE_MAX);
    error_of_calls = (int)number_of("ERROR", EIO);
}

static void fail(void) { syscall(SYS_exit_group, FAILED_END); }

// ---- what is lost

static void *room_for(size_t size) {
    void *room = malloc(size ? size : 1);
    if (!room) fail();
    return room;
}

static void path_of(int file, char *path) {
    char name[64];
    snprintf(name, sizeof name, "/proc/self/fd/%d", file);
    ssize_t length = readlink(name, path, PATH_MAX - 1);
    path[length < 0 ? 0 : length] = '\0';
}

static off_t length_of(int file) {
    struct stat found;
    return fstat(file, &found) == 0 ? found.st_size : 0;
}

// The length that a file had at its last sync, if it has this one now.
static off_t length_synced_of(const char *path, off_t length) {
    for (const struct change *change = last_change; change; change = change->next)
        if (strcmp(change->path, path) == 0) return change->length_synced;
    return length;
}

// Notes what a write of these bytes replaces, or a new length if there are none.
static void note(int file, const void *bytes, size_t size, off_t place) {
    struct change *change = room_for(sizeof *change);
    path_of(file, change->path);
    change->is_length = bytes == NULL;
    change->is_past_help = change->is_due = 0;
    change->place = place;
    change->length_before = length_of(file);
    change->length_synced = length_synced_of(change->path, change->length_before);
    change->size = size;
    change->bytes = room_for(size);
    if (bytes) memcpy(change->bytes, bytes, size);
    off_t behind = change->length_before > place ? change->length_before - place : 0;
    size_t wanted = change->is_length || (off_t)size > behind ? (size_t)behind : size;
    change->bytes_before = room_for(wanted);
    ssize_t got = wanted ? syscall(SYS_pread64, file, change->bytes_before, wanted, place) : 0;
    if (got != (ssize_t)wanted) fail();
    change->size_before = wanted;
    change->next = last_change;
    last_change = change;
}

static void free_change(struct change *change) {
    free(change->bytes);
    free(change->bytes_before);
    free(change);
}

// Forgets the changes of this file, or of each file, that are synced now.
static void forget(const char *path, int are_due) {
    for (struct change **at = &last_change; *at;) {
        struct change *change = *at;
        int is_meant = (!path || strcmp(change->path, path) == 0) && (change->is_due || !are_due);
        if (is_meant && !change->is_past_help) {
            *at = change->next;
            free_change(change);
        } else {
            at = &change->next;
        }
    }
}

static void forget_names(const char *path) {
    size_t length = strlen(path);
    for (struct name **at = &last_name; *at;) {
        struct name *name = *at;
        if (strncmp(name->path, path, length) == 0 && name->path[length] == '/') {
            *at = name->next;
            free(name);
        } else {
            at = &name->next;
        }
    }
}

// What a sync that failed was for may be lost for ever.
static void synced(const char *path, int has_failed) {
    int is_late = strcmp(lie, "late") == 0;
    if (strcmp(lie, "syncs") == 0) return;
    if (is_late) forget(NULL, 1);
    for (struct change *change = last_change; change; change = change->next)
        if (strcmp(change->path, path) == 0) *(has_failed ? &change->is_past_help : &change->is_due) = 1;
    if (has_failed) return;
    if (!is_late) forget(path, 0);
    forget_names(path);
}

static unsigned long long drawn_state;

// A number below 2^31, by Knuth's generator.
static unsigned drawn(void) {
    drawn_state = drawn_state * 6364136223846793005ULL + 1442695040888963407ULL;
    return (unsigned)(drawn_state >> 33);
}

static void written(int file, const char *bytes, size_t size, off_t place) {
    if (size && syscall(SYS_pwrite64, file, bytes, size, place) != (ssize_t)size) fail();
}

static void set_length(int file, off_t length) {
    if (syscall(SYS_ftruncate, file, length) != 0) fail();
}

static int opened(const char *path) { return (int)syscall(SYS_openat, AT_FDCWD, path, O_RDWR | O_CLOEXEC); }

static void undo(const struct change *change) {
    int file = opened(change->path);
    if (file < 0) fail();
    set_length(file, change->length_before);
    written(file, change->bytes_before, change->size_before, change->place);
    syscall(SYS_close, file);
}

// Writes some sectors of what was lost, and what was never written into some behind the end.
static void redo_some(const struct change *change) {
    int file = opened(change->path);
    if (file < 0) fail();
    if (change->is_length && drawn() % 2) set_length(file, change->place);
    off_t end = change->place + (off_t)change->size;
    for (off_t at = change->place; at < end && !change->is_length;) {
        off_t next = (at / SECTOR + 1) * SECTOR < end ? (at / SECTOR + 1) * SECTOR : end;
        char other[SECTOR];
        for (size_t place = 0; place < sizeof other; place++) other[place] = (char)drawn();
        unsigned luck = drawn() % 4;
        if (luck < 2) written(file, change->bytes + (at - change->place), (size_t)(next - at), at);
        if (luck == 2 && at >= change->length_synced) written(file, other, (size_t)(next - at), at);
        at = next;
    }
    syscall(SYS_close, file);
}

// From the first change to the last.
static void redo_each(const struct change *change) {
    if (!change) return;
    redo_each(change->next);
    redo_some(change);
}

// Loses what the variable says, once.
static void lose(void) {
    if (!*loses) return;
    int is_all = strcmp(loses, "all") == 0;
    drawn_state = is_all ? 0 : strtoull(loses, NULL, 10);
    for (struct change *change = last_change; change; change = change->next) undo(change);
    if (!is_all) redo_each(last_change);
    for (struct name *name = last_name; name; name = name->next)
        if (is_all || drawn() % 2) unlink(name->path);
    loses = "";
}

__attribute__((destructor)) static void end(void) {
    forget(NULL, 1);
    lose();
}

// A program may end by this, behind which no destructor runs.
void _exit(int status) {
    end();
    syscall(SYS_exit_group, status);
    __builtin_unreachable();
}

// ---- which call is struck

enum outcome { MADE, REFUSED, SHORT, ENDS };

static void end_here(void) {
    lose();
    for (;;) syscall(SYS_kill, syscall(SYS_getpid), SIGKILL);
}

static int is_on_log(int file) {
    char path[PATH_MAX];
    path_of(file, path);
    size_t length = strlen(path);
    return length > 4 && strcmp(path + length - 4, "-wal") == 0;
}

static enum outcome outcome_of(char kind, int file) {
    if (!strchr(counted, kind)) return MADE;
    int is_log = file > COUNT_FILE && is_on_log(file);
    if (*on && is_log != (strcmp(on, "log") == 0)) return MADE;
    char letter = is_log ? (char)(kind - 'a' + 'A') : kind;
    if (syscall(SYS_pwrite64, COUNT_FILE, &letter, 1, calls++) != 1) fail();
    if (struck == 0 || calls < struck) return MADE;
    if (calls > struck && strcmp(how, "refuse") != 0) return MADE;
    if (strcmp(how, "end") == 0) return ENDS;
    if (strcmp(how, "short") == 0) return SHORT;
    errno = error_of_calls;
    return REFUSED;
}

// ---- files

static size_t least(size_t one, size_t other) { return one < other ? one : other; }

static size_t moved(enum outcome outcome, size_t size) { return outcome == SHORT ? (size + 1) / 2 : size; }

ssize_t pwrite(int file, const void *bytes, size_t size, off_t place) {
    enum outcome outcome = outcome_of('w', file);
    if (outcome == REFUSED) return -1;
    size = least(moved(outcome, size), moves);
    if (*loses) note(file, bytes, size, place);
    size_t less = size && strcmp(lie, "writes") == 0;
    ssize_t put = syscall(SYS_pwrite64, file, bytes, size - less, place);
    if (outcome == ENDS) end_here();
    return put < 0 ? put : put + (ssize_t)less;
}

ssize_t pwrite64(int file, const void *bytes, size_t size, off_t place) { return pwrite(file, bytes, size, place); }

int ftruncate(int file, off_t length) {
    enum outcome outcome = outcome_of('t', file);
    if (outcome == REFUSED) return -1;
    if (*loses) note(file, NULL, 0, length);
    int made = (int)syscall(SYS_ftruncate, file, length);
    if (outcome == ENDS) end_here();
    return made;
}

int ftruncate64(int file, off_t length) { return ftruncate(file, length); }

int fsync(int file) {
    enum outcome outcome = outcome_of('s', file);
    if (outcome == ENDS) end_here();
    char path[PATH_MAX];
    path_of(file, path);
    synced(path, outcome == REFUSED);
    return outcome == REFUSED ? -1 : 0;
}

int fdatasync(int file) { return fsync(file); }

// The advice to read a file's pages anew from the disk would make each run wait for it.
int posix_fadvise(int file, off_t place, off_t size, int advice) {
    (void)file, (void)place, (void)size, (void)advice;
    return 0;
}

ssize_t pread(int file, void *bytes, size_t size, off_t place) {
    enum outcome outcome = outcome_of('r', file);
    if (outcome == ENDS) end_here();
    return outcome == REFUSED ? -1 : syscall(SYS_pread64, file, bytes, moved(outcome, size), place);
}

ssize_t pread64(int file, void *bytes, size_t size, off_t place) { return pread(file, bytes, size, place); }

int statx(int folder, const char *restrict path, int flags, unsigned mask, struct statx *restrict found) {
    enum outcome outcome = *path ? MADE : outcome_of('l', folder);
    if (outcome == ENDS) end_here();
    return outcome == REFUSED ? -1 : (int)syscall(SYS_statx, folder, path, flags, mask, found);
}

int open(const char *path, int flags, ...) {
    va_list more;
    va_start(more, flags);
    mode_t mode = flags & O_CREAT ? va_arg(more, mode_t) : 0;
    va_end(more);
    enum outcome outcome = outcome_of('n', COUNT_FILE);
    if (outcome == REFUSED) return -1;
    int is_new = flags & O_CREAT && access(path, F_OK) != 0;
    int file = (int)syscall(SYS_openat, AT_FDCWD, path, flags, mode);
    if (is_new && file >= 0 && *loses) {
        struct name *name = room_for(sizeof *name);
        path_of(file, name->path);
        name->next = last_name;
        last_name = name;
    }
    if (outcome == ENDS) end_here();
    return file;
}

// ---- standard streams

struct stream {
    const char *moves_name, *room_name;
    int is_ready, is_interrupted;
    size_t moves, room;
};

static struct stream streams[] = {
    {.moves_name = "IN_MOVES", .room_name = "IN_ROOM"},
    {.moves_name = "OUT_MOVES", .room_name = "OUT_ROOM"},
    {.moves_name = "ERR_MOVES", .room_name = "ERR_ROOM"},
};

static struct stream *stream_of(int file) {
    struct stream *stream = &streams[file];
    if (!stream->is_ready) {
        stream->moves = number_of(stream->moves_name, SSIZE_MAX);
        stream->room = number_of(stream->room_name, SSIZE_MAX);
        stream->is_ready = 1;
    }
    return stream;
}

// Whether this call is interrupted: each first one, and the next is not.
static int is_interrupted(struct stream *stream) {
    if (!getenv("INTERRUPT")) return 0;
    stream->is_interrupted = !stream->is_interrupted;
    errno = EINTR;
    return stream->is_interrupted;
}

// Reads no further than to the end of a line.
static ssize_t read_line(char *bytes, size_t size) {
    ssize_t got = syscall(SYS_read, 0, bytes, size);
    const char *end = got > 0 ? memchr(bytes, '\n', (size_t)got) : NULL;
    if (!end) return got;
    ssize_t length = end - bytes + 1;
    if (syscall(SYS_lseek, 0, length - got, SEEK_CUR) < 0) fail();
    return length;
}

// What was read, with a drive in the place of a round of workers.
static ssize_t driven(char *bytes, ssize_t got) {
    char text[32] = "", steps[32];
    if (got > 0) memcpy(text, bytes, least((size_t)got, sizeof text - 1));
    return sscanf(text, "work %*u %[0-9]", steps) == 1 ? sprintf(bytes, "drive %s\n", steps) : got;
}

ssize_t read(int file, void *bytes, size_t size) {
    enum outcome outcome = outcome_of(file == 0 ? 'i' : 'r', file);
    if (outcome == ENDS) end_here();
    if (outcome == REFUSED) return -1;
    if (file != 0) return syscall(SYS_read, file, bytes, size);
    struct stream *stream = stream_of(file);
    if (is_interrupted(stream)) return -1;
    if (stream->room == 0) {
        errno = EIO;
        return -1;
    }
    size_t most = least(least(size, stream->room), stream->moves);
    ssize_t got = strcmp(text_of("IN_MOVES"), "line") == 0 ? read_line(bytes, least(size, stream->room)) : syscall(SYS_read, file, bytes, most);
    if (got > 0) stream->room -= (size_t)got;
    return strcmp(lie, "rounds") == 0 ? driven(bytes, got) : got;
}

ssize_t write(int file, const void *bytes, size_t size) {
    enum outcome outcome = file == 1 ? outcome_of('o', file) : MADE;
    if (outcome == REFUSED) return -1;
    if (file != 1 && file != 2) return syscall(SYS_write, file, bytes, size);
    struct stream *stream = stream_of(file);
    if (is_interrupted(stream)) return -1;
    if (stream->room == 0 && size) {
        errno = (int)number_of("OUT_ERROR", EIO);
        return errno ? -1 : 0;
    }
    size_t most = least(least(outcome == ENDS ? size / 2 : size, stream->room), stream->moves);
    ssize_t put = syscall(SYS_write, file, bytes, most);
    if (outcome == ENDS) end_here();
    if (put > 0) stream->room -= (size_t)put;
    return put;
}
