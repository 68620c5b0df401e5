// An allocator in front of the C library's that refuses one request: the one whose number, from 1, the variable REFUSE has.
// When the program ends, the count of its requests is written to the open file 3. Where the variable BY_LINES is there, each reading of
// the standard input gives no more than one line, and the count so far is written to that file too before a line is begun: so the
// requests between two counts are those of one line, from its reading to the end of its reply.
#include <errno.h>
#include <stdio.h>
#include <stdlib.h>
#include <sys/syscall.h>
#include <unistd.h>

extern void *__libc_malloc(size_t size);
extern void *__libc_calloc(size_t count, size_t size);
extern void *__libc_realloc(void *block, size_t size);
extern void *__libc_memalign(size_t alignment, size_t size);

static unsigned long refused, requests;
static int is_by_lines, is_within_line;

// What asks before the program begins is the loader, whose requests don't count.
__attribute__((constructor)) static void begin(void) {
    const char *number = getenv("REFUSE");
    refused = number ? strtoul(number, NULL, 10) : 0;
    is_by_lines = getenv("BY_LINES") != NULL;
    requests = 0;
}

static int is_told(void) {
    char text[32];
    int length = snprintf(text, sizeof text, "%lu\n", requests);
    return write(3, text, (size_t)length) == length;
}

__attribute__((destructor)) static void end(void) {
    if (!is_told()) syscall(SYS_exit_group, 125);
}

// A program may end by this, behind which no destructor runs.
void _exit(int status) {
    syscall(SYS_exit_group, is_told() ? status : 125);
    __builtin_unreachable();
}

// So much of a line of the standard input as there is room for, with its end.
static ssize_t read_line(char *bytes, size_t size) {
    size_t length = 0;
    do {
        ssize_t got = syscall(SYS_read, 0, bytes + length, 1);
        if (got < 0 && length == 0) return got;
        if (got <= 0) return (ssize_t)length;
    } while (bytes[length++] != '\n' && length < size);
    is_within_line = bytes[length - 1] != '\n';
    return (ssize_t)length;
}

ssize_t read(int file, void *bytes, size_t size) {
    if (file != 0 || !is_by_lines || size == 0) return syscall(SYS_read, file, bytes, size);
    if (!is_within_line && !is_told()) syscall(SYS_exit_group, 125);
    return read_line(bytes, size);
}

static int is_refused(void) {
    unsigned long number = __atomic_add_fetch(&requests, 1, __ATOMIC_SEQ_CST);
    if (number != refused) return 0;
    errno = ENOMEM;
    return 1;
}

void *malloc(size_t size) { return is_refused() ? NULL : __libc_malloc(size); }

void *calloc(size_t count, size_t size) { return is_refused() ? NULL : __libc_calloc(count, size); }

void *realloc(void *block, size_t size) { return is_refused() ? NULL : __libc_realloc(block, size); }

void *aligned_alloc(size_t alignment, size_t size) { return is_refused() ? NULL : __libc_memalign(alignment, size); }

int posix_memalign(void **block, size_t alignment, size_t size) {
    if (is_refused()) return ENOMEM;
    void *made = __libc_memalign(alignment, size);
    if (!made) return ENOMEM;
    *block = made;
    return 0;
}
