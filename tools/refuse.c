// A library to be loaded before the C library (LD_PRELOAD): it refuses memory to a program, and disturbs what it reads
// and writes. `tools/faults` builds it and says what it does, by these variables of the environment:
//
//   REFUSE_ALLOC=N    the Nth call of malloc, calloc, realloc or posix_memalign answers that there is no memory
//   REFUSE_READ=N     the Nth read fails                      INTERRUPT_READ=N   the Nth read is interrupted
//   REFUSE_WRITE=N    the Nth write fails                     INTERRUPT_WRITE=N  the Nth write is interrupted
//   ONE_BYTE=1        each read and each write moves one byte at most
//   REPORT=FILE       where a call is refused or interrupted, its name is added to this file, with the line that was begun
//                     on standard output
//
// With N as `each` every second read or write is interrupted.
#define _GNU_SOURCE
#include <dlfcn.h>
#include <errno.h>
#include <fcntl.h>
#include <stdlib.h>
#include <string.h>
#include <sys/syscall.h>
#include <sys/types.h>
#include <unistd.h>

extern void *__libc_malloc(size_t);
extern void *__libc_calloc(size_t, size_t);
extern void *__libc_realloc(void *, size_t);
extern void *__libc_memalign(size_t, size_t);

static unsigned long refused_alloc, refused_read, refused_write, interrupted_read, interrupted_write;
static int one_byte, each_read, each_write;
static unsigned long allocs, reads, writes;
static char last_written[256];
static size_t last_length;

static unsigned long number_in(const char *name, int *each) {
    const char *text = getenv(name);
    if (text && each) *each = !strcmp(text, "each");
    return text ? strtoul(text, 0, 10) : 0;
}

__attribute__((constructor)) static void begin(void) {
    refused_alloc = number_in("REFUSE_ALLOC", 0);
    refused_read = number_in("REFUSE_READ", 0);
    refused_write = number_in("REFUSE_WRITE", 0);
    interrupted_read = number_in("INTERRUPT_READ", &each_read);
    interrupted_write = number_in("INTERRUPT_WRITE", &each_write);
    one_byte = getenv("ONE_BYTE") != 0;
    // What was counted until now belongs to the loader.
    allocs = 0;
}

// Writes down that a call is refused, without asking for memory.
static void report(const char *call) {
    const char *path = getenv("REPORT");
    int file = path ? syscall(SYS_openat, AT_FDCWD, path, O_WRONLY | O_CREAT | O_APPEND, 0600) : -1;
    if (file < 0) return;
    syscall(SYS_write, file, call, strlen(call));
    syscall(SYS_write, file, " ", 1);
    // A line that is ended is of a scenario that is over.
    if (last_length && last_written[last_length - 1] != '\n') syscall(SYS_write, file, last_written, last_length);
    syscall(SYS_write, file, "\n", 1);
    syscall(SYS_close, file);
}

static int is_refused(void) {
    if (++allocs != refused_alloc) return 0;
    report("alloc");
    errno = ENOMEM;
    return 1;
}

void *malloc(size_t size) { return is_refused() ? 0 : __libc_malloc(size); }

void *calloc(size_t count, size_t size) { return is_refused() ? 0 : __libc_calloc(count, size); }

void *realloc(void *block, size_t size) { return is_refused() ? 0 : __libc_realloc(block, size); }

int posix_memalign(void **block, size_t align, size_t size) {
    if (is_refused()) return ENOMEM;
    void *made = __libc_memalign(align, size);
    if (!made) return ENOMEM;
    *block = made;
    return 0;
}

// Whether a read or a write is to fail, and by which error.
static int is_disturbed(const char *call, unsigned long count, unsigned long refused, unsigned long interrupted, int each) {
    if (count == refused) {
        report(call);
        errno = EIO;
        return 1;
    }
    if (count == interrupted || (each && count % 2)) {
        report(call);
        errno = EINTR;
        return 1;
    }
    return 0;
}

ssize_t read(int file, void *bytes, size_t count) {
    if (is_disturbed("read", ++reads, refused_read, interrupted_read, each_read)) return -1;
    return syscall(SYS_read, file, bytes, one_byte && count > 1 ? 1 : count);
}

ssize_t write(int file, const void *bytes, size_t count) {
    // What is said on standard error is left alone.
    if (file != STDOUT_FILENO) return syscall(SYS_write, file, bytes, count);
    if (is_disturbed("write", ++writes, refused_write, interrupted_write, each_write)) return -1;
    ssize_t done = syscall(SYS_write, file, bytes, one_byte && count > 1 ? 1 : count);
    if (done > 0) {
        last_length = (size_t)done < sizeof last_written ? (size_t)done : sizeof last_written;
        memcpy(last_written, bytes, last_length);
    }
    return done;
}

// The names by which a program of the kit calls them.
ssize_t __read(int file, void *bytes, size_t count) { return read(file, bytes, count); }

ssize_t __write(int file, const void *bytes, size_t count) { return write(file, bytes, count); }
