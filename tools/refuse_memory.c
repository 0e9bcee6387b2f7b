// Loaded into the program with LD_PRELOAD by tools/refuse_memory.py: refuses one allocation, and notes what the program does
// to files. The environment says which and where:
//   REFUSE   the number of the refused allocation, from 1; 0 refuses none
//   NOTES    the file of the notes, a line each: "refused BYTES", "input BYTES", "write INODE", "sync INODE", and at the end
//            "allocations COUNT"
//
// Counted are the calls of malloc, calloc, realloc, aligned_alloc, memalign and posix_memalign, of the program and of the C
// library, behind the loading of the libraries. A refused call answers as the C library does without memory; a block that
// `realloc` was given stays. Noted as "input" are reads of standard input, with the bytes asked for; as "write" and "sync" the
// calls of write, writev, pwrite, pwritev, ftruncate, fsync and fdatasync on other files than the standard streams. All are
// noted before they are made.
#define _GNU_SOURCE
#include <errno.h>
#include <fcntl.h>
#include <stddef.h>
#include <stdio.h>
#include <stdlib.h>
#include <sys/stat.h>
#include <sys/syscall.h>
#include <sys/uio.h>
#include <unistd.h>

void *__libc_malloc(size_t);
void *__libc_calloc(size_t, size_t);
void *__libc_realloc(void *, size_t);
void *__libc_memalign(size_t, size_t);

static int notes = -1;
static unsigned long refused, count;

// A line of the notes. It takes no memory.
static void note(const char *what, unsigned long number) {
    char line[64];
    int saved = errno, length = snprintf(line, sizeof line, "%s %lu\n", what, number);
    if (notes >= 0) syscall(SYS_write, notes, line, length);
    errno = saved;
}

__attribute__((constructor)) static void begin(void) {
    const char *number = getenv("REFUSE"), *name = getenv("NOTES");
    if (!number || !name) return;
    int opened = open(name, O_WRONLY | O_CREAT | O_APPEND | O_CLOEXEC, 0600);
    // A high number, so that the program's own files get those that they get without this.
    notes = fcntl(opened, F_DUPFD_CLOEXEC, 500);
    close(opened);
    refused = strtoul(number, NULL, 10);
}

__attribute__((destructor)) static void end(void) { note("allocations", count); }

// Whether this allocation is the refused one.
static int refuses(size_t bytes) {
    if (notes < 0 || ++count != refused) return 0;
    note("refused", bytes);
    errno = ENOMEM;
    return 1;
}

void *malloc(size_t bytes) { return refuses(bytes) ? NULL : __libc_malloc(bytes); }
void *calloc(size_t items, size_t bytes) { return refuses(items * bytes) ? NULL : __libc_calloc(items, bytes); }
void *realloc(void *block, size_t bytes) { return refuses(bytes) ? NULL : __libc_realloc(block, bytes); }
void *aligned_alloc(size_t align, size_t bytes) { return refuses(bytes) ? NULL : __libc_memalign(align, bytes); }
void *memalign(size_t align, size_t bytes) { return refuses(bytes) ? NULL : __libc_memalign(align, bytes); }
int posix_memalign(void **block, size_t align, size_t bytes) {
    if (refuses(bytes)) return ENOMEM;
    *block = __libc_memalign(align, bytes);
    return *block ? 0 : ENOMEM;
}

// Notes what is to be done to the file behind a number.
static void done(const char *what, int file) {
    struct stat found;
    if (file > 2 && fstat(file, &found) == 0) note(what, found.st_ino);
}

ssize_t read(int file, void *bytes, size_t length) {
    if (file == 0) note("input", length);
    return syscall(SYS_read, file, bytes, length);
}
ssize_t write(int file, const void *bytes, size_t length) {
    done("write", file);
    return syscall(SYS_write, file, bytes, length);
}
ssize_t __write(int file, const void *bytes, size_t length) { return write(file, bytes, length); }
ssize_t writev(int file, const struct iovec *parts, int many) {
    done("write", file);
    return syscall(SYS_writev, file, parts, many);
}
ssize_t pwrite(int file, const void *bytes, size_t length, off_t at) {
    done("write", file);
    return syscall(SYS_pwrite64, file, bytes, length, at);
}
ssize_t pwrite64(int file, const void *bytes, size_t length, off_t at) { return pwrite(file, bytes, length, at); }
ssize_t pwritev(int file, const struct iovec *parts, int many, off_t at) {
    done("write", file);
    return syscall(SYS_pwritev, file, parts, many, at, 0L);
}
int ftruncate(int file, off_t length) {
    done("write", file);
    return syscall(SYS_ftruncate, file, length);
}
int fsync(int file) {
    done("sync", file);
    return syscall(SYS_fsync, file);
}
int fdatasync(int file) {
    done("sync", file);
    return syscall(SYS_fdatasync, file);
}
