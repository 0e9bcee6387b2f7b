/* power_log.c: a library to be loaded before others (LD_PRELOAD). It notes in the file POWER_LOG each write to the file
   POWER_IMAGE, and each sync of it, once that was done: a letter (W, Z for zeros, F for a flush), the offset in 8 bytes,
   the length in 4, and what was written. tools/try_power.py makes of it what a power failure leaves. */
#define _GNU_SOURCE
#include <dlfcn.h>
#include <errno.h>
#include <fcntl.h>
#include <stdint.h>
#include <stdlib.h>
#include <string.h>
#include <sys/stat.h>
#include <sys/uio.h>
#include <unistd.h>

static int notes = -1;
static struct stat image;

__attribute__((constructor)) static void begin(void) {
    const char *log = getenv("POWER_LOG"), *name = getenv("POWER_IMAGE");
    if (log && name && stat(name, &image) == 0) {
        int file = open(log, O_WRONLY | O_CREAT | O_APPEND | O_CLOEXEC, 0600);
        notes = fcntl(file, F_DUPFD_CLOEXEC, 500); /* out of the way of the program's own numbers */
        close(file);
    }
}

static int is_image(int file) {
    struct stat it;
    return notes >= 0 && fstat(file, &it) == 0 && it.st_dev == image.st_dev && it.st_ino == image.st_ino;
}

static void note(char what, uint64_t offset, const void *bytes, uint32_t length) {
    char head[13];
    head[0] = what;
    memcpy(head + 1, &offset, 8);
    memcpy(head + 9, &length, 4);
    struct iovec parts[2] = {{head, sizeof head}, {(void *)bytes, bytes ? length : 0}};
    if (writev(notes, parts, 2) < 0) abort();
}

static ssize_t written(int file, const void *bytes, off_t offset, ssize_t done) {
    int why = errno;
    if (done > 0 && is_image(file)) note('W', offset, bytes, done);
    errno = why;
    return done;
}

#define NEXT(type, name, ...) ((type(*)(__VA_ARGS__))dlsym(RTLD_NEXT, name))

ssize_t pwrite64(int file, const void *bytes, size_t length, off_t offset) {
    return written(file, bytes, offset, NEXT(ssize_t, "pwrite64", int, const void *, size_t, off_t)(file, bytes, length, offset));
}
ssize_t pwrite(int file, const void *bytes, size_t length, off_t offset) { return pwrite64(file, bytes, length, offset); }

ssize_t write(int file, const void *bytes, size_t length) {
    off_t offset = is_image(file) ? lseek(file, 0, SEEK_CUR) : 0;
    return written(file, bytes, offset, NEXT(ssize_t, "write", int, const void *, size_t)(file, bytes, length));
}

static int synced(int file, int result) {
    int why = errno;
    if (result == 0 && is_image(file)) note('F', 0, NULL, 0);
    errno = why;
    return result;
}
int fsync(int file) { return synced(file, NEXT(int, "fsync", int)(file)); }
int fdatasync(int file) { return synced(file, NEXT(int, "fdatasync", int)(file)); }

int fallocate64(int file, int mode, off_t offset, off_t length) {
    int result = NEXT(int, "fallocate64", int, int, off_t, off_t)(file, mode, offset, length), why = errno;
    if (result == 0 && is_image(file)) note('Z', offset, NULL, length);
    errno = why;
    return result;
}
int fallocate(int file, int mode, off_t offset, off_t length) { return fallocate64(file, mode, offset, length); }
