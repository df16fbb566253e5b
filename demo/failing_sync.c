/* For demo/losses, by LD_PRELOAD: a drive beside each file, and one fdatasync that fails, after which the system takes the
   pages for clean, as Linux does. FILE.drive has what the drive holds; FILE.clean what the page cache held at the failure.

   FAIL_SYNC=N: the Nth fdatasync of the process fails. FAIL_READ=N: sector N of a file NAME.image can't be read (EIO);
   with FAIL_READS=COUNT only the first COUNT reads of it fail.
   CLOCK=SECONDS: the time of day, since 1970. FALLING: each time that it is asked for it is a second earlier. */
#define _GNU_SOURCE
#include <errno.h>
#include <fcntl.h>
#include <stdio.h>
#include <stdlib.h>
#include <string.h>
#include <sys/stat.h>
#include <sys/syscall.h>
#include <time.h>
#include <unistd.h>

enum { SECTOR = 512 };

static char *read_all(const char *name, long *length) {
    FILE *file = fopen(name, "rb");
    if (!file) return NULL;
    struct stat facts;
    fstat(fileno(file), &facts);
    *length = facts.st_size;
    char *bytes = calloc(1, facts.st_size + 1);
    if (fread(bytes, 1, facts.st_size, file) != (size_t)facts.st_size) exit(99);
    fclose(file);
    return bytes;
}

static void write_all(const char *name, const char *bytes, long length) {
    FILE *file = fopen(name, "r+b");
    if (!file) file = fopen(name, "wb");
    if (!file || fwrite(bytes, 1, length, file) != (size_t)length) exit(99);
    fclose(file);
}

/* The names of the file, of its drive and of what is taken for clean. */
static void names_of(int fd, char name[3][4096]) {
    char link[64];
    snprintf(link, sizeof link, "/proc/self/fd/%d", fd);
    ssize_t n = readlink(link, name[0], 4000);
    name[0][n < 0 ? 0 : n] = 0;
    snprintf(name[1], 4096, "%.4000s.drive", name[0]);
    snprintf(name[2], 4096, "%.4000s.clean", name[0]);
}

/* Each sector that changed since the failure, or each at all, reaches the drive. */
static void reach_the_drive(char name[3][4096]) {
    long length, clean_length, drive_length;
    char *bytes = read_all(name[0], &length), *clean = read_all(name[2], &clean_length);
    char *drive = clean ? read_all(name[1], &drive_length) : NULL;
    if (!bytes) return;
    for (long at = 0; drive && at + SECTOR <= length && at + SECTOR <= drive_length; at += SECTOR)
        if (memcmp(bytes + at, clean + at, SECTOR)) memcpy(drive + at, bytes + at, SECTOR);
    write_all(name[1], drive ? drive : bytes, length);
    if (clean) write_all(name[2], bytes, length);
}

int fdatasync(int fd) {
    static int calls;
    const char *failing = getenv("FAIL_SYNC");
    char name[3][4096];
    names_of(fd, name);
    if (failing && ++calls == atoi(failing)) {
        long length;
        char *bytes = read_all(name[0], &length);
        if (bytes) write_all(name[2], bytes, length);
        errno = EIO;
        return -1;
    }
    reach_the_drive(name);
    return syscall(SYS_fdatasync, fd);
}

int posix_fadvise(int fd, off_t from, off_t length, int advice) {
    char name[3][4096];
    names_of(fd, name);
    (void)from, (void)length;
    if (advice == POSIX_FADV_DONTNEED && access(name[2], F_OK) == 0) {
        long n;
        char *drive = read_all(name[1], &n);
        if (drive) write_all(name[0], drive, n);
        unlink(name[2]);
    }
    return 0;
}

int posix_fadvise64(int fd, off64_t from, off64_t length, int advice) { return posix_fadvise(fd, from, length, advice); }

static int is_image(int fd) {
    char name[3][4096];
    names_of(fd, name);
    size_t n = strlen(name[0]);
    return n > 6 && !strcmp(name[0] + n - 6, ".image");
}

ssize_t pread64(int fd, void *room, size_t length, off64_t at) {
    static int failed;
    const char *failing = getenv("FAIL_READ"), *most = getenv("FAIL_READS");
    if (failing && at / SECTOR == atoll(failing) && is_image(fd) && (!most || failed++ < atoi(most))) {
        errno = EIO;
        return -1;
    }
    return syscall(SYS_pread64, fd, room, length, at);
}

ssize_t pread(int fd, void *room, size_t length, off_t at) { return pread64(fd, room, length, at); }

int clock_gettime(clockid_t clock, struct timespec *now) {
    int status = syscall(SYS_clock_gettime, clock, now);
    static int asked;
    const char *shifted = getenv("CLOCK");
    if (shifted && clock == CLOCK_REALTIME) now->tv_sec = atoll(shifted) - (getenv("FALLING") ? asked++ : 0);
    return status;
}
