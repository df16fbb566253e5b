/* Prints what each function of host.c does with the same calls. tools/arm64 runs it over the toolchain's own archives,
 * over host.c on x86-64 and over host.c on ARM, and compares the three texts. The words of the command line and the
 * environment are a part of the test, and so is a file of hosts with a name `many.test` of several addresses.
 */
#define _GNU_SOURCE
#include <errno.h>
#include <fcntl.h>
#include <stdbool.h>
#include <stddef.h>
#include <stdint.h>
#include <stdio.h>
#include <string.h>
#include <sys/socket.h>
#include <unistd.h>

struct tried {
    bool ok;
    void *block;
};

struct address {
    uint8_t bytes[128];
    uint32_t length;
};

struct tried rattle_alloc(size_t size, size_t align);
struct tried rattle_realloc(void *block, size_t kept, size_t size, size_t align);
void rattle_dealloc(void *block);
int32_t rattle_errno(void);
void rattle_set_errno(int32_t error);
ptrdiff_t rattle_arg(size_t i, uint8_t *room, size_t size);
ptrdiff_t rattle_env(const char *name, uint8_t *room, size_t size);
int32_t rattle_set_nonblocking(int32_t fd, bool on);
ptrdiff_t rattle_lookup_host(const char *name, struct address *found, size_t room);

enum { ROOM = 64, FOUND = 4, UNTOUCHED = 0xA5, HUGE_SHIFT = 62, ALIGN = 16 };

/* Fills a block with bytes that depend on their places. */
static void fill(uint8_t *block, size_t size)
{
    for (size_t at = 0; at < size; at++)
        block[at] = (uint8_t)(at * 7 + 1);
}

/* Counts the bytes at a block's start that are as filled. */
static size_t kept(const uint8_t *block, size_t size)
{
    size_t at = 0;
    while (at < size && block[at] == (uint8_t)(at * 7 + 1))
        at++;
    return at;
}

static void try_alloc(size_t size, size_t align)
{
    struct tried tried = rattle_alloc(size, align);
    bool aligned = !tried.ok || (uintptr_t)tried.block % align == 0;
    printf("alloc %zu %zu: %d %s %d\n", size, align, tried.ok, tried.block ? "an address" : "none", aligned);
    if (tried.ok) {
        fill(tried.block, size);
        rattle_dealloc(tried.block);
    }
}

static void try_realloc(size_t from, size_t to)
{
    struct tried old = rattle_alloc(from, ALIGN);
    if (!old.ok)
        return;
    fill(old.block, from);
    struct tried new = rattle_realloc(old.block, from < to ? from : to, to, ALIGN);
    uint8_t *held = new.ok ? new.block : old.block;
    size_t size = new.ok && to < from ? to : from;
    printf("realloc %zu to %zu: %d %s, %zu kept\n", from, to, new.ok, new.block ? "an address" : "none", kept(held, size));
    rattle_dealloc(held);
}

static void try_heap(void)
{
    static const size_t sizes[] = {0, 1, 15, 16, 17, 4096, 1 << 20};
    size_t huge = (size_t)1 << HUGE_SHIFT;
    for (size_t n = 0; n < sizeof sizes / sizeof *sizes; n++) {
        for (size_t align = 1; align <= ALIGN; align *= 2)
            try_alloc(sizes[n], align);
        for (size_t m = 0; m < sizeof sizes / sizeof *sizes; m++)
            try_realloc(sizes[n], sizes[m]);
        try_realloc(sizes[n], huge);
    }
    try_alloc(huge, 1);
    try_alloc(2 * huge - 1, ALIGN);
}

static void try_errno(void)
{
    rattle_set_errno(0);
    printf("errno: %d", rattle_errno());
    close(-1);
    printf(" %d", rattle_errno() == EBADF);
    rattle_set_errno(ENOSPC);
    printf(" %d %d\n", rattle_errno() == ENOSPC, errno == ENOSPC);
}

/* Prints what an argument leaves of a room of so many bytes, or a variable where there is a name, the bytes beyond it
 * too. */
static void try_text(const char *name, size_t i, size_t size)
{
    uint8_t room[ROOM];
    memset(room, UNTOUCHED, sizeof room);
    ptrdiff_t length = name ? rattle_env(name, room, size) : rattle_arg(i, room, size);
    printf("%s %zu %zu: %td", name ? name : "arg", i, size, length);
    for (size_t at = 0; at < sizeof room && room[at] != UNTOUCHED; at++)
        printf(" %02X", room[at]);
    printf(", %d\n", room[ROOM - 1] == UNTOUCHED && (size == 0 || room[size] == UNTOUCHED));
}

/* (not argument 0, which is the program's own path) */
static void try_texts(size_t count)
{
    for (size_t i = 1; i <= count + 1; i++)
        for (size_t size = 0; size < 12; size++)
            try_text(NULL, i, size);
    try_text(NULL, SIZE_MAX, ROOM - 1);
    for (size_t size = 0; size < 12; size++) {
        try_text("NO_COLOR", 0, size);
        try_text("EMPTY", 0, size);
        try_text("MISSING", 0, size);
    }
}

static void try_nonblocking(int fd, const char *what)
{
    for (int n = 0; n < 5; n++) {
        bool on = n % 3 != 2;
        errno = 0;
        int32_t status = rattle_set_nonblocking(fd, on);
        int error = errno, flags = fcntl(fd, F_GETFL);
        printf("nonblocking %s %d: %d %d %d\n", what, on, status, error, flags < 0 ? -1 : (flags & O_NONBLOCK) != 0);
    }
}

static void try_descriptors(void)
{
    int ends[2], stream = socket(AF_INET, SOCK_STREAM, 0);
    if (pipe(ends))
        return;
    try_nonblocking(ends[0], "pipe");
    try_nonblocking(stream, "socket");
    close(ends[0]);
    close(ends[1]);
    close(stream);
    try_nonblocking(-1, "none");
}

static void try_lookup(const char *name, size_t room)
{
    struct address found[FOUND];
    memset(found, UNTOUCHED, sizeof found);
    ptrdiff_t count = rattle_lookup_host(name, found, room);
    printf("lookup '%s' %zu: %td\n", name, room, count);
    for (size_t n = 0; n < FOUND; n++) {
        printf("   ");
        for (size_t at = 0; at < sizeof found[n].bytes; at++)
            if (found[n].bytes[at] != UNTOUCHED)
                printf(" %zu=%02X", at, found[n].bytes[at]);
        printf(" %u\n", found[n].length);
    }
}

static void try_lookups(void)
{
    static const char *const names[] = {"127.0.0.1", "::1", "fe80::1%lo", "localhost", "many.test", "", "a b", "host.invalid"};
    for (size_t n = 0; n < sizeof names / sizeof *names; n++)
        for (size_t room = 0; room <= FOUND; room++)
            try_lookup(names[n], room);
}

int main(int count, char **words)
{
    (void)words;
    try_heap();
    try_errno();
    try_texts((size_t)count - 1);
    try_descriptors();
    try_lookups();
    return ferror(stdout) || fflush(stdout) ? 1 : 0;
}
