/* What the proved program asks of Linux beside the C library, on processors for which the toolchain has none of it: the
 * functions of its libos_c.a and liblibc_c.a that the program reaches (the linker names each one that is missing). The
 * toolchain's declarations, src/c.rt of its crate os and src/heap.rt of libc, say what each does; nothing proves it.
 * tools/arm64 compares them with the toolchain's own on x86-64.
 */
#define _DEFAULT_SOURCE
#include <errno.h>
#include <netdb.h>
#include <stdbool.h>
#include <stddef.h>
#include <stdint.h>
#include <stdlib.h>
#include <string.h>
#include <sys/ioctl.h>

/* ---- the heap: alignments up to 16, which malloc keeps */

struct tried {
    bool ok;
    void *block;
};

static struct tried tried(void *block)
{
    static char nothing;
    return (struct tried){block != NULL, block ? block : &nothing};
}

/* Tries to get new memory of so many bytes. A block of no bytes has an address of its own all the same. */
struct tried rattle_alloc(size_t size, size_t align)
{
    return tried(malloc(size ? size : align));
}

/* Tries to make a block one of `size` bytes, whose first `kept` bytes stay. Where it fails, the block is as it was. */
struct tried rattle_realloc(void *block, size_t kept, size_t size, size_t align)
{
    (void)kept; /* (realloc knows the block's size) */
    return tried(realloc(block, size ? size : align));
}

/* Frees what either returned. */
void rattle_dealloc(void *block)
{
    free(block);
}

/* ---- the error of the last call */

int32_t rattle_errno(void)
{
    return errno;
}

void rattle_set_errno(int32_t error)
{
    errno = error;
}

/* ---- the command line, and the environment */

static size_t words_count;
static char **words;

/* Keeps what main is passed: glibc passes it to each constructor too. */
__attribute__((constructor)) static void keep_words(int count, char **values)
{
    words_count = (size_t)count;
    words = values;
}

/* Puts a text without its zero byte at the start of a room. Returns its length; -1 where there is no text, -2 where it
 * doesn't fit, and then the room is full. */
static ptrdiff_t put(const char *text, uint8_t *room, size_t size)
{
    if (!text)
        return -1;
    size_t length = strlen(text);
    memcpy(room, text, length <= size ? length : size);
    return length <= size ? (ptrdiff_t)length : -2;
}

/* Puts argument `i`; argument 0 is the program's name. */
ptrdiff_t rattle_arg(size_t i, uint8_t *room, size_t size)
{
    return put(i < words_count ? words[i] : NULL, room, size);
}

/* Puts the value of an environment variable. */
ptrdiff_t rattle_env(const char *name, uint8_t *room, size_t size)
{
    return put(getenv(name), room, size);
}

/* ---- sockets */

/* Sets or clears O_NONBLOCK of what a descriptor is open on. Returns 0 or -1. */
int32_t rattle_set_nonblocking(int32_t fd, bool on)
{
    return ioctl(fd, FIONBIO, &(int){on});
}

/* A sockaddr_in or sockaddr_in6, in the first `length` bytes. */
struct address {
    uint8_t bytes[128];
    uint32_t length;
};

/* Puts the first addresses of a host at the start of `found`. Returns their number, or getaddrinfo's error, which is
 * negative. */
ptrdiff_t rattle_lookup_host(const char *name, struct address *found, size_t room)
{
    struct addrinfo *first, hints = {.ai_socktype = SOCK_STREAM};
    int error = getaddrinfo(name, NULL, &hints, &first);
    if (error)
        return error;
    size_t count = 0;
    for (struct addrinfo *it = first; it && count < room; it = it->ai_next) {
        if (it->ai_family != AF_INET && it->ai_family != AF_INET6)
            continue;
        memcpy(found[count].bytes, it->ai_addr, it->ai_addrlen);
        found[count++].length = it->ai_addrlen;
    }
    freeaddrinfo(first);
    return (ptrdiff_t)count;
}
