/* What the toolchain declares of C beside the C library, as far as ddcmp reaches it, for ARM64 with
   Linux and glibc; its own objects are for x86-64. The contracts are in its libc/src/heap.rt and
   os/src/c.rt. A slice is passed as a pointer and a length. If ddcmp needs more, its link fails and
   names it. With HEAP_ALONE it is what the C library needs. */
#define _GNU_SOURCE
#include <stdbool.h>
#include <stddef.h>
#include <stdlib.h>

/* The alignment that is asked for divides 16: malloc needn't know it. */
_Static_assert(_Alignof(max_align_t) == 16, "each block of malloc is aligned to 16 bytes");

struct tried { bool ok; void *p; };

/* On failure p is no null pointer either, and owns nothing. */
static char nothing;

static struct tried tried(void *p) { return (struct tried){p != NULL, p != NULL ? p : &nothing}; }

/* For 0 bytes malloc may return null, and realloc frees: both get a few. */
struct tried rattle_alloc(size_t n, size_t alignment) {
    return tried(malloc(n != 0 ? n : alignment));
}

struct tried rattle_realloc(void *p, size_t kept, size_t n, size_t alignment) {
    (void)kept; /* realloc keeps all that fits */
    return tried(realloc(p, n != 0 ? n : alignment));
}

void rattle_dealloc(void *p) { free(p); }

#ifndef HEAP_ALONE
#include <errno.h>
#include <netdb.h>
#include <stdint.h>
#include <string.h>
#include <sys/epoll.h>
#include <sys/ioctl.h>
#include <sys/socket.h>

int rattle_errno(void) { return errno; }

void rattle_set_errno(int error) { errno = error; }

static size_t count;
static char **words;

/* glibc passes a constructor what it passes to main. */
__attribute__((constructor)) static void keep(int argc, char **argv) {
    count = (size_t)argc;
    words = argv;
}

/* Returns the length of argument i, or -1 if there is none, or -2 if it is longer: buf is full. */
ssize_t rattle_arg(size_t i, char *buf, size_t room) {
    if (i >= count) return -1;
    size_t length = strlen(words[i]);
    memcpy(buf, words[i], length < room ? length : room);
    return length <= room ? (ssize_t)length : -2;
}

int rattle_set_nonblocking(int fd, bool on) {
    int value = on;
    return ioctl(fd, FIONBIO, &value);
}

/* The caller's entry is that of the system, which is packed on x86-64 alone. */
struct entry { uint32_t events; uint64_t data; };
_Static_assert(sizeof(struct epoll_event) == sizeof(struct entry), "an entry is not packed");
_Static_assert(offsetof(struct epoll_event, data) == offsetof(struct entry, data), "nor a field");

int rattle_epoll_ctl(int epfd, int op, int fd, uint32_t events, uint64_t data) {
    struct epoll_event event = {.events = events, .data.u64 = data};
    return epoll_ctl(epfd, op, fd, &event);
}

ssize_t rattle_epoll_wait(int epfd, struct epoll_event *entries, size_t room, int timeout) {
    const size_t most = 1 << 24; /* far from what the system refuses */
    return epoll_wait(epfd, entries, (int)(room < most ? room : most), timeout);
}

struct address { char bytes[128]; uint32_t length; };

/* Returns how many addresses it put into found, or an error of getaddrinfo: all are negative. */
ssize_t rattle_lookup_host(const char *name, struct address *found, size_t room) {
    const struct addrinfo hints = {.ai_socktype = SOCK_STREAM}; /* else each comes once a type */
    struct addrinfo *all = NULL;
    int error = getaddrinfo(name, NULL, &hints, &all);
    if (error != 0) return error;
    size_t n = 0;
    for (struct addrinfo *it = all; it != NULL && n < room; it = it->ai_next) {
        if (it->ai_family != AF_INET && it->ai_family != AF_INET6) continue;
        if (it->ai_addrlen > sizeof found->bytes) continue;
        memcpy(found[n].bytes, it->ai_addr, it->ai_addrlen);
        found[n++].length = it->ai_addrlen;
    }
    freeaddrinfo(all);
    return (ssize_t)n;
}
#endif
