/* Preloaded by tests/faults: refuses one allocation, or all from one on, and lets one transfer move a single byte.
   REFUSE=n or REFUSE=n+ counts malloc, realloc, calloc and aligned_alloc from 0; SHORT=n counts read, write, recv
   and send. Counting begins with the first call of the program itself. */
#define _GNU_SOURCE
#include <dlfcn.h>
#include <errno.h>
#include <stdatomic.h>
#include <stdio.h>
#include <stdlib.h>
#include <string.h>
#include <sys/socket.h>
#include <unistd.h>

#define REAL(name) ((__typeof__(&name))dlsym(RTLD_NEXT, #name))

static atomic_long allocations, transfers;
static long refused = -1, shortened = -1;
static int onwards;

__attribute__((constructor)) static void set(void) {
    const char *refuse = getenv("REFUSE"), *cut = getenv("SHORT");
    if (refuse) refused = atol(refuse), onwards = refuse[strlen(refuse) - 1] == '+';
    if (cut) shortened = atol(cut);
    allocations = transfers = 0;
}

/* With COUNT set it says last how many allocations and transfers there were. */
void _exit(int status) {
    const char *count = getenv("COUNT");
    if (count && *count) dprintf(2, "%ld %ld\n", (long)allocations, (long)transfers);
    REAL(_exit)(status);
    __builtin_unreachable();
}

static int refuses(void) {
    long at = allocations++;
    if (refused < 0 || !(at == refused || (onwards && at > refused))) return 0;
    errno = ENOMEM;
    return 1;
}

static size_t moved(size_t size) { return transfers++ == shortened && size > 1 ? 1 : size; }

extern void *__libc_malloc(size_t), *__libc_realloc(void *, size_t), *__libc_calloc(size_t, size_t);
extern void *__libc_memalign(size_t, size_t);

void *malloc(size_t size) { return refuses() ? 0 : __libc_malloc(size); }
void *realloc(void *at, size_t size) { return refuses() ? 0 : __libc_realloc(at, size); }
void *calloc(size_t count, size_t size) { return refuses() ? 0 : __libc_calloc(count, size); }
void *aligned_alloc(size_t align, size_t size) { return refuses() ? 0 : __libc_memalign(align, size); }

ssize_t read(int from, void *to, size_t size) { return REAL(read)(from, to, moved(size)); }
ssize_t write(int to, const void *from, size_t size) { return REAL(write)(to, from, moved(size)); }
ssize_t __write(int to, const void *from, size_t size) { return REAL(write)(to, from, moved(size)); }
ssize_t recv(int from, void *to, size_t size, int flags) { return REAL(recv)(from, to, moved(size), flags); }
ssize_t send(int to, const void *from, size_t size, int flags) { return REAL(send)(to, from, moved(size), flags); }
