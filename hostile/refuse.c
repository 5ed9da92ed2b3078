/* Refuses requests of the program that it is preloaded into, as hostile/memory says it.
 *
 * RECON_REFUSE is a kind and a number N from 1: `once` refuses the Nth request for memory, `on` the Nth and all later ones;
 * `fail-read` and `fail-write` make the Nth read or write fail, `interrupt-read` and `interrupt-write` have it interrupted by a
 * signal, `short-read` and `short-write` have it move one byte alone. What is refused leaves a byte in the file of descriptor
 * RECON_MARK. All threads count together.
 */
#define _GNU_SOURCE
#include <errno.h>
#include <stdatomic.h>
#include <stdlib.h>
#include <string.h>
#include <sys/syscall.h>
#include <unistd.h>

extern void *__libc_malloc(size_t size);
extern void *__libc_calloc(size_t count, size_t size);
extern void *__libc_realloc(void *old, size_t size);

static char kind[32];
static long wanted;
static int mark;
static atomic_long counted;

__attribute__((constructor)) static void begin(void)
{
    const char *said = getenv("RECON_REFUSE"), *file = getenv("RECON_MARK");
    const char *space = said ? strchr(said, ' ') : NULL;
    if (!space || !file || space - said >= (long)sizeof kind)
        return;
    memcpy(kind, said, space - said);
    wanted = atol(space);
    mark = atoi(file);
}

/* Whether this request is of the kind, or of one that ends so, and its turn has come. */
static int is_refused(const char *of)
{
    if (strcmp(kind, of))
        return 0;
    long number = atomic_fetch_add(&counted, 1) + 1;
    if (number < wanted || (number > wanted && strcmp(of, "on")))
        return 0;
    syscall(SYS_write, mark, "x", 1);
    return 1;
}

static int refuses_memory(void)
{
    int refused = is_refused("once") || is_refused("on");
    if (refused)
        errno = ENOMEM;
    return refused;
}

void *malloc(size_t size)
{
    return refuses_memory() ? NULL : __libc_malloc(size);
}

void *calloc(size_t count, size_t size)
{
    return refuses_memory() ? NULL : __libc_calloc(count, size);
}

void *realloc(void *old, size_t size)
{
    return refuses_memory() ? NULL : __libc_realloc(old, size);
}

ssize_t read(int from, void *room, size_t count)
{
    if (is_refused("fail-read"))
        return errno = EIO, -1;
    if (is_refused("interrupt-read"))
        return errno = EINTR, -1;
    return syscall(SYS_read, from, room, count > 1 && is_refused("short-read") ? 1 : count);
}

ssize_t write(int to, const void *piece, size_t count)
{
    if (is_refused("fail-write"))
        return errno = EIO, -1;
    if (is_refused("interrupt-write"))
        return errno = EINTR, -1;
    return syscall(SYS_write, to, piece, count > 1 && is_refused("short-write") ? 1 : count);
}

ssize_t __write(int to, const void *piece, size_t count)
{
    return write(to, piece, count);
}
