/* Loaded before a program, this refuses one of its allocations: that of the number that stands in
   REFUSED, counted from 1. On standard error it tells each path to which a file is renamed, in a
   line `renamed PATH`, and as the program ends how many allocations it asked for, in a line
   `asked COUNT`. It needs the GNU C library. */
#define _GNU_SOURCE
#include <errno.h>
#include <fcntl.h>
#include <stdatomic.h>
#include <stdio.h>
#include <stdlib.h>
#include <sys/syscall.h>
#include <unistd.h>

extern void *__libc_malloc(size_t size);
extern void *__libc_calloc(size_t count, size_t size);
extern void *__libc_realloc(void *block, size_t size);

static unsigned long refused;
static atomic_ulong asked;

__attribute__((constructor)) static void begin(void)
{
    const char *number = getenv("REFUSED");
    refused = number == NULL ? 0 : strtoul(number, NULL, 10);
    atomic_store(&asked, 0); /* those of the loader don't count */
}

static int is_refused(void)
{
    if (atomic_fetch_add(&asked, 1) + 1 != refused)
        return 0;
    errno = ENOMEM;
    return 1;
}

void *malloc(size_t size)
{
    return is_refused() ? NULL : __libc_malloc(size);
}

void *calloc(size_t count, size_t size)
{
    return is_refused() ? NULL : __libc_calloc(count, size);
}

void *realloc(void *block, size_t size)
{
    return is_refused() ? NULL : __libc_realloc(block, size);
}

int rename(const char *from, const char *to)
{
    int status = renameat(AT_FDCWD, from, AT_FDCWD, to);
    if (status == 0)
        dprintf(2, "renamed %s\n", to);
    return status;
}

void _exit(int status)
{
    dprintf(2, "asked %lu\n", atomic_load(&asked));
    syscall(SYS_exit_group, status);
    abort();
}
