/* Between a program and the C library: one request for memory is refused.

   REFUSED=n  the n-th request, from 1, gets none; without it, or with 0, all get what they ask for
   COUNTED=f  at the end the number of requests is written into the file f

   What the library takes for itself, as for a new thread, does not come by here. */

#define _GNU_SOURCE
#include <errno.h>
#include <stdatomic.h>
#include <stddef.h>
#include <stdio.h>
#include <stdlib.h>
#include <sys/syscall.h>
#include <unistd.h>

extern void *__libc_malloc(size_t size);
extern void *__libc_realloc(void *old, size_t size);

static atomic_long requests;
static long refused;

__attribute__((constructor)) static void begin(void)
{
    const char *number = getenv("REFUSED");
    refused = number ? atol(number) : 0;
    atomic_store(&requests, 0);
}

/* Where the program ends: it calls no destructors. */
void _exit(int status)
{
    long count = atomic_load(&requests);
    const char *name = getenv("COUNTED");
    FILE *file = name ? fopen(name, "w") : NULL;
    if (file) {
        fprintf(file, "%ld\n", count);
        fclose(file);
    }
    for (;;)
        syscall(SYS_exit_group, status);
}

static int is_refused(void)
{
    if (atomic_fetch_add(&requests, 1) + 1 != refused)
        return 0;
    errno = ENOMEM;
    return 1;
}

void *malloc(size_t size)
{
    return is_refused() ? NULL : __libc_malloc(size);
}

void *realloc(void *old, size_t size)
{
    return is_refused() ? NULL : __libc_realloc(old, size);
}
