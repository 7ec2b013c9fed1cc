/* Lets one call of the program fail: that of the kind in RAIL_FAULT_KIND with the number in RAIL_FAULT_AT, counted from 1.
   How many calls of each kind there were is written to the file in RAIL_FAULT_COUNTS at the end.

   Kinds: memory (malloc, calloc, realloc and aligned ones), open, read, write (to standard output). `interrupt` in
   RAIL_FAULT_ERROR lets it fail as interrupted by a signal, and `short` moves one byte alone. */

#define _GNU_SOURCE
#include <dlfcn.h>
#include <errno.h>
#include <fcntl.h>
#include <stdarg.h>
#include <stdio.h>
#include <stdlib.h>
#include <string.h>
#include <sys/uio.h>
#include <unistd.h>

enum kind { MEMORY, OPEN, READ, WRITE, KINDS };

static const char *const NAMES[KINDS] = {"memory", "open", "read", "write"};
static long counts[KINDS], at;
static int kind = -1, is_armed;

static void __attribute__((constructor)) begin(void)
{
    const char *name = getenv("RAIL_FAULT_KIND"), *number = getenv("RAIL_FAULT_AT");
    for (int each = 0; name && each < KINDS; each++)
        if (!strcmp(name, NAMES[each]))
            kind = each;
    at = number ? atol(number) : 0;
    is_armed = 1;
}

static void __attribute__((destructor)) end(void)
{
    const char *name = getenv("RAIL_FAULT_COUNTS");
    is_armed = 0;
    FILE *file = name ? fopen(name, "w") : NULL;
    if (!file)
        return;
    for (int each = 0; each < KINDS; each++)
        fprintf(file, "%s %ld\n", NAMES[each], counts[each]);
    fclose(file);
}

/* Whether this call, of that kind, is the one that fails. */
static int fails(enum kind which)
{
    return is_armed && ++counts[which] == at && kind == (int)which;
}

static int is_asked(const char *error)
{
    const char *wanted = getenv("RAIL_FAULT_ERROR");
    return wanted && !strcmp(wanted, error);
}

#define REAL(name) ((__typeof__(&name))dlsym(RTLD_NEXT, #name))

void *malloc(size_t size)
{
    extern void *__libc_malloc(size_t);
    return fails(MEMORY) ? (errno = ENOMEM, NULL) : __libc_malloc(size);
}

void *calloc(size_t count, size_t size)
{
    extern void *__libc_calloc(size_t, size_t);
    return fails(MEMORY) ? (errno = ENOMEM, NULL) : __libc_calloc(count, size);
}

void *realloc(void *old, size_t size)
{
    extern void *__libc_realloc(void *, size_t);
    return fails(MEMORY) ? (errno = ENOMEM, NULL) : __libc_realloc(old, size);
}

void *aligned_alloc(size_t alignment, size_t size)
{
    extern void *__libc_memalign(size_t, size_t);
    return fails(MEMORY) ? (errno = ENOMEM, NULL) : __libc_memalign(alignment, size);
}

int posix_memalign(void **into, size_t alignment, size_t size)
{
    extern void *__libc_memalign(size_t, size_t);
    if (fails(MEMORY))
        return ENOMEM;
    *into = __libc_memalign(alignment, size);
    return *into ? 0 : ENOMEM;
}

int openat(int folder, const char *name, int flags, ...)
{
    va_list rest;
    va_start(rest, flags);
    mode_t mode = va_arg(rest, mode_t);
    va_end(rest);
    if (fails(OPEN))
        return errno = EACCES, -1;
    return REAL(openat)(folder, name, flags, mode);
}

ssize_t read(int from, void *into, size_t size)
{
    if (fails(READ)) {
        if (is_asked("short"))
            return REAL(read)(from, into, size ? 1 : 0);
        return errno = is_asked("interrupt") ? EINTR : EIO, -1;
    }
    return REAL(read)(from, into, size);
}

ssize_t write(int to, const void *bytes, size_t size)
{
    if (to == 1 && fails(WRITE)) {
        if (is_asked("short"))
            return REAL(write)(to, bytes, size ? 1 : 0);
        return errno = is_asked("interrupt") ? EINTR : ENOSPC, -1;
    }
    return REAL(write)(to, bytes, size);
}

ssize_t writev(int to, const struct iovec *pieces, int count)
{
    if (to == 1 && fails(WRITE))
        return errno = is_asked("interrupt") ? EINTR : ENOSPC, -1;
    return REAL(writev)(to, pieces, count);
}
