/* Preloaded into a test executable, refuses the allocation of the number REFUSE_ALLOCATION, counted from 1, of one test
   process, and of no other. At the process's end it appends a line to REFUSED_LOG where it has refused one. */
#define _GNU_SOURCE
#include <dlfcn.h>
#include <errno.h>
#include <fcntl.h>
#include <stdlib.h>
#include <string.h>
#include <unistd.h>

static void *(*real_malloc)(size_t);
static void *(*real_calloc)(size_t, size_t);
static void *(*real_realloc)(void *, size_t);
static void *(*real_aligned)(size_t, size_t);
static int (*real_memalign)(void **, size_t, size_t);
static long wanted, seen;
static int armed;

static char early[4096];
static size_t early_used;

static void load(void)
{
    static int loading;
    if (real_malloc || loading)
        return;
    loading = 1;
    real_calloc = dlsym(RTLD_NEXT, "calloc");
    real_realloc = dlsym(RTLD_NEXT, "realloc");
    real_aligned = dlsym(RTLD_NEXT, "aligned_alloc");
    real_memalign = dlsym(RTLD_NEXT, "posix_memalign");
    real_malloc = dlsym(RTLD_NEXT, "malloc");
    loading = 0;
}

/* The loader's and the C library's own allocations before main are none of the program's. */
__attribute__((constructor)) static void arm(void)
{
    load();
    const char *number = getenv("REFUSE_ALLOCATION");
    wanted = number ? atol(number) : 0;
    armed = wanted > 0;
}

static void tell(void)
{
    const char *log = getenv("REFUSED_LOG");
    int fd = log ? open(log, O_WRONLY | O_CREAT | O_APPEND, 0644) : -1;
    if (fd >= 0) {
        if (write(fd, "refused\n", 8) != 8)
            abort();
        close(fd);
    }
}

static int refuses(void)
{
    if (!armed || ++seen != wanted)
        return 0;
    tell();
    errno = ENOMEM;
    return 1;
}

void *malloc(size_t size)
{
    load();
    if (!real_malloc) {
        size = (size + 15) & ~(size_t)15;
        if (early_used + size > sizeof early)
            return 0;
        early_used += size;
        return early + early_used - size;
    }
    return refuses() ? 0 : real_malloc(size);
}

void *calloc(size_t count, size_t size)
{
    load();
    if (!real_calloc) {
        void *place = malloc(count * size);
        return place ? memset(place, 0, count * size) : 0;
    }
    return refuses() ? 0 : real_calloc(count, size);
}

void *realloc(void *old, size_t size)
{
    load();
    return refuses() ? 0 : real_realloc(old, size);
}

void *aligned_alloc(size_t alignment, size_t size)
{
    load();
    return refuses() ? 0 : real_aligned(alignment, size);
}

int posix_memalign(void **place, size_t alignment, size_t size)
{
    load();
    return refuses() ? ENOMEM : real_memalign(place, alignment, size);
}
