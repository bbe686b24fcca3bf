/*
 * Preloaded into a program, counts its requests for memory and refuses one of them, or some in a row.
 *
 *     cc -shared -fPIC -O1 -o refuse_memory.so tests/refuse_memory.c
 *     REFUSE_AT=7 REFUSE_COUNTS=FILE LD_PRELOAD=./refuse_memory.so PROGRAM ..
 *
 * REFUSE_AT    the number, from 1, of the request that gets no memory; 0 or none: no request
 * REFUSE_HOW_MANY  how many from that one on get none; 1 where it is not set
 * REFUSE_COUNTS  a file that holds two numbers of 64 bits, in the machine's own order, which
 *              stand at each moment: how many requests there were, and how many were refused
 *
 * A request is a call of malloc, calloc, realloc or of one of the aligned kinds, from the time that
 * the shared objects are loaded. A call of realloc with size 0 gives memory back and is none. The
 * counts stand in a mapped file, so that no way to end a run loses them.
 */
#include <errno.h>
#include <fcntl.h>
#include <stddef.h>
#include <stdint.h>
#include <stdlib.h>
#include <sys/mman.h>
#include <unistd.h>

extern void *__libc_malloc(size_t size);
extern void *__libc_calloc(size_t count, size_t size);
extern void *__libc_realloc(void *old, size_t size);
extern void *__libc_memalign(size_t alignment, size_t size);

static uint64_t here[2];
static uint64_t *counts; /* none until the shared objects are loaded */
static uint64_t refused_at;
static uint64_t how_many = 1;

__attribute__((constructor)) static void begin(void) {
    const char *at = getenv("REFUSE_AT");
    const char *many = getenv("REFUSE_HOW_MANY");
    const char *file = getenv("REFUSE_COUNTS");
    uint64_t *shared = here;
    if (at != NULL)
        refused_at = strtoull(at, NULL, 10);
    if (many != NULL)
        how_many = strtoull(many, NULL, 10);
    if (file != NULL) {
        int descriptor = open(file, O_RDWR | O_CREAT | O_CLOEXEC, 0600);
        void *mapped = MAP_FAILED;
        if (descriptor >= 0 && ftruncate(descriptor, sizeof here) == 0)
            mapped = mmap(NULL, sizeof here, PROT_READ | PROT_WRITE, MAP_SHARED, descriptor, 0);
        if (mapped == MAP_FAILED)
            _exit(99);
        close(descriptor);
        shared = mapped;
    }
    counts = shared;
}

/* Whether this request is to get no memory. */
static int is_refused(void) {
    uint64_t number;
    if (counts == NULL)
        return 0;
    number = __atomic_add_fetch(&counts[0], 1, __ATOMIC_RELAXED);
    if (refused_at == 0 || number < refused_at || number - refused_at >= how_many)
        return 0;
    __atomic_add_fetch(&counts[1], 1, __ATOMIC_RELAXED);
    errno = ENOMEM;
    return 1;
}

void *malloc(size_t size) { return is_refused() ? NULL : __libc_malloc(size); }

void *calloc(size_t count, size_t size) { return is_refused() ? NULL : __libc_calloc(count, size); }

void *realloc(void *old, size_t size) {
    if (old != NULL && size == 0)
        return __libc_realloc(old, size);
    return is_refused() ? NULL : __libc_realloc(old, size);
}

void *reallocarray(void *old, size_t count, size_t size) {
    size_t bytes;
    if (__builtin_mul_overflow(count, size, &bytes)) {
        errno = ENOMEM;
        return NULL;
    }
    return realloc(old, bytes);
}

void *memalign(size_t alignment, size_t size) {
    return is_refused() ? NULL : __libc_memalign(alignment, size);
}

void *aligned_alloc(size_t alignment, size_t size) { return memalign(alignment, size); }

int posix_memalign(void **place, size_t alignment, size_t size) {
    int before = errno;
    void *memory;
    if (alignment < sizeof(void *) || (alignment & (alignment - 1)) != 0)
        return EINVAL;
    memory = memalign(alignment, size);
    errno = before;
    if (memory == NULL)
        return ENOMEM;
    *place = memory;
    return 0;
}
