/* Refuses one allocation of a program, or all from one on: for dev/refuse, which loads it before the C library.
 *
 * REFUSE_TALLY names a file of two numbers of 64 bits, which is mapped: how many allocations there were so far, and how many
 * were refused. REFUSE_AT is the number of the allocation to refuse, from 1 on (0 for none), and REFUSE_ALL, where it is
 * set, says that all behind it are refused too. A thread that is made counts as an allocation.
 */
#define _GNU_SOURCE
#include <dlfcn.h>
#include <errno.h>
#include <fcntl.h>
#include <pthread.h>
#include <stddef.h>
#include <stdint.h>
#include <stdlib.h>
#include <sys/mman.h>
#include <unistd.h>

extern void *__libc_malloc(size_t size);
extern void *__libc_calloc(size_t many, size_t size);
extern void *__libc_realloc(void *old, size_t size);
extern void *__libc_memalign(size_t alignment, size_t size);

static uint64_t *tally;
static uint64_t refused_at;
static int refuses_all;

__attribute__((constructor)) static void begin(void) {
    const char *path = getenv("REFUSE_TALLY"), *at = getenv("REFUSE_AT");
    int file = path ? open(path, O_RDWR | O_CLOEXEC) : -1;
    if (file < 0) return;
    void *place = mmap(NULL, 16, PROT_READ | PROT_WRITE, MAP_SHARED, file, 0);
    close(file);
    if (place == MAP_FAILED) return;
    refused_at = at ? strtoull(at, NULL, 10) : 0;
    refuses_all = getenv("REFUSE_ALL") != NULL;
    tally = place;
}

/* Counts an allocation, and says whether it is refused. What comes before `begin` is the C library's own start. */
static int is_refused(void) {
    if (!tally) return 0;
    uint64_t number = __atomic_add_fetch(&tally[0], 1, __ATOMIC_RELAXED);
    if (!refused_at || number < refused_at || (number > refused_at && !refuses_all)) return 0;
    __atomic_add_fetch(&tally[1], 1, __ATOMIC_RELAXED);
    errno = ENOMEM;
    return 1;
}

void *malloc(size_t size) { return is_refused() ? NULL : __libc_malloc(size); }

void *calloc(size_t many, size_t size) { return is_refused() ? NULL : __libc_calloc(many, size); }

void *realloc(void *old, size_t size) { return is_refused() ? NULL : __libc_realloc(old, size); }

void *memalign(size_t alignment, size_t size) { return is_refused() ? NULL : __libc_memalign(alignment, size); }

void *aligned_alloc(size_t alignment, size_t size) { return is_refused() ? NULL : __libc_memalign(alignment, size); }

int posix_memalign(void **place, size_t alignment, size_t size) {
    if (is_refused()) return ENOMEM;
    *place = __libc_memalign(alignment, size);
    return *place ? 0 : ENOMEM;
}

int pthread_create(pthread_t *thread, const pthread_attr_t *how, void *(*start)(void *), void *argument) {
    static int (*create)(pthread_t *, const pthread_attr_t *, void *(*)(void *), void *);
    if (!create) *(void **)&create = dlsym(RTLD_NEXT, "pthread_create");
    return is_refused() ? EAGAIN : create(thread, how, start, argument);
}
