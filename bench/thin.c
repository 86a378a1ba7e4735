// Loaded into a program (LD_PRELOAD), it gives all long allocations the same memory, again and again (bench/longest.py). So a program that keeps
// 64 GiB of zero bytes keeps 64 MiB of them: what one of these allocations holds, all hold, which is as it should be as long as they hold zeros.
#define _GNU_SOURCE
#include <errno.h>
#include <pthread.h>
#include <sys/mman.h>
#include <unistd.h>

// So long are allocations at least that are given this memory, so long is it, and there are so many such allocations at most at a time.
enum { LONG = 1 << 20, WINDOW = 1 << 26, MOST = 1 << 12 };

extern void *__libc_malloc(size_t);
extern void *__libc_realloc(void *, size_t);
extern void __libc_free(void *);

static struct { char *at; size_t size; } blocks[MOST];
static pthread_mutex_t lock = PTHREAD_MUTEX_INITIALIZER;
static int memory = -1;

static void *map(size_t size) {
    if (memory < 0) {
        memory = memfd_create("thin", MFD_CLOEXEC);
        if (memory < 0 || ftruncate(memory, WINDOW)) return NULL;
    }
    char *at = mmap(NULL, size, PROT_NONE, MAP_PRIVATE | MAP_ANONYMOUS | MAP_NORESERVE, -1, 0);
    if (at == MAP_FAILED) return NULL;
    for (size_t from = 0; from < size; from += WINDOW) {
        size_t part = size - from < WINDOW ? size - from : WINDOW;
        if (mmap(at + from, part, PROT_READ | PROT_WRITE, MAP_SHARED | MAP_FIXED, memory, 0) == MAP_FAILED) {
            munmap(at, size);
            return NULL;
        }
    }
    return at;
}

static int find(void *at) {
    for (int place = 0; place < MOST; place++)
        if (blocks[place].at == at) return place;
    return -1;
}

static void *take(size_t size) {
    pthread_mutex_lock(&lock);
    int place = find(NULL);
    char *at = place < 0 ? NULL : map(size);
    if (at) {
        blocks[place].at = at;
        blocks[place].size = size;
    }
    pthread_mutex_unlock(&lock);
    if (!at) errno = ENOMEM;
    return at;
}

// How long the allocation is that has this memory; 0 where it is none of these, which then goes its own way.
static size_t size_of(void *at, int is_last) {
    if (!at) return 0;
    pthread_mutex_lock(&lock);
    int place = find(at);
    size_t size = place < 0 ? 0 : blocks[place].size;
    if (size && is_last) {
        munmap(at, size);
        blocks[place].at = NULL;
    }
    pthread_mutex_unlock(&lock);
    return size;
}

void *malloc(size_t size) {
    return size < LONG ? __libc_malloc(size) : take(size);
}

void free(void *at) {
    if (!size_of(at, 1)) __libc_free(at);
}

// Bytes are not moved from one long allocation to another: both hold zeros. One that was long is not made short again.
void *realloc(void *at, size_t size) {
    int is_long = size_of(at, 0) != 0;
    if (!is_long && size < LONG) return __libc_realloc(at, size);
    void *next = take(size);
    if (next) free(at);
    return next;
}
