// Loaded into a program (LD_PRELOAD), it has numbered calls of the system fail, and counts them (bench/refused.py).
//
//     REFUSE="memory:7"            the seventh allocation fails
//     REFUSE="input:2- thread:1"   every read of standard input from the second on fails, and the first start of a thread
//     REFUSE="input:3! output:1!"  those calls are interrupted (EINTR) and can be made again
//     REFUSE_SHORT=1               each read and write moves one byte
//     REFUSE_COUNTS=FILE           the numbers of calls go to this file when the program ends
//
// The kinds are memory (malloc, realloc), input, output and errors (read and write of 0, 1 and 2), and thread.
#define _GNU_SOURCE
#include <dlfcn.h>
#include <errno.h>
#include <fcntl.h>
#include <limits.h>
#include <pthread.h>
#include <stdatomic.h>
#include <stdio.h>
#include <stdlib.h>
#include <string.h>
#include <sys/syscall.h>
#include <unistd.h>

enum kind { MEMORY, INPUT, OUTPUT, ERRORS, THREAD, KINDS };

static const char *const names[KINDS] = {"memory", "input", "output", "errors", "thread"};
static atomic_long calls[KINDS];
static long first[KINDS], last[KINDS];
static int interrupts[KINDS], is_short, is_ready;

extern void *__libc_malloc(size_t);
extern void *__libc_realloc(void *, size_t);

static int fails(enum kind kind) {
    if (!is_ready) return 0;
    long call = atomic_fetch_add(&calls[kind], 1) + 1;
    return first[kind] && call >= first[kind] && call <= last[kind];
}

void *malloc(size_t size) {
    if (!fails(MEMORY)) return __libc_malloc(size);
    errno = ENOMEM;
    return NULL;
}

void *realloc(void *memory, size_t size) {
    if (!fails(MEMORY)) return __libc_realloc(memory, size);
    errno = ENOMEM;
    return NULL;
}

static ssize_t move(enum kind kind, long number, int file, void *bytes, size_t size) {
    if (kind != KINDS && fails(kind)) {
        errno = interrupts[kind] ? EINTR : EIO;
        return -1;
    }
    return syscall(number, file, bytes, is_short && size > 1 ? 1 : size);
}

ssize_t read(int file, void *bytes, size_t size) {
    return move(file == 0 ? INPUT : KINDS, SYS_read, file, bytes, size);
}

ssize_t write(int file, const void *bytes, size_t size) {
    return move(file == 1 ? OUTPUT : file == 2 ? ERRORS : KINDS, SYS_write, file, (void *)bytes, size);
}

ssize_t __write(int file, const void *bytes, size_t size) {
    return write(file, bytes, size);
}

int pthread_create(pthread_t *thread, const pthread_attr_t *with, void *(*start)(void *), void *given) {
    if (fails(THREAD)) return EAGAIN;
    int (*real)(pthread_t *, const pthread_attr_t *, void *(*)(void *), void *) = dlsym(RTLD_NEXT, "pthread_create");
    return real(thread, with, start, given);
}

static void tell(void) {
    const char *path = getenv("REFUSE_COUNTS");
    if (!is_ready || !path) return;
    is_ready = 0;
    char text[256];
    int size = 0;
    for (int kind = 0; kind < KINDS; kind++)
        size += snprintf(text + size, sizeof text - size, "%s %ld\n", names[kind], calls[kind]);
    int file = open(path, O_WRONLY | O_CREAT | O_TRUNC, 0600);
    if (file >= 0) {
        syscall(SYS_write, file, text, size);
        close(file);
    }
}

void _exit(int status) {
    tell();
    for (;;) syscall(SYS_exit_group, status);
}

__attribute__((destructor)) static void end(void) {
    tell();
}

__attribute__((constructor)) static void begin(void) {
    for (const char *part = getenv("REFUSE"); part && *part; part = strchr(part, ' ') ? strchr(part, ' ') + 1 : NULL)
        for (int kind = 0; kind < KINDS; kind++) {
            size_t length = strlen(names[kind]);
            if (strncmp(part, names[kind], length) || part[length] != ':') continue;
            char *behind;
            first[kind] = strtol(part + length + 1, &behind, 10);
            last[kind] = *behind == '-' ? LONG_MAX : first[kind];
            interrupts[kind] = *behind == '!';
        }
    is_short = getenv("REFUSE_SHORT") != NULL;
    is_ready = 1;
}
