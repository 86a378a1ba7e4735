/* Each allocation of a call fails in turn. The call answers 5, and its outputs are as they were; or it does without that memory, and gives what
   it gives with it. Nothing is left behind. Linked with --wrap=malloc and the like. */
#include "pl_csv.h"

#include <stdio.h>
#include <stdlib.h>
#include <string.h>

static long left = -1;
static size_t held;

void *__real_malloc(size_t size);
void *__real_realloc(void *at, size_t size);
void *__real_aligned_alloc(size_t align, size_t size);
int __real_posix_memalign(void **out, size_t align, size_t size);
void __real_free(void *at);

static bool fails(void) { return left >= 0 && left-- == 0; }

void *__wrap_malloc(size_t size) {
    void *at = fails() ? NULL : __real_malloc(size);
    held += at != NULL;
    return at;
}

void *__wrap_realloc(void *at, size_t size) {
    if (fails()) return NULL;
    held += !at;
    return __real_realloc(at, size);
}

void *__wrap_aligned_alloc(size_t align, size_t size) {
    void *at = fails() ? NULL : __real_aligned_alloc(align, size);
    held += at != NULL;
    return at;
}

int __wrap_posix_memalign(void **out, size_t align, size_t size) {
    if (fails()) return 12;
    int status = __real_posix_memalign(out, align, size);
    held += !status;
    return status;
}

void __wrap_free(void *at) {
    held -= at != NULL;
    __real_free(at);
}

static struct pl_csv_text text(const char *at) { return (struct pl_csv_text){(const uint8_t *)at, strlen(at)}; }

static const char input[] = "a,b,c,d\n1,x,2024-01-01,q\n2,\"y\nz\",,r\n";
static uint8_t line[64];
static size_t line_len;

/* Frees a frame where there is one, which has the input's two rows, and answers the status; 99 where the output is not as it should be. */
static uint32_t taken(uint32_t status, const struct pl_csv_frame *frame) {
    if (status) return frame->handle || frame->width != 77 || frame->height != 77 ? 99 : status;
    bool is_whole = frame->width == 4 && frame->height == 2 && frame->columns[0].numbers[1] == 2 && frame->columns[1].ends[2] == 4;
    pl_csv_free_frame(frame->handle);
    return is_whole ? 0 : 99;
}

static uint32_t whole_read(void) {
    struct pl_csv_frame frame = {NULL, NULL, 77, 77};
    struct pl_csv_text words[] = {text("--overwrite=c:date,d:category"), text("--nulls=NA,-")};
    uint32_t status = pl_csv_read((const uint8_t *)input, strlen(input), words, 2, &frame, line, sizeof line, &line_len);
    return taken(status, &frame);
}

static uint32_t part_read(void) {
    struct pl_csv_frame frame = {NULL, NULL, 77, 77};
    struct pl_csv_text words[] = {text("--schema=a:int64,b:string,c:string,d:category")};
    uint32_t status = pl_csv_read_part((const uint8_t *)input + 8, strlen(input) - 8, words, 1, 0, 9, &frame, line, sizeof line, &line_len);
    return taken(status, &frame);
}

static uint32_t schema(void) {
    struct pl_csv_bytes out = {NULL, NULL, 77};
    struct pl_csv_text words[] = {text("--dates")};
    uint32_t status = pl_csv_schema((const uint8_t *)input, strlen(input), words, 1, &out, line, sizeof line, &line_len);
    if (!status) pl_csv_free_bytes(out.handle);
    else if (out.handle || out.len != 77) return 99;
    return status;
}

static struct pl_csv_frame made;

static uint32_t write(void) {
    struct pl_csv_bytes out = {NULL, NULL, 77};
    struct pl_csv_text words[] = {text("--style=always")};
    uint32_t status = pl_csv_write(made.columns, made.width, words, 1, &out, line, sizeof line, &line_len);
    if (status) return out.handle || out.len != 77 ? 99 : status;
    static const char expected[] = "\"a\",\"b\",\"c\",\"d\"\n\"1\",\"x\",\"2024-01-01\",\"q\"\n\"2\",\"y\nz\",\"\",\"r\"\n";
    bool is_whole = out.len == strlen(expected) && !memcmp(out.at, expected, out.len);
    pl_csv_free_bytes(out.handle);
    return is_whole ? 0 : 99;
}

/* Lets each allocation of a call fail, until none is left to fail. */
static bool survives(uint32_t (*call)(void), const char *name) {
    size_t before = held;
    for (long at = 0, without = 0;; at++) {
        left = at;
        uint32_t status = call();
        bool has_failed = left < 0;
        left = -1;
        if (held != before) return printf("%s: %zu allocations are left behind at %ld\n", name, held - before, at), false;
        if (!has_failed) return printf("%s: %ld allocations, %ld of them can be done without\n", name, at, without), status == 0;
        if (status && status != 5) return printf("%s: status %u where allocation %ld fails\n", name, status, at), false;
        without += !status;
    }
}

int main(void) {
    struct pl_csv_text words[] = {text("--overwrite=c:date,d:category")};
    if (pl_csv_read((const uint8_t *)input, strlen(input), words, 1, &made, line, sizeof line, &line_len)) return 1;
    bool is_well = survives(whole_read, "read") & survives(part_read, "read_part") & survives(schema, "schema") & survives(write, "write");
    pl_csv_free_frame(made.handle);
    return !is_well;
}
