/* A small reader of Arrow's C data interface: a line for each column, its name, its format and its cells. */
#include <inttypes.h>
#include <stdint.h>
#include <stdio.h>
#include <string.h>

struct ArrowSchema {
    const char *format, *name, *metadata;
    int64_t flags, n_children;
    struct ArrowSchema **children, *dictionary;
    void (*release)(struct ArrowSchema *);
    void *private_data;
};

struct ArrowArray {
    int64_t length, null_count, offset, n_buffers, n_children;
    const void **buffers;
    struct ArrowArray **children, *dictionary;
    void (*release)(struct ArrowArray *);
    void *private_data;
};

struct out {
    char *at;
    size_t room, len;
};

#define PUT(out, ...) ((out)->len += (size_t)snprintf((out)->at + (out)->len, (out)->room - (out)->len, __VA_ARGS__))

static int bit(const void *bits, int64_t at) { return ((const uint8_t *)bits)[at / 8] >> (at % 8) & 1; }

static void put_text(struct out *out, const struct ArrowArray *array, int64_t row) {
    const int64_t *ends = array->buffers[1];
    PUT(out, "%.*s", (int)(ends[row + 1] - ends[row]), (const char *)array->buffers[2] + ends[row]);
}

static void put_value(struct out *out, const char *format, const struct ArrowArray *array, int64_t row) {
    const void *values = array->buffers[1];
    if (array->dictionary) put_text(out, array->dictionary, ((const int64_t *)values)[row]);
    else if (format[0] == 'U') put_text(out, array, row);
    else if (format[0] == 'b') PUT(out, "%d", bit(values, row));
    else if (format[0] == 'c') PUT(out, "%d", ((const int8_t *)values)[row]);
    else if (format[0] == 'C') PUT(out, "%d", ((const uint8_t *)values)[row]);
    else if (format[0] == 's') PUT(out, "%d", ((const int16_t *)values)[row]);
    else if (format[0] == 'S') PUT(out, "%d", ((const uint16_t *)values)[row]);
    else if (format[0] == 'i' || !strcmp(format, "tdD")) PUT(out, "%" PRId32, ((const int32_t *)values)[row]);
    else if (format[0] == 'I') PUT(out, "%" PRIu32, ((const uint32_t *)values)[row]);
    else if (format[0] == 'L') PUT(out, "%" PRIu64, ((const uint64_t *)values)[row]);
    else if (format[0] == 'd') PUT(out, "%" PRId64, (int64_t)((const __int128 *)values)[row]);
    else PUT(out, "%" PRId64, ((const int64_t *)values)[row]);
}

/* Puts what a struct array holds into out, and returns how many bytes that are. */
size_t read(const struct ArrowSchema *schema, const struct ArrowArray *array, char *at, size_t room) {
    struct out out = {at, room, 0};
    for (int64_t it = 0; it < array->n_children; it++) {
        const struct ArrowArray *column = array->children[it];
        PUT(&out, "%s %s:", schema->children[it]->name, schema->children[it]->format);
        for (int64_t row = 0; row < column->length; row++) {
            PUT(&out, " ");
            int is_null = column->n_buffers && column->buffers[0] && !bit(column->buffers[0], row);
            if (is_null || !column->n_buffers) PUT(&out, "null");
            else put_value(&out, schema->children[it]->format, column, row);
        }
        PUT(&out, "\n");
    }
    return out.len;
}
