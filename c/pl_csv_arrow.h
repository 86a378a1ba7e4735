/* Frames of libpl_csv by Arrow's C data interface, and owners that several holders share. This part is C, and is not proved. */
#ifndef PL_CSV_ARROW_H
#define PL_CSV_ARROW_H
#include "pl_csv.h"

#ifdef __cplusplus
extern "C" {
#endif

#ifndef ARROW_C_DATA_INTERFACE
#define ARROW_C_DATA_INTERFACE

#define ARROW_FLAG_DICTIONARY_ORDERED 1
#define ARROW_FLAG_NULLABLE 2

struct ArrowSchema {
    const char *format, *name, *metadata;
    int64_t flags, n_children;
    struct ArrowSchema **children, *dictionary;
    void (*release)(struct ArrowSchema *);
    void *private_data;
};

struct ArrowArray {
    int64_t length, null_count, offset, n_buffers, n_children;
    const void **buffers;
    struct ArrowArray **children, *dictionary;
    void (*release)(struct ArrowArray *);
    void *private_data;
};
#endif

/* An owner of a frame's handle, with one holder. The handle is freed when its last holder lets go. Null: out of memory, and the
   handle is still the caller's. */
struct pl_csv_shared *pl_csv_shared_new(uint8_t *handle);
/* One holder more. */
void pl_csv_shared_hold(struct pl_csv_shared *shared);
/* One holder fewer. */
void pl_csv_shared_drop(struct pl_csv_shared *shared);

/* The schema of a frame: a struct with a child for each column. Null: out of memory. It does not need the frame afterwards. */
struct ArrowSchema *pl_csv_arrow_schema_new(const struct pl_csv_frame *frame);
/* The columns of a frame: an array of structs without nulls. Each child holds the owner until it is released.
   Null: out of memory, or a value that the type of Arrow can't tell (a datetime in nanoseconds outside 64 bits, a number of more than 38
   digits). Nothing is held then. */
struct ArrowArray *pl_csv_arrow_array_new(const struct pl_csv_frame *frame, struct pl_csv_shared *shared);
/* Releases what was not moved out of it, and frees the structure itself. */
void pl_csv_arrow_schema_free(struct ArrowSchema *schema);
void pl_csv_arrow_array_free(struct ArrowArray *array);

#ifdef __cplusplus
}
#endif
#endif
