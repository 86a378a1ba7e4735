/* Frames by Arrow's C data interface: https://arrow.apache.org/docs/format/CDataInterface.html. The library is proved and can't hand out
   pointers to functions, as the interface asks for, so this part is C. Shown without a copy: whole numbers of 64 bits, times, datetimes in
   milli- and microseconds, decimals, numbers of 128 bits, places of categories, texts. Made anew: narrower numbers, dates, truth values,
   datetimes in nanoseconds, and the bits that tell nulls, where there are any. */
#include "pl_csv_arrow.h"

#include <stdatomic.h>
#include <stdio.h>
#include <stdlib.h>
#include <string.h>

/* ---- owners ---- */

struct pl_csv_shared {
    atomic_size_t holders;
    uint8_t *handle;
};

struct pl_csv_shared *pl_csv_shared_new(uint8_t *handle) {
    struct pl_csv_shared *shared = malloc(sizeof *shared);
    if (shared) {
        atomic_init(&shared->holders, 1);
        shared->handle = handle;
    }
    return shared;
}

void pl_csv_shared_hold(struct pl_csv_shared *shared) { atomic_fetch_add_explicit(&shared->holders, 1, memory_order_relaxed); }

void pl_csv_shared_drop(struct pl_csv_shared *shared) {
    if (atomic_fetch_sub_explicit(&shared->holders, 1, memory_order_acq_rel) == 1) {
        pl_csv_free_frame(shared->handle);
        free(shared);
    }
}

/* ---- schemas ---- */

static void release_schema(struct ArrowSchema *schema) {
    for (int64_t child = 0; child < schema->n_children; child++) {
        struct ArrowSchema *it = schema->children[child];
        if (it && it->release) it->release(it);
        free(it);
    }
    if (schema->dictionary) {
        if (schema->dictionary->release) schema->dictionary->release(schema->dictionary);
        free(schema->dictionary);
    }
    free(schema->children);
    free((char *)schema->name);
    free((char *)schema->format);
    schema->release = NULL;
}

/* A copy that ends with a zero byte. A zero byte inside ends it too. */
static char *text_of(const void *at, size_t len) {
    char *text = malloc(len + 1);
    if (text) {
        memcpy(text, at, len);
        text[len] = 0;
    }
    return text;
}

static struct ArrowSchema *new_schema(const char *format, const void *name, size_t len, int64_t flags) {
    struct ArrowSchema *schema = calloc(1, sizeof *schema);
    if (!schema) return NULL;
    schema->release = release_schema;
    schema->flags = flags;
    schema->format = text_of(format, strlen(format));
    schema->name = text_of(name, len);
    if (schema->format && schema->name) return schema;
    pl_csv_arrow_schema_free(schema);
    return NULL;
}

/* The format of a column, in Arrow's letters. */
static void put_format(const struct pl_csv_column *column, char *out, size_t room) {
    static const char *const of_type[] = {
        [PL_CSV_BOOLEAN] = "b", [PL_CSV_INT8] = "c", [PL_CSV_INT16] = "s", [PL_CSV_INT32] = "i", [PL_CSV_INT64] = "l",
        [PL_CSV_INT128] = "d:38,0", [PL_CSV_UINT8] = "C", [PL_CSV_UINT16] = "S", [PL_CSV_UINT32] = "I", [PL_CSV_UINT64] = "L",
        [PL_CSV_STRING] = "U", [PL_CSV_CATEGORICAL] = "l", [PL_CSV_ENUM] = "l", [PL_CSV_DATE] = "tdD", [PL_CSV_TIME] = "ttn",
        [PL_CSV_NULL] = "n",
    };
    static const char *const of_unit[] = {"tsm:", "tsu:", "tsn:"};
    if (column->type == PL_CSV_DATETIME)
        snprintf(out, room, "%s", of_unit[column->unit]);
    else if (column->type == PL_CSV_DECIMAL)
        snprintf(out, room, "d:%u,%u", column->precision ? column->precision : 38, column->scale);
    else
        snprintf(out, room, "%s", of_type[column->type]);
}

static bool has_categories(const struct pl_csv_column *column) {
    return column->type == PL_CSV_CATEGORICAL || column->type == PL_CSV_ENUM;
}

static struct ArrowSchema *schema_of(const struct pl_csv_column *column) {
    char format[32];
    put_format(column, format, sizeof format);
    int64_t flags = ARROW_FLAG_NULLABLE | (column->type == PL_CSV_ENUM ? ARROW_FLAG_DICTIONARY_ORDERED : 0);
    struct ArrowSchema *schema = new_schema(format, column->name.at, column->name.len, flags);
    if (schema && has_categories(column) && !(schema->dictionary = new_schema("U", "", 0, 0))) {
        pl_csv_arrow_schema_free(schema);
        return NULL;
    }
    return schema;
}

struct ArrowSchema *pl_csv_arrow_schema_new(const struct pl_csv_frame *frame) {
    struct ArrowSchema *schema = new_schema("+s", "", 0, 0);
    if (!schema) return NULL;
    schema->children = calloc(frame->width + 1, sizeof *schema->children);
    for (size_t it = 0; schema->children && it < frame->width; it++) {
        if (!(schema->children[it] = schema_of(&frame->columns[it]))) break;
        schema->n_children++;
    }
    if (schema->children && (size_t)schema->n_children == frame->width) return schema;
    pl_csv_arrow_schema_free(schema);
    return NULL;
}

void pl_csv_arrow_schema_free(struct ArrowSchema *schema) {
    if (schema && schema->release) schema->release(schema);
    free(schema);
}

/* ---- arrays ---- */

/* What an array keeps: its list of buffers, the buffers that were made for it, and the owner of those that were not. */
struct kept {
    const void *buffers[3];
    void *made[3];
    struct pl_csv_shared *shared;
};

static void release_array(struct ArrowArray *array) {
    struct kept *kept = array->private_data;
    for (int64_t child = 0; child < array->n_children; child++) {
        struct ArrowArray *it = array->children[child];
        if (it && it->release) it->release(it);
        free(it);
    }
    if (array->dictionary) {
        if (array->dictionary->release) array->dictionary->release(array->dictionary);
        free(array->dictionary);
    }
    free(array->children);
    for (int it = 0; it < 3; it++) free(kept->made[it]);
    if (kept->shared) pl_csv_shared_drop(kept->shared);
    free(kept);
    array->release = NULL;
}

static struct ArrowArray *new_array(size_t length, size_t null_count, int64_t buffers, struct pl_csv_shared *shared) {
    struct ArrowArray *array = calloc(1, sizeof *array);
    struct kept *kept = calloc(1, sizeof *kept);
    if (!array || !kept) {
        free(array);
        free(kept);
        return NULL;
    }
    array->length = (int64_t)length;
    array->null_count = (int64_t)null_count;
    array->n_buffers = buffers;
    array->buffers = kept->buffers;
    array->private_data = kept;
    array->release = release_array;
    if (shared) {
        pl_csv_shared_hold(shared);
        kept->shared = shared;
    }
    return array;
}

/* A buffer of an array that is made for it. Null: out of memory. */
static void *made_buffer(struct ArrowArray *array, int place, size_t bytes) {
    struct kept *kept = array->private_data;
    kept->made[place] = calloc(bytes ? bytes : 1, 1);
    kept->buffers[place] = kept->made[place];
    return kept->made[place];
}

static void show_buffer(struct ArrowArray *array, int place, const void *at) {
    struct kept *kept = array->private_data;
    kept->buffers[place] = at;
}

static void put_bits(uint8_t *bits, const bool *flags, size_t len) {
    for (size_t it = 0; it < len; it++) bits[it / 8] |= (uint8_t)(flags[it] << (it % 8));
}

static bool put_presence(struct ArrowArray *array, const struct pl_csv_column *column) {
    if (!column->null_count) return true;
    uint8_t *bits = made_buffer(array, 0, (column->present_len + 7) / 8);
    if (bits) put_bits(bits, column->present, column->present_len);
    return bits;
}

/* The bytes of a number in Arrow, where they are fewer than those that the column has. */
static size_t narrow_width(uint32_t type) {
    switch (type) {
    case PL_CSV_INT8: case PL_CSV_UINT8: return 1;
    case PL_CSV_INT16: case PL_CSV_UINT16: return 2;
    case PL_CSV_INT32: case PL_CSV_UINT32: case PL_CSV_DATE: return 4;
    default: return 0;
    }
}

static bool put_narrow(struct ArrowArray *array, const struct pl_csv_column *column, size_t width) {
    uint8_t *out = made_buffer(array, 1, width * column->numbers_len);
    for (size_t it = 0; out && it < column->numbers_len; it++) memcpy(out + width * it, &column->numbers[it], width);
    return out;
}

static bool put_truths(struct ArrowArray *array, const struct pl_csv_column *column) {
    uint8_t *bits = made_buffer(array, 1, (column->numbers_len + 7) / 8);
    for (size_t it = 0; bits && it < column->numbers_len; it++) bits[it / 8] |= (uint8_t)((column->numbers[it] != 0) << (it % 8));
    return bits;
}

/* The low words of wide numbers, which have to be all of them: without a sign, or with that of 64 bits. */
static bool put_low_words(struct ArrowArray *array, const struct pl_csv_column *column, bool has_sign) {
    size_t len = column->words_len / 2;
    uint64_t *out = made_buffer(array, 1, 8 * len);
    for (size_t it = 0; out && it < len; it++) {
        uint64_t low = column->words[2 * it], high = column->words[2 * it + 1];
        if (high != (has_sign && low >> 63 ? UINT64_MAX : 0)) return false;
        out[it] = low;
    }
    return out;
}

/* Whether each number has at most 38 digits, which is what Arrow's decimals tell. */
static bool have_38_digits(const struct pl_csv_column *column) {
    const __int128 most = (__int128)10000000000000000000ULL * 10000000000000000000ULL - 1;
    for (size_t it = 0; it < column->words_len / 2; it++) {
        __int128 number = (__int128)(((unsigned __int128)column->words[2 * it + 1] << 64) | column->words[2 * it]);
        if (number > most || number < -most) return false;
    }
    return true;
}

static bool put_values(struct ArrowArray *array, const struct pl_csv_column *column) {
    size_t width = narrow_width(column->type);
    if (width) return put_narrow(array, column, width);
    if (column->type == PL_CSV_BOOLEAN) return put_truths(array, column);
    if (column->type == PL_CSV_UINT64) return put_low_words(array, column, false);
    if (column->type == PL_CSV_DATETIME && column->unit == PL_CSV_NANOSECONDS) return put_low_words(array, column, true);
    if (column->type == PL_CSV_STRING) {
        show_buffer(array, 1, column->ends);
        show_buffer(array, 2, column->bytes);
        return true;
    }
    if (column->type == PL_CSV_DECIMAL || column->type == PL_CSV_INT128) {
        show_buffer(array, 1, column->words);
        return have_38_digits(column);
    }
    show_buffer(array, 1, column->numbers);
    return true;
}

/* The texts of categories, one behind the other. */
static struct ArrowArray *dictionary_of(const struct pl_csv_column *column) {
    size_t bytes = 0;
    for (size_t it = 0; it < column->categories_len; it++) bytes += column->categories[it].len;
    struct ArrowArray *array = new_array(column->categories_len, 0, 3, NULL);
    if (!array) return NULL;
    int64_t *ends = made_buffer(array, 1, 8 * (column->categories_len + 1));
    uint8_t *out = made_buffer(array, 2, bytes);
    if (!ends || !out) {
        pl_csv_arrow_array_free(array);
        return NULL;
    }
    for (size_t it = 0; it < column->categories_len; it++) {
        memcpy(out + ends[it], column->categories[it].at, column->categories[it].len);
        ends[it + 1] = ends[it] + (int64_t)column->categories[it].len;
    }
    return array;
}

static struct ArrowArray *array_of(const struct pl_csv_column *column, struct pl_csv_shared *shared) {
    if (column->type == PL_CSV_NULL) return new_array(column->present_len, column->present_len, 0, NULL);
    struct ArrowArray *array = new_array(column->present_len, column->null_count, column->type == PL_CSV_STRING ? 3 : 2, shared);
    if (!array) return NULL;
    bool is_whole = put_presence(array, column) && put_values(array, column);
    if (is_whole && (!has_categories(column) || (array->dictionary = dictionary_of(column)))) return array;
    pl_csv_arrow_array_free(array);
    return NULL;
}

struct ArrowArray *pl_csv_arrow_array_new(const struct pl_csv_frame *frame, struct pl_csv_shared *shared) {
    struct ArrowArray *array = new_array(frame->height, 0, 1, NULL);
    if (!array) return NULL;
    array->children = calloc(frame->width + 1, sizeof *array->children);
    for (size_t it = 0; array->children && it < frame->width; it++) {
        if (!(array->children[it] = array_of(&frame->columns[it], shared))) break;
        array->n_children++;
    }
    if (array->children && (size_t)array->n_children == frame->width) return array;
    pl_csv_arrow_array_free(array);
    return NULL;
}

void pl_csv_arrow_array_free(struct ArrowArray *array) {
    if (array && array->release) array->release(array);
    free(array);
}
