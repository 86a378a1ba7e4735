/* libpl_csv: CSV into frames of arrays, and arrays into CSV.

   The calls are proved; the clauses stand in crates/pl_csv_c. They tell the status, the fault line, that outputs stay as they were, the shape of a
   frame and the length of bytes. What stands in the arrays and the bytes is proved of the functions that make them; that a pointer shows it is
   only tested. What a caller has to keep, nothing proves:

   - No pointer is null, also where the length beside it is 0. Each length is that of memory that can be read, or, of an output, written, and
     is below 2^63 bytes.
   - Nobody writes an input while a call reads it. An output lies outside the inputs and outside the other outputs.
   - A bool is 0 or 1.
   - A handle is freed once, by the call for it, after the last look at what it holds; the views of a frame stand until then.
   - The stack is that of a thread as the system makes it (8 MiB), and no call is made from a signal handler, or from a forked child of a
     process that has threads.

   No call starts a thread, waits, or keeps anything for a later one. So calls can be made side by side, and one frame can be read by several
   threads. Memory is taken by malloc.

   How an input is read, and how a frame is written, is told by words: those of the program `pl_csv` (docs/command-line.md), such as
   "--sep=;". A making job (`--make`) is no meaning here, and --workers, --piece and --batch change nothing.

   A call that has a status answers 0, or a status of the program (docs/command-line.md, "Statuses"):

       2  the words have no meaning, or one is not UTF-8
       5  memory ran out
      11 to 25  the first cause that stands against the input, in the order of that page

   On anything but 0 the outputs are as they were, but for the fault line, which is the program's, without a line feed: its first bytes
   are put into `line`, as many as there is `room` for, and its whole length into `line_len`. At 0 `line_len` is 0. */
#ifndef PL_CSV_H
#define PL_CSV_H

#include <stdbool.h>
#include <stddef.h>
#include <stdint.h>

#ifdef __cplusplus
extern "C" {
#endif

/* A text: a word, a name, a category. */
struct pl_csv_text {
    const uint8_t *at;
    size_t len;
};

/* The types of columns. */
enum pl_csv_type {
    PL_CSV_BOOLEAN,
    PL_CSV_INT8,
    PL_CSV_INT16,
    PL_CSV_INT32,
    PL_CSV_INT64,
    PL_CSV_INT128,
    PL_CSV_UINT8,
    PL_CSV_UINT16,
    PL_CSV_UINT32,
    PL_CSV_UINT64,
    PL_CSV_STRING,
    PL_CSV_CATEGORICAL,
    PL_CSV_ENUM,
    PL_CSV_DATE,
    PL_CSV_TIME,
    PL_CSV_DATETIME,
    PL_CSV_DECIMAL,
    PL_CSV_NULL
};

/* The unit of a datetime. */
enum pl_csv_unit { PL_CSV_MILLISECONDS, PL_CSV_MICROSECONDS, PL_CSV_NANOSECONDS };

/* A column: a view of one of a frame, or one that the caller makes. Each array is a pointer and the number of its elements; those that a type
   does not have are of length 0.

       present          each type: a row each, 1 where there is a value, 0 at a null
       numbers          BOOLEAN (0, 1), INT8 to INT64, UINT8 to UINT32, DATE (days from 1970-01-01), TIME (nanoseconds of the day),
                        DATETIME in milli- and microseconds from 1970-01-01T00:00:00, CATEGORICAL and ENUM (a place in `categories`):
                        a number a row, 0 at a null
       words            INT128, UINT64, DECIMAL (the value times 10^scale), DATETIME in nanoseconds: two words a row, the low one first, in
                        two's complement, 0 at a null
       ends, bytes      STRING: the text of row k is bytes[ends[k]] up to bytes[ends[k + 1]], in UTF-8, empty at a null; there is one end
                        more than rows, and the first is 0
       categories       CATEGORICAL and ENUM: the texts, in UTF-8; those of CATEGORICAL by first appearance */
struct pl_csv_column {
    struct pl_csv_text name;
    uint32_t type;      /* enum pl_csv_type */
    uint32_t unit;      /* of DATETIME: enum pl_csv_unit; else 0 */
    uint32_t precision; /* of DECIMAL: the number of digits, 0 where it is not set; else 0 */
    uint32_t scale;     /* of DECIMAL: how many digits stand behind the point; else 0 */
    const bool *present;
    size_t present_len;
    const int64_t *numbers;
    size_t numbers_len;
    const uint64_t *words;
    size_t words_len;
    const size_t *ends;
    size_t ends_len;
    const uint8_t *bytes;
    size_t bytes_len;
    const struct pl_csv_text *categories;
    size_t categories_len;
    size_t null_count; /* the number of nulls; pl_csv_write does not look at it */
};

/* A frame that the library made: pl_csv_free_frame frees it. */
struct pl_csv_frame {
    uint8_t *handle;
    const struct pl_csv_column *columns;
    size_t width;  /* the number of columns */
    size_t height; /* the number of rows */
};

/* Bytes that the library made: pl_csv_free_bytes frees them. */
struct pl_csv_bytes {
    uint8_t *handle;
    const uint8_t *at;
    size_t len;
};

/* In which state a scan stands behind a piece, for each state in front of it: 0 at the start of an item, 1 inside an open quoted field. */
struct pl_csv_summary {
    uint8_t from_start;
    uint8_t from_open;
};

/* Reads an input into a frame: 0 where the input has one under the words. */
uint32_t pl_csv_read(const uint8_t *input, size_t input_len, const struct pl_csv_text *words, size_t words_len, struct pl_csv_frame *frame,
                     uint8_t *line, size_t room, size_t *line_len);

/* Reads the records of a part of the data from number `skip` on, at most `length`, into a frame without a row index. The part begins where
   an item does, and is read as a text of its own; the words give the schema of the whole (--schema), else the status is 12. A fault tells the
   number of a record from the first of the part on. */
uint32_t pl_csv_read_part(const uint8_t *part, size_t part_len, const struct pl_csv_text *words, size_t words_len, size_t skip,
                          size_t length, struct pl_csv_frame *frame, uint8_t *line, size_t room, size_t *line_len);

/* The number of rows of an input, by the separator, the quote, the line end, the comments and the header of the words; nothing is skipped or
   limited. */
uint32_t pl_csv_count_rows(const uint8_t *input, size_t input_len, const struct pl_csv_text *words, size_t words_len, size_t *rows,
                           uint8_t *line, size_t room, size_t *line_len);

/* The schema by which an input is read, as the text that --schema takes; 12 where no such text is read as that schema again, as where there
   is no column, or a name has a colon or a comma. */
uint32_t pl_csv_schema(const uint8_t *input, size_t input_len, const struct pl_csv_text *words, size_t words_len, struct pl_csv_bytes *text,
                       uint8_t *line, size_t room, size_t *line_len);

/* The offset at which the data of an input begins: behind a byte order mark, what the words skip, and the header. */
uint32_t pl_csv_data_start(const uint8_t *input, size_t input_len, const struct pl_csv_text *words, size_t words_len, size_t *start,
                           uint8_t *line, size_t room, size_t *line_len);

/* What a piece makes of either state in front of it (docs/pieces.md, "States"). Its last byte is the line end, else the status is 12. */
uint32_t pl_csv_summarize(const uint8_t *piece, size_t piece_len, const struct pl_csv_text *words, size_t words_len,
                          struct pl_csv_summary *summary, uint8_t *line, size_t room, size_t *line_len);

/* What two pieces that follow each other make together. */
void pl_csv_compose(const struct pl_csv_summary *first, const struct pl_csv_summary *second, struct pl_csv_summary *both);

/* The text of the frame of these columns, written as the words say. Refused are, in this order: a quote that is not ASCII (13); of the first
   column that means none, a name that is not UTF-8 (12), a type that can't be read (18), and the first row without a value of the type (24: kind
   `utf8` of a text, else `value`); columns of several heights (12); a name that two columns have (16). A row that is null needs no value. No
   columns are a frame of no rows, whose text is one line end. */
uint32_t pl_csv_write(const struct pl_csv_column *columns, size_t columns_len, const struct pl_csv_text *words, size_t words_len,
                      struct pl_csv_bytes *text, uint8_t *line, size_t room, size_t *line_len);

/* Frees a frame, whose views are then gone; bytes. */
void pl_csv_free_frame(uint8_t *handle);
void pl_csv_free_bytes(uint8_t *handle);

#ifdef __cplusplus
}
#endif
#endif
