/* Reads the sales of a few shops, prints the sum of a column, and tells the fault of a file that has one. */
#include <pl_csv.h>
#include <stdio.h>
#include <stdlib.h>
#include <string.h>

static struct pl_csv_text word(const char *text) { return (struct pl_csv_text){(const uint8_t *)text, strlen(text)}; }

/* The bytes of a file, or null. */
static uint8_t *bytes_of(const char *path, size_t *len) {
    FILE *file = fopen(path, "rb");
    if (!file) return NULL;
    size_t room = 1 << 20;
    uint8_t *bytes = malloc(room);
    *len = 0;
    for (size_t got; bytes && (got = fread(bytes + *len, 1, room - *len, file)) > 0;) {
        *len += got;
        if (*len < room) continue;
        uint8_t *more = realloc(bytes, room *= 2);
        if (!more) free(bytes);
        bytes = more;
    }
    fclose(file);
    return bytes;
}

/* The column of a name, or null. */
static const struct pl_csv_column *column(const struct pl_csv_frame *frame, const char *name) {
    for (size_t it = 0; it < frame->width; it++) {
        const struct pl_csv_text *has = &frame->columns[it].name;
        if (has->len == strlen(name) && !memcmp(has->at, name, has->len)) return &frame->columns[it];
    }
    return NULL;
}

int main(int count, char **words) {
    size_t len, line_len;
    uint8_t line[200], *input = bytes_of(count > 1 ? words[1] : "examples/sales.csv", &len);
    if (!input) return perror("sales"), 1;

    struct pl_csv_frame frame;
    struct pl_csv_text nulls[] = {word("--nulls=NA,-")};
    uint32_t status = pl_csv_read(input, len, nulls, 1, &frame, line, sizeof line, &line_len);
    if (status) return fprintf(stderr, "%.*s\n", (int)(line_len < sizeof line ? line_len : sizeof line), line), (int)status;
    const struct pl_csv_column *units = column(&frame, "units");
    int64_t sum = 0;
    for (size_t row = 0; units && row < units->numbers_len; row++) sum += units->numbers[row];
    printf("%zu sales, %lld units, %zu unknown\n", frame.height, (long long)sum, units ? units->null_count : 0);
    pl_csv_free_frame(frame.handle);

    struct pl_csv_text types[] = {word("--overwrite=units:int64")};
    status = pl_csv_read(input, len, types, 1, &frame, line, sizeof line, &line_len);
    if (status) printf("status %u: %.*s\n", status, (int)(line_len < sizeof line ? line_len : sizeof line), line);
    free(input);
    return 0;
}
