/* Calls each function of the library, and compares what it gives. */
#include "pl_csv.h"

#include <stdio.h>
#include <stdlib.h>
#include <string.h>

static int failures;

static void check(bool is_so, const char *what) {
    if (!is_so) failures++, printf("not so: %s\n", what);
}

#define CHECK(it) check(it, #it)

static struct pl_csv_text text(const char *at) { return (struct pl_csv_text){(const uint8_t *)at, strlen(at)}; }
static const uint8_t *bytes(const char *at) { return (const uint8_t *)at; }
static bool is_text(const void *at, size_t len, const char *expected) { return len == strlen(expected) && !memcmp(at, expected, len); }

static uint8_t line[64];
static size_t line_len;

static uint32_t read(const char *input, const struct pl_csv_text *words, size_t len, struct pl_csv_frame *frame) {
    return pl_csv_read(bytes(input), strlen(input), words, len, frame, line, sizeof line, &line_len);
}

/* Every type: which arrays it has, and what they show. */
static void read_types(void) {
    struct pl_csv_text words[] = {
        text("--schema=b:boolean,i:int8,u:uint64,s:string,c:category,e:enum/x/y,d:date,t:time,m:datetime/ms,n:datetime/ns,p:decimal/9/2"),
    };
    struct pl_csv_frame frame;
    CHECK(!read("b,i,u,s,c,e,d,t,m,n,p\ntrue,-7,18446744073709551615,abc,q,y,1970-01-02,00:00:01,1970-01-01T00:00:01,1969-12-31T23:59:59,-1.25\n"
                ",,,,,,,,,,\n", words, 1, &frame));
    CHECK(frame.width == 11 && frame.height == 2 && line_len == 0);
    const struct pl_csv_column *it = frame.columns;
    for (size_t at = 0; at < frame.width; at++) CHECK(it[at].present_len == 2 && it[at].present[0] && !it[at].present[1] && it[at].null_count == 1);
    CHECK(it[0].type == PL_CSV_BOOLEAN && it[0].numbers_len == 2 && it[0].numbers[0] == 1 && it[0].numbers[1] == 0);
    CHECK(it[1].type == PL_CSV_INT8 && it[1].numbers[0] == -7);
    CHECK(it[2].type == PL_CSV_UINT64 && it[2].numbers_len == 0 && it[2].words_len == 4 && it[2].words[0] == UINT64_MAX && it[2].words[1] == 0);
    CHECK(it[3].type == PL_CSV_STRING && it[3].ends_len == 3 && it[3].ends[0] == 0 && it[3].ends[1] == 3 && it[3].ends[2] == 3);
    CHECK(is_text(it[3].bytes, it[3].bytes_len, "abc"));
    CHECK(it[4].type == PL_CSV_CATEGORICAL && it[4].categories_len == 1 && is_text(it[4].categories[0].at, it[4].categories[0].len, "q"));
    CHECK(it[5].type == PL_CSV_ENUM && it[5].categories_len == 2 && it[5].numbers[0] == 1);
    CHECK(it[6].type == PL_CSV_DATE && it[6].numbers[0] == 1);
    CHECK(it[7].type == PL_CSV_TIME && it[7].numbers[0] == 1000000000);
    CHECK(it[8].type == PL_CSV_DATETIME && it[8].unit == PL_CSV_MILLISECONDS && it[8].numbers[0] == 1000);
    CHECK(it[9].type == PL_CSV_DATETIME && it[9].unit == PL_CSV_NANOSECONDS && it[9].words[0] == (uint64_t)-1000000000 && it[9].words[1] == UINT64_MAX);
    CHECK(it[10].type == PL_CSV_DECIMAL && it[10].precision == 9 && it[10].scale == 2 && it[10].words[0] == (uint64_t)-125);
    CHECK(is_text(it[3].name.at, it[3].name.len, "s"));
    struct pl_csv_bytes out;
    CHECK(!pl_csv_write(frame.columns, frame.width, words, 0, &out, line, sizeof line, &line_len));
    CHECK(is_text(out.at, out.len, "b,i,u,s,c,e,d,t,m,n,p\ntrue,-7,18446744073709551615,abc,q,y,1970-01-02,00:00:01.000000000,"
                                   "1970-01-01T00:00:01.000,1969-12-31T23:59:59.000000000,-1.25\n,,,,,,,,,,\n"));
    pl_csv_free_bytes(out.handle);
    pl_csv_free_frame(frame.handle);
}

/* On a refusal the outputs are as they were, and the line is the program's. */
static void refuse(void) {
    struct pl_csv_frame frame = {(uint8_t *)&frame, NULL, 77, 78}, was = frame;
    struct pl_csv_text schema[] = {text("--schema=a:int64")}, no_word[] = {text("--no-such")}, not_utf8[] = {text("--null=\xff")};
    CHECK(read("a\n1\nx\n", schema, 1, &frame) == 24 && is_text(line, line_len, "refusal 14 record 1 column 0 value"));
    CHECK(!memcmp(&frame, &was, sizeof frame));
    CHECK(read("a\n", no_word, 1, &frame) == 2 && is_text(line, line_len, "words"));
    CHECK(read("a\n", not_utf8, 1, &frame) == 2 && is_text(line, line_len, "words"));
    memset(line, 'z', sizeof line);
    size_t len = 0;
    CHECK(pl_csv_read(bytes("a\nx\n"), 4, schema, 1, &frame, line, 7, &len) == 24 && len == strlen("refusal 14 record 0 column 0 value"));
    CHECK(!memcmp(line, "refusalzzz", 10));
}

static void look(void) {
    struct pl_csv_text words[] = {text("--sep=;")};
    size_t rows = 77, start = 0;
    CHECK(!pl_csv_count_rows(bytes("a;b\n1;\"x\ny\"\n2;z\n"), 16, words, 1, &rows, line, sizeof line, &line_len) && rows == 2);
    struct pl_csv_bytes out;
    CHECK(!pl_csv_schema(bytes("a;b\n1;x\n"), 8, words, 1, &out, line, sizeof line, &line_len));
    CHECK(is_text(out.at, out.len, "a:int64,b:string"));
    pl_csv_free_bytes(out.handle);
    CHECK(!pl_csv_data_start(bytes("a;b\n1;x\n"), 8, words, 1, &start, line, sizeof line, &line_len) && start == 4);
    CHECK(pl_csv_data_start(bytes(""), 0, words, 1, &start, line, sizeof line, &line_len) == 15 && start == 4);
}

static void read_parts(void) {
    struct pl_csv_text words[] = {text("--schema=a:int64,b:string"), text("--row-index=n")};
    struct pl_csv_frame frame;
    CHECK(!pl_csv_read_part(bytes("1,x\n2,y\n3,z\n"), 12, words, 1, 1, 1, &frame, line, sizeof line, &line_len));
    CHECK(frame.height == 1 && frame.columns[0].numbers[0] == 2);
    pl_csv_free_frame(frame.handle);
    CHECK(pl_csv_read_part(bytes("1,x\nq,y\n"), 8, words, 1, 0, 9, &frame, line, sizeof line, &line_len) == 24);
    CHECK(is_text(line, line_len, "refusal 14 record 1 column 0 value"));
    struct pl_csv_summary first = {7, 7}, second = {7, 7}, both = {7, 7};
    CHECK(!pl_csv_summarize(bytes("a,\"b\n"), 5, words, 0, &first, line, sizeof line, &line_len) && first.from_start == 1);
    CHECK(!pl_csv_summarize(bytes("c\"\n"), 3, words, 0, &second, line, sizeof line, &line_len) && second.from_open == 0);
    pl_csv_compose(&first, &second, &both);
    CHECK(both.from_start == second.from_open && both.from_open == (first.from_open ? second.from_open : second.from_start));
    CHECK(pl_csv_summarize(bytes("a"), 1, words, 0, &first, line, sizeof line, &line_len) != 0);
}

/* Columns of the caller's own, and those that don't fit. */
static void write_columns(void) {
    const uint8_t *nothing = bytes("");
    bool present[] = {true, false};
    int64_t numbers[] = {5, 0};
    size_t ends[] = {0, 3, 3};
    struct pl_csv_column given[2] = {{.name = text("n"), .type = PL_CSV_INT8}, {.name = text("s"), .type = PL_CSV_STRING}};
    for (int it = 0; it < 2; it++) {
        given[it].present = present, given[it].present_len = 2;
        given[it].numbers = (const int64_t *)(const void *)numbers, given[it].numbers_len = it ? 0 : 2;
        given[it].words = (const uint64_t *)(const void *)numbers, given[it].ends = ends, given[it].ends_len = it ? 3 : 0;
        given[it].bytes = it ? bytes("a\"b") : nothing, given[it].bytes_len = it ? 3 : 0;
        given[it].categories = &given[it].name;
    }
    struct pl_csv_text words[] = {text("--out-sep=;"), text("--out-null=-")}, quote[] = {text("--out-quote=xFF")};
    struct pl_csv_bytes out = {NULL, nothing, 0};
    CHECK(!pl_csv_write(given, 2, words, 2, &out, line, sizeof line, &line_len) && is_text(out.at, out.len, "n;s\n5;\"a\"\"b\"\n-;-\n"));
    pl_csv_free_bytes(out.handle);
    CHECK(pl_csv_write(given, 2, quote, 1, &out, line, sizeof line, &line_len) == 13 && is_text(line, line_len, "refusal 3 quote"));
    given[1].name = text("n");
    CHECK(pl_csv_write(given, 2, words, 2, &out, line, sizeof line, &line_len) != 0);
    given[1].name = text("s");
    numbers[0] = 200;
    CHECK(pl_csv_write(given, 2, words, 2, &out, line, sizeof line, &line_len) != 0);
    numbers[0] = 5, ends[1] = 9;
    CHECK(pl_csv_write(given, 2, words, 2, &out, line, sizeof line, &line_len) != 0);
    ends[1] = 3, given[0].numbers_len = 0;
    CHECK(pl_csv_write(given, 2, words, 2, &out, line, sizeof line, &line_len) != 0);
    CHECK(!pl_csv_write(given, 0, words, 0, &out, line, sizeof line, &line_len) && is_text(out.at, out.len, "\n"));
    pl_csv_free_bytes(out.handle);
}

int main(void) {
    read_types();
    refuse();
    look();
    read_parts();
    write_columns();
    printf(failures ? "%d not so\n" : "every call gives what it is to give\n", failures);
    return failures > 0;
}
