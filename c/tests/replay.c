/* Replays stored runs of the program through the library: what a run reads is read by pl_csv_read, and written again by pl_csv_write.

   usage: replay FILE..     the files of crates/pl_csv_replay/data, whose form crates/pl_csv_replay/src/case.rt states

   A run of status 0 is to give its output, and any other one its status and its fault line. Passed over are runs whose devices fail or move
   few bytes, as there are no devices here, and runs of --make, which is no word of the library. Where the quote of the output is no
   ASCII, the program refuses it before it reads: here pl_csv_write does, once the input was read. */
#include "pl_csv.h"

#include <stdio.h>
#include <stdlib.h>
#include <string.h>

struct bytes {
    uint8_t *at;
    size_t len, room;
};

struct run {
    char name[200];
    struct bytes words[200];
    size_t words_len;
    struct bytes input, out, err;
    unsigned status;
    bool has_device;
};

static void put(struct bytes *bytes, uint8_t byte) {
    if (bytes->len == bytes->room) {
        bytes->room = bytes->room ? 2 * bytes->room : 64;
        bytes->at = realloc(bytes->at, bytes->room);
        if (!bytes->at) exit(1);
    }
    bytes->at[bytes->len++] = byte;
}

static unsigned digit(char it) { return it <= '9' ? (unsigned)(it - '0') : (unsigned)(it - 'a' + 10); }

/* Puts what parts with a space between them write: HEX, HEX*N, or - for nothing. */
static struct bytes bytes_of(const char *text) {
    struct bytes bytes = {malloc(64), 0, 64};
    while (*text) {
        size_t from = bytes.len;
        for (; *text && *text != ' ' && *text != '*'; text += 2) {
            if (*text == '-') {
                text++;
                break;
            }
            put(&bytes, (uint8_t)(16 * digit(text[0]) + digit(text[1])));
        }
        size_t len = bytes.len - from;
        if (*text == '*') {
            unsigned long times = strtoul(text + 1, (char **)&text, 10);
            if (!times) bytes.len = from;
            for (size_t it = len; it < len * times; it++) put(&bytes, bytes.at[from + it % len]);
        }
        text += *text == ' ';
    }
    return bytes;
}

static void clear(struct run *run) {
    for (size_t it = 0; it < run->words_len; it++) free(run->words[it].at);
    free(run->input.at);
    free(run->out.at);
    free(run->err.at);
    memset(run, 0, sizeof *run);
}

static void take(struct run *run, const char *line) {
    if (!strncmp(line, "case ", 5)) snprintf(run->name, sizeof run->name, "%s", line + 5);
    else if (!strncmp(line, "word ", 5)) run->words[run->words_len++] = bytes_of(line + 5);
    else if (!strncmp(line, "input ", 6)) run->input = bytes_of(line + 6);
    else if (!strncmp(line, "status ", 7)) run->status = (unsigned)atoi(line + 7);
    else if (!strncmp(line, "out ", 4)) run->out = bytes_of(line + 4);
    else if (!strncmp(line, "err ", 4)) run->err = bytes_of(line + 4);
    else run->has_device = true;
}

/* Whether a status and a line are those of a run. */
static bool is_refused(const struct run *run, uint32_t status, const uint8_t *line, size_t len) {
    return status == run->status && len + 1 == run->err.len && !memcmp(line, run->err.at, len) && run->err.at[len] == '\n';
}

static bool is_replayed(const struct run *run) {
    struct pl_csv_text words[200];
    for (size_t it = 0; it < run->words_len; it++) words[it] = (struct pl_csv_text){run->words[it].at, run->words[it].len};
    static uint8_t line[1 << 16];
    size_t len = 0;
    struct pl_csv_frame frame;
    uint32_t status = pl_csv_read(run->input.at, run->input.len, words, run->words_len, &frame, line, sizeof line, &len);
    if (status) return is_refused(run, status, line, len) || (run->status == 13 && status > 13);
    struct pl_csv_bytes text;
    status = pl_csv_write(frame.columns, frame.width, words, run->words_len, &text, line, sizeof line, &len);
    pl_csv_free_frame(frame.handle);
    if (status) return is_refused(run, status, line, len);
    bool is_same = run->status == 0 && text.len == run->out.len && !memcmp(text.at, run->out.at, text.len);
    pl_csv_free_bytes(text.handle);
    return is_same;
}

static bool makes(const struct run *run) {
    for (size_t it = 0; it < run->words_len; it++)
        if (run->words[it].len >= 6 && !memcmp(run->words[it].at, "--make", 6)) return true;
    return false;
}

int main(int count, char **paths) {
    size_t passed = 0, failed = 0, skipped = 0;
    for (int it = 1; it < count; it++) {
        FILE *file = fopen(paths[it], "r");
        if (!file) return perror(paths[it]), 2;
        static struct run run;
        char *line = NULL;
        size_t room = 0;
        for (ssize_t len = 1; len > 0;) {
            len = getline(&line, &room, file);
            if (len > 1) {
                line[len - 1] = 0;
                take(&run, line);
                continue;
            }
            if (!run.name[0]) continue;
            if (run.has_device || makes(&run)) skipped++;
            else if (is_replayed(&run)) passed++;
            else failed++, printf("%s: another answer\n", run.name);
            clear(&run);
        }
        free(line);
        fclose(file);
    }
    printf("%zu passed, %zu failed, %zu passed over\n", passed, failed, skipped);
    return failed > 0;
}
