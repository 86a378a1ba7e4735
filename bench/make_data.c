/* Makes the inputs that compare.py measures.
   make_data WORKLOAD (--rows N | --mb M) [--seed S] > out.csv
   WORKLOAD: mixed ints strings quoted taxi wide; the types of their columns stand in compare.py.
   The same workload, size and seed give the same bytes on every machine. */
#include <stdio.h>
#include <stdlib.h>
#include <string.h>
#include <stdint.h>
#include <unistd.h>

static char buf[1 << 22];
static size_t at;
static uint64_t done_bytes;
static uint64_t state;

static void flush_all(void) {
    size_t o = 0;
    while (o < at) {
        ssize_t w = write(1, buf + o, at - o);
        if (w <= 0) { perror("write"); exit(1); }
        o += (size_t)w;
    }
    done_bytes += at;
    at = 0;
}
static inline void room(void) { if (at > sizeof buf - 65536) flush_all(); }
static inline void c(char x) { buf[at++] = x; }
static inline void s(const char *x) { while (*x) buf[at++] = *x++; }
static inline uint64_t rnd(void) {               /* splitmix64 */
    uint64_t z = (state += 0x9E3779B97F4A7C15ull);
    z = (z ^ (z >> 30)) * 0xBF58476D1CE4E5B9ull;
    z = (z ^ (z >> 27)) * 0x94D049BB133111EBull;
    return z ^ (z >> 31);
}
static inline uint32_t below(uint32_t n) { return (uint32_t)(((rnd() >> 32) * n) >> 32); }
static void num(uint64_t v) {
    char t[24]; int n = 0;
    do { t[n++] = (char)('0' + v % 10); v /= 10; } while (v);
    while (n) buf[at++] = t[--n];
}
static inline void two(unsigned v) { c((char)('0' + v / 10)); c((char)('0' + v % 10)); }
static const uint32_t P10[10] = {1,10,100,1000,10000,100000,1000000,10000000,100000000,1000000000};
static void int9(void) {                          /* 1 to 9 digits, each length as likely */
    int d = 1 + (int)below(9);
    uint32_t lo = d == 1 ? 0 : P10[d - 1];
    num(lo + below(P10[d] - lo));
}
static void dec2(uint32_t cents) { num(cents / 100); c('.'); two(cents % 100); }
static void date_from_1970(int z) {
    z += 719468;
    int era = z / 146097, doe = z - era * 146097;
    int yoe = (doe - doe / 1460 + doe / 36524 - doe / 146096) / 365;
    int y = yoe + era * 400, doy = doe - (365 * yoe + yoe / 4 - yoe / 100);
    int mp = (5 * doy + 2) / 153, d = doy - (153 * mp + 2) / 5 + 1, m = mp < 10 ? mp + 3 : mp - 9;
    if (m <= 2) y++;
    two((unsigned)(y / 100)); two((unsigned)(y % 100)); c('-'); two((unsigned)m); c('-'); two((unsigned)d);
}
static void datetime_from_1970(uint32_t t) {
    date_from_1970((int)(t / 86400));
    uint32_t r = t % 86400;
    c('T'); two(r / 3600); c(':'); two(r / 60 % 60); c(':'); two(r % 60);
}
static const char AL[65] = "abcdefghijklmnopqrstuvwxyzABCDEFGHIJKLMNOPQRSTUVWXYZ0123456789-_";
static void word(unsigned n) {                    /* n bytes, no special ones, blanks only inside */
    uint64_t r = 0; int left = 0;
    for (unsigned i = 0; i < n; i++) {
        if (!left) { r = rnd(); left = 10; }
        unsigned k = r & 63; r >>= 6; left--;
        buf[at++] = (k == 63 && i && i + 1 < n) ? ' ' : AL[k == 63 ? 0 : k];
    }
}
/* inside of a quoted field of about n bytes, with at least one special byte */
static void special(unsigned n) {
    unsigned cut = n ? below(n) : 0, k = below(10);
    word(cut);
    if (k < 5) c(','); else if (k < 8) s("\"\""); else if (k < 9) c('\n'); else s(",\"\"\n");
    word(n - cut);
}
static void text(unsigned max, unsigned percent_special) {
    unsigned n = below(max + 1), k = below(100);
    if (k < percent_special) { c('"'); special(n); c('"'); return; }
    word(n);
    if (k >= 97 && n > 2) s(k == 97 ? "\xc3\xa9" : k == 98 ? "\xe6\xbc\xa2" : "\xc3\x9f");
}

static void head(const char *w) {
    if (!strcmp(w, "mixed")) s("id,name,day,amount\n");
    else if (!strcmp(w, "ints")) for (int i = 0; i < 20; i++) { s("n"); num((uint64_t)i); c(i < 19 ? ',' : '\n'); }
    else if (!strcmp(w, "strings")) for (int i = 0; i < 10; i++) { s("s"); num((uint64_t)i); c(i < 9 ? ',' : '\n'); }
    else if (!strcmp(w, "quoted")) s("\"id\",\"name\",\"day\",\"amount\",\"city\",\"note\",\"qty\",\"code\"\n");
    else if (!strcmp(w, "taxi")) s("trip_id,vendor_id,pickup,dropoff,passengers,distance,rate,flag,pu,do,payment,fare,extra,mta_tax,tip,tolls,surcharge,total\n");
    else if (!strcmp(w, "wide")) for (int i = 0; i < 1000; i++) { s("c"); num((uint64_t)i); c(i < 999 ? ',' : '\n'); }
    else { fprintf(stderr, "unknown workload %s\n", w); exit(2); }
}
static const char *PAY[5] = {"CRD", "CSH", "NOC", "DIS", "UNK"};
static const char *CITY[8] = {"Berlin", "Paris", "New York", "Lima", "Oslo", "Cairo", "Kyoto", "S\xc3\xa3o Paulo"};

static void row(char w, uint64_t i) {
    switch (w) {
    case 'm':
        num(i); c(',');
        if (i % 4 == 3) s("\"a\"\"b,\nc\""); else { c('p'); num(i % 100); }
        c(','); date_from_1970(18262 + (int)(i % 366)); c(',');
        if (i % 10 != 9) { num(i % 1000); s(".25"); }
        break;
    case 'i': for (int k = 0; k < 20; k++) { if (k) c(','); int9(); } break;
    case 's': for (int k = 0; k < 10; k++) { if (k) c(','); text(30, 5); } break;
    case 'q':
        c('"'); num(i); s("\",\""); word(3 + below(12)); s("\",\"");
        date_from_1970(14000 + (int)below(6000)); s("\",\""); dec2(below(1000000)); s("\",\"");
        s(CITY[below(8)]); s("\",\"");
        if (below(100) < 9) special(below(40)); else word(below(40));
        s("\",\""); num(below(1000)); s("\",\""); word(6); c('"');
        break;
    case 't': {
        uint32_t t0 = 1577836800u + below(31536000u), d = 60 + below(5000);
        uint32_t fare = 250 + below(6000), extra = 50 * below(8), tip = below(3) ? below(1500) : 0, toll = below(12) ? 0 : 655;
        num(1000000000u + i); c(','); num(1 + below(2)); c(',');
        datetime_from_1970(t0); c(','); datetime_from_1970(t0 + d); c(',');
        if (below(50)) num(1 + below(6));
        c(','); dec2(below(3000)); c(','); num(1 + below(6)); c(','); c(below(100) ? 'N' : 'Y'); c(',');
        num(1 + below(265)); c(','); num(1 + below(265)); c(','); s(PAY[below(5)]); c(',');
        dec2(fare); c(','); dec2(extra); c(','); dec2(50); c(','); dec2(tip); c(','); dec2(toll); c(','); dec2(250); c(',');
        dec2(fare + extra + 50 + tip + toll + 250);
        break; }
    case 'w':
        for (int k = 0; k < 1000; k++) {
            if (k) c(',');
            switch (k & 3) {
            case 0: int9(); break;
            case 1: date_from_1970(14000 + (int)below(6000)); break;
            case 2: text(8, 1); break;
            default: if (below(20)) dec2(below(1000000));
            }
        }
        break;
    }
    c('\n');
}

int main(int argc, char **argv) {
    uint64_t rows = 0, bytes = 0, seed = 1;
    if (argc < 2) { fprintf(stderr, "make_data WORKLOAD (--rows N | --mb M) [--seed S]\n"); return 2; }
    for (int i = 2; i + 1 < argc; i += 2) {
        if (!strcmp(argv[i], "--rows")) rows = strtoull(argv[i + 1], 0, 10);
        else if (!strcmp(argv[i], "--mb")) bytes = (uint64_t)(strtod(argv[i + 1], 0) * 1e6);
        else if (!strcmp(argv[i], "--seed")) seed = strtoull(argv[i + 1], 0, 10);
        else { fprintf(stderr, "unknown word %s\n", argv[i]); return 2; }
    }
    state = seed * 0x2545F4914F6CDD1Dull + (uint64_t)argv[1][0];
    head(argv[1]);
    for (uint64_t i = 0; rows ? i < rows : done_bytes + at < bytes; i++) { room(); row(argv[1][0], i); }
    flush_all();
    return 0;
}
