#!/usr/bin/env python3
"""Writes random frames of all types by the program, under random ways of writing that fit, and reads them again.

    crates/pl_csv_replay/round_trips.py PROGRAM [COUNT [SEED]]

A frame comes to the program as a text with every cell between quotes, in which nulls are told from all texts. The program writes it in
a random way, reads that text under the options that match, with a random number of workers and a random size of pieces, and writes it
as the first text was. Where the two differ, both are shown with the words. Whether a frame and a way of writing fit is decided here anew
(docs/quoting.md, "What comes back"), so that a condition that the proofs should ask for and do not would show.
"""
import datetime
import random
import subprocess
import sys

NULL = "\\N"        # no text of these frames is this one
PIECES = ["", "a", "NA", "0", "-", ".", ":", ",", ";", '"', '""', "\r", "\n", "\r\n", " ", "\t", "é", "€", "😀", "x,y", "'", "true", "\ufeff"]


def digits(n, places):
    text = str(abs(n)).rjust(places + 1, "0")
    return ("-" if n < 0 else "") + (text if places == 0 else text[:-places] + "." + text[-places:])


def day(n):
    """The date of a day, counted from 1970-01-01; the calendar repeats after 400 years of 146097 days."""
    turns, rest = divmod(n + 719528, 146097)
    date = datetime.date(2000, 1, 1) + datetime.timedelta(days=rest)
    return "%04d-%02d-%02d" % (date.year - 2000 + 400 * turns, date.month, date.day)


def clock(second):
    return "%02d:%02d:%02d" % (second // 3600, second // 60 % 60, second % 60)


def moment(n, units, places):
    second, rest = divmod(n, units)
    return day(second // 86400) + "T" + clock(second % 86400) + "." + str(rest).rjust(places, "0")


def near(r, low, high):
    return r.choice([low, high, 0 if low <= 0 <= high else low, r.randint(low, high), max(low, min(high, r.randint(-200, 200)))])


def some_text(r):
    return "".join(r.choice(PIECES) for _ in range(r.choice([0, 1, 1, 2, 3, 8])))


def column_of(r):
    """A type: its word, whether it holds texts, whether it holds numbers, and how a printed value is drawn."""
    kind = r.randrange(16)
    if kind == 0:
        return "boolean", False, False, lambda: r.choice(["true", "false"])
    if kind < 6:
        bits, signed = r.choice([8, 16, 32, 64]), r.random() < 0.5
        if kind == 5:
            bits, signed = 128, True
        low, high = (-2 ** (bits - 1), 2 ** (bits - 1) - 1) if signed else (0, 2 ** bits - 1)
        return ("int%d" if signed else "uint%d") % bits, False, True, lambda: str(near(r, low, high))
    if kind < 9:
        return "string", True, False, lambda: some_text(r)
    if kind == 9:
        return "category", True, False, lambda: some_text(r)
    if kind == 10:
        texts = sorted({t for t in (some_text(r) for _ in range(4)) if not set(t) & set("/,:\r\n")} | {"", "z"})
        return "enum/" + "/".join(texts), True, False, lambda: r.choice(texts)
    if kind == 11:
        return "date", False, False, lambda: day(near(r, -719528, 2932896))
    if kind == 12:
        last = 86400 * 10 ** 9 - 1
        return "time", False, False, lambda: (lambda n: clock(n // 10 ** 9) + "." + str(n % 10 ** 9).rjust(9, "0"))(near(r, 0, last))
    if kind == 13:
        name, places = r.choice([("ms", 3), ("us", 6), ("ns", 9)])
        units = 10 ** places
        low, high = max(-719528 * 86400 * units, -2 ** 63), min(2932897 * 86400 * units - 1, 2 ** 63 - 1)
        return "datetime/" + name, False, False, lambda: moment(near(r, low, high), units, places)
    scale = r.choice([0, 1, 2, 9, 38])
    wide = r.choice([38, max(scale, 1)])
    return "decimal/%d/%d" % (wide, scale), False, True, lambda: digits(near(r, 1 - 10 ** wide, 10 ** wide - 1), scale)


def null_text(way):
    """What is written of a null."""
    return way["quote"] + way["null"] + way["quote"] if way["style"] == "always" else way["null"]


def cell_text(way, cell, is_text, is_number):
    """What is written of a value, given its printed text."""
    quoted = way["quote"] + cell.replace(way["quote"], 2 * way["quote"]) + way["quote"]
    if way["style"] == "always" or way["style"] == "nonnumeric" and not is_number:
        return quoted
    needs_quotes = cell == "" or set(cell) & {way["sep"], way["quote"], "\r", "\n"}
    return quoted if way["style"] == "necessary" and is_text and needs_quotes else cell


def fits(way, types, names, rows):
    separator, quote, null, style = way["sep"], way["quote"], way["null"], way["style"]
    special = {separator, quote, "\r", "\n"}
    if separator == quote or set(null) & special:
        return False
    if style == "never" and way["header"] and any(set(name) & special for name in names):
        return False
    for row in rows:
        for (_, is_text, is_number, _), cell in zip(types, row):
            if cell is not None and cell_text(way, cell, is_text, is_number) == null_text(way):
                return False
            if cell is not None and style == "never" and is_text and (cell == "" or set(cell) & special):
                return False
    return True


def begins_with_mark(text, way):
    marks = [b"\x1f\x8b", b"x\x01", b"x\x9c", b"x\xda", b"(\xb5/\xfd"]
    return any(text.startswith(m) for m in marks) or (not way["bom"] and text.startswith(b"\xef\xbb\xbf"))


def always(names, rows):
    quoted = lambda text: '"' + text.replace('"', '""') + '"'
    lines = [[quoted(n) for n in names]] + [['"' + NULL + '"' if c is None else quoted(c) for c in row] for row in rows]
    return "".join(",".join(line) + "\n" for line in lines).encode()


def byte(character):
    return "x%02x" % ord(character)


def run(program, words, text):
    done = subprocess.run([program] + words, input=text, capture_output=True)
    return done.stdout if done.returncode == 0 else b"status %d: " % done.returncode + done.stderr


def case(r):
    types = [column_of(r) for _ in range(r.choice([1, 1, 2, 3, 5]))]
    names = ["".join(c for c in some_text(r) if c not in ":,-") + (str(i) if i or r.random() < 0.8 else "") for i in range(len(types))]
    rows = [[None if r.random() < 0.2 else draw() for _, _, _, draw in types] for _ in range(r.choice([0, 1, 2, 5, 40]))]
    way = {
        "sep": r.choice(",;|\t ,,"),
        "quote": r.choice("\"\"\"'^"),
        "null": r.choice(["", "", "NA", "null", "-", "0"]),
        "style": r.choice(["necessary", "necessary", "always", "nonnumeric", "never"]),
        "eol": r.choice(["lf", "crlf"]),
        "header": r.random() < 0.7,
        "bom": r.random() < 0.2,
    }
    return types, names, rows, way


def main():
    program = sys.argv[1]
    count, seed = int((sys.argv + ["10000"] * 3)[2]), int((sys.argv + [""] * 3)[3] or 1)
    r = random.Random(seed)
    done = wrong = 0
    while done < count:
        types, names, rows, way = case(r)
        if not fits(way, types, names, rows):
            continue
        schema = ["--schema", ",".join(n + ":" + t[0] for n, t in zip(names, types))]
        told = always(names, rows)
        out = ["--style=" + way["style"], "--out-sep=" + byte(way["sep"]), "--out-quote=" + byte(way["quote"]), "--out-eol=" + way["eol"]]
        out += ["--out-null=" + way["null"]] if way["null"] else []
        out += ([] if way["header"] else ["--out-no-header"]) + (["--out-bom"] if way["bom"] else [])
        written = run(program, schema + ['--null="' + NULL + '"'] + out, told)
        if begins_with_mark(written, way):
            continue
        back = ["--sep=" + byte(way["sep"]), "--quote=" + byte(way["quote"]), "--workers=%d" % r.choice([1, 2, 3, 8]), "--piece=%d" % r.choice([1, 7, 100, 262144])]
        back += ["--null=" + null_text(way)] if null_text(way) else []
        back += [] if way["header"] else ["--no-header"]
        again = run(program, schema + back + ["--style=always", "--out-null=" + NULL], written)
        done += 1
        if again != told:
            wrong += 1
            print("differs:", schema + out + back, told, written, again, sep="\n  ")
    print("%d frames written and read again, %d differ" % (done, wrong))
    return 1 if wrong else 0


if __name__ == "__main__":
    sys.exit(main())
