#!/usr/bin/env python3
"""Measures programs on inputs that are hard to cut, beside a tame one of the same size (bench/README.md)."""
import argparse
import os
import random
import subprocess
import time

# The size of a piece where nothing is said.
PIECE = 262144


def record(number, note):
    return b"%d,%s\n" % (number, note)


def filled(size, note_of):
    """Returns records up to about this size; `note_of` gives the note of each by its number and where it begins."""
    parts, at = [], 0
    while at < size:
        one = record(len(parts), note_of(len(parts), at))
        parts.append(one)
        at += len(one)
    return b"".join(parts)


def plain(number, at):
    return b"a note of some thirty bytes or so"


def quoted(number, at):
    return b'"a note with a line\nend in its middle"'


def tame(size):
    return filled(size, plain)


def one_field(size):
    """One quoted field, full of line ends, is four fifths of all and stands in the middle."""
    lines = b"a line of a long text\n" * (size * 4 // 5 // 22)
    return filled(size // 10, plain) + record(0, b'"' + lines + b'"') + filled(size // 10, plain)


def long_fields(size):
    """Each record has a quoted field of 600 KB, full of line ends."""
    lines = b"a line of a long text\n" * (600000 // 22)
    return filled(size, lambda number, at: b'"' + lines + b'"')


def lone_quote(size):
    """A quote stands in the first field, which is not quoted; each record after it has a quoted line end."""
    return filled(size, lambda number, at: quoted(number, at) if number else b'a lone " quote')


def lone_quotes(size):
    """Such a quote stands in every thousandth record."""
    return filled(size, lambda number, at: quoted(number, at) if number % 1000 else b'a lone " quote')


def quotes_at_ends(size):
    """A quoted field with line ends stands wherever a piece of the usual size ends."""
    long = b'"' + b"a line of a text\n" * 60 + b'"'
    return filled(size, lambda number, at: long if at % PIECE > PIECE - 600 else plain(number, at))


INPUTS = {"tame": tame, "one field": one_field, "long fields": long_fields, "lone quote": lone_quote, "lone quotes": lone_quotes, "quotes at ends": quotes_at_ends}


def run(program, workers, source, target, words):
    began = time.perf_counter()
    with open(source, "rb") as given, open(target, "wb") as written:
        subprocess.run([program, "--schema", "id:int64,note:string", "--no-header", "--workers", str(workers), *words], stdin=given, stdout=written, check=True)
    return time.perf_counter() - began


def main():
    parser = argparse.ArgumentParser(description=__doc__)
    parser.add_argument("programs", nargs="+")
    parser.add_argument("--mb", type=int, default=50)
    parser.add_argument("--rounds", type=int, default=7)
    parser.add_argument("--workers", default="1,4")
    parser.add_argument("--inputs", default=",".join(INPUTS))
    parser.add_argument("--data", default="/dev/shm/pl_csv_hostile")
    parser.add_argument("--words", default="", help="more arguments for each program, as --words=--out-sep=;")
    options = parser.parse_args()
    os.makedirs(options.data, exist_ok=True)
    names = options.inputs.split(",")
    workers = [int(it) for it in options.workers.split(",")]
    target = f"{options.data}/written"
    for name in names:
        with open(f"{options.data}/{name}", "wb") as made:
            made.write(INPUTS[name](options.mb * 1000000))
    best = {}
    tasks = [(program, count, name) for program in options.programs for count in workers for name in names]
    for _ in range(options.rounds):
        for task in random.sample(tasks, len(tasks)):
            took = run(task[0], task[1], f"{options.data}/{task[2]}", target, options.words.split())
            best[task] = min(took, best.get(task, took))
    size = {name: os.path.getsize(f"{options.data}/{name}") for name in names}
    print(f"MB/s, the best of {options.rounds} rounds; in brackets, as a share of the first input")
    for program in options.programs:
        for count in workers:
            speed = {name: size[name] / best[program, count, name] / 1e6 for name in names}
            print(f"{program}, {count} workers: " + ", ".join(f"{name} {speed[name]:.0f} ({speed[name] / speed[names[0]]:.2f})" for name in names))
    for name in names + ["written"]:
        os.remove(f"{options.data}/{name}")


main()
