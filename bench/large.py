#!/usr/bin/env python3
"""Measures the program on long and large inputs at two sizes, so that it is seen whether its cost is linear (docs/robustness.md)."""
import argparse
import os
import shutil
import subprocess
import tempfile
import time

HERE = os.path.dirname(os.path.realpath(__file__))
PROGRAM = os.path.join(HERE, "..", "release", "pl_csv-x86_64-linux")

SCHEMA = ["--schema", "n:int64,t:string", "--no-header"]
TEXT = ["--schema", "t:string", "--no-header"]


def rows(size):
    line = b"12345,some plain text\n"
    return [line * (size // len(line))]


def plain_field(size):
    return [b"x" * (size - 1), b"\n"]


def quoted_field(size):
    return [b'"', b"a line\n" * ((size - 3) // 7), b'"\n']


def quotes(size):
    return [b'"', b'""' * ((size - 3) // 2), b'"\n']


def columns(size):
    names = ",".join(f"name{k}" for k in range(size))
    return [names.encode(), b"\n", ",".join(["1"] * size).encode(), b"\n"]


def one_name(size):
    return [b"n" * size, b"\n1\n"]


def categories(size):
    return [f"category {k * 7919 % size}\n".encode() for k in range(size)]


def excess(size):
    return [b"," * size, b"\n"]


def blank(size):
    return [b"\n" * size]


def nulls(count):
    return ["--nulls", ",".join(f"null{k}" for k in range(count))]


# The name, the words, what makes the input, and the larger size. The smaller one is half of it.
CASES = [
    ("plain rows, MB", SCHEMA, lambda size: rows(size * 1000000), 100),
    ("one plain field, MB", TEXT, lambda size: plain_field(size * 1000000), 1000),
    ("one quoted field full of line ends, MB", TEXT, lambda size: quoted_field(size * 1000000), 400),
    ("one field of doubled quotes, MB", TEXT, lambda size: quotes(size * 1000000), 200),
    ("an open quote and line ends, MB", TEXT, lambda size: [b'"', b"a line\n" * (size * 1000000 // 7)], 200),
    ("a header of one name, MB", [], lambda size: one_name(size * 1000000), 100),
    ("columns without a schema", [], columns, 40000),
    ("names that are all the same", [], lambda size: [b"a," * size, b"a\n", b"1," * size, b"1\n"], 40000),
    ("names of nothing", [], lambda size: [b"," * size, b"\n", b"1," * size, b"1\n"], 40000),
    ("distinct categories", ["--schema", "c:category", "--no-header"], categories, 1000000),
    ("1000 null texts, MB", SCHEMA + nulls(1000), lambda size: rows(size * 1000000), 4),
    ("null texts, over 1 MB", SCHEMA, lambda size: rows(1000000), 2000),
    ("fields in excess, truncated, MB", SCHEMA + ["--truncate"], lambda size: excess(size * 1000000), 100),
    ("blank lines, MB", SCHEMA, lambda size: blank(size * 1000000), 20),
    ("blank lines before the records, MB", ["--schema", "n:int64,t:string"], lambda size: [b"\n" * (size * 1000000), b"n,t\n1,x\n"], 100),
    ("comments, MB", SCHEMA + ["--comment", "#"], lambda size: [b"# a comment\n" * (size * 1000000 // 12)], 100),
    ("rows by 64 workers on one processor, MB", SCHEMA + ["--workers", "64"], lambda size: rows(size * 1000000), 40),
]


def run(program, words, path, one):
    """Returns the status, the seconds of the processor, those of the clock, and the largest memory in MB."""
    began = time.perf_counter()
    with open(path, "rb") as given, open(os.devnull, "wb") as nothing:
        process = subprocess.Popen([program] + words, stdin=given, stdout=nothing, stderr=nothing, preexec_fn=(lambda: os.sched_setaffinity(0, {0})) if one else None)
        _, status, used = os.wait4(process.pid, 0)
        process.returncode = os.waitstatus_to_exitcode(status)
    return process.returncode, used.ru_utime + used.ru_stime, time.perf_counter() - began, used.ru_maxrss / 1000


def write(path, parts):
    """Writes a file from a process of its own: the memory of this one would count as that of what it runs."""
    child = os.fork()
    if child == 0:
        with open(path, "wb") as written:
            written.writelines(parts())
        os._exit(0)
    os.waitpid(child, 0)


def measure(options, path, words, parts, one):
    write(path, parts)
    best = min((run(options.program, words, path, one) for _ in range(options.rounds)), key=lambda it: it[1])
    os.remove(path)
    return best


def main():
    parser = argparse.ArgumentParser(description=__doc__)
    parser.add_argument("--program", default=PROGRAM)
    parser.add_argument("--rounds", type=int, default=3)
    parser.add_argument("--workers", default="1,4")
    parser.add_argument("--only", default="", help="cases whose names have one of these in them, with | between them")
    parser.add_argument("--small", type=int, default=1, help="so many times smaller sizes")
    parser.add_argument("--data", default="/dev/shm", help="a folder for the inputs")
    options = parser.parse_args()
    options.program = os.path.realpath(options.program)
    folder = tempfile.mkdtemp(dir=options.data)
    path = os.path.join(folder, "input")
    print("| Input | Workers | Sizes | Status | Processor seconds | Times | Memory, MB | Times |\n|---|---|---|---|---|---|---|---|")
    for name, words, made, large in CASES:
        if not any(it in name for it in options.only.split("|")):
            continue
        for workers in ["64"] if "--workers" in words else options.workers.split(","):
            results = []
            sizes = [max(1, large // 2 // options.small), max(2, large // options.small)]
            for size in sizes:
                more = nulls(size) if name.startswith("null texts") else []
                by = [] if "--workers" in words else ["--workers", workers]
                results.append(measure(options, path, words + more + by, lambda: made(size), "one processor" in name))
            (status, small, _, less), (_, much, _, more) = results
            print(f"| {name} | {workers} | {sizes[0]}, {sizes[1]} | {status} | {small:.2f}, {much:.2f} | {much / max(small, 0.001):.1f} | {less:.0f}, {more:.0f} | {more / less:.1f} |", flush=True)
    shutil.rmtree(folder)


main()
