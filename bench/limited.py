#!/usr/bin/env python3
"""Runs the program under limits of its address space (ulimit -v), and checks that it ends with status 0 and all of the text, or with status 5
and a prefix of it: never by a signal, and never not at all (docs/robustness.md)."""
import argparse
import os
import resource
import subprocess
import sys
import tempfile

HERE = os.path.dirname(os.path.realpath(__file__))
PROGRAM = os.path.join(HERE, "..", "release", "pl_csv-x86_64-linux")

SCHEMA = ["--schema", "n:int64,t:string,d:date", "--no-header"]
WAYS = [("printed while it comes", SCHEMA), ("read to a frame", SCHEMA + ["--row-index", "row", "--style", "never"]), ("with inference", []), ("always quoted", SCHEMA + ["--style", "always"])]


def run(program, words, path, limit, environment):
    """Returns the status, the output and the errors of a run; the status of one that does not end is None."""
    with open(path, "rb") as given, tempfile.TemporaryFile() as out:
        limits = (lambda: resource.setrlimit(resource.RLIMIT_AS, (limit, limit))) if limit else None
        try:
            done = subprocess.run([program] + words, stdin=given, stdout=out, stderr=subprocess.PIPE, preexec_fn=limits, env=environment, timeout=300)
        except subprocess.TimeoutExpired:
            return None, b"", b""
        out.seek(0)
        return done.returncode, out.read(), done.stderr


def main():
    parser = argparse.ArgumentParser(description=__doc__)
    parser.add_argument("--program", default=PROGRAM)
    parser.add_argument("--mb", type=int, default=64)
    parser.add_argument("--workers", default="1,4,64")
    parser.add_argument("--arenas", help="the value of MALLOC_ARENA_MAX")
    options = parser.parse_args()
    program, wrong = os.path.realpath(options.program), 0
    environment = {"MALLOC_ARENA_MAX": options.arenas} if options.arenas else {}
    # (20 limits, from a thousandth of the input to sixteen times its size)
    limits = [options.mb * 1000000 * share // 1000 for share in (100, 300, 600, 900, 1100, 1200, 1300, 1500, 1800, 2200, 2600, 3000, 3500, 4000, 4500, 5000, 6000, 8000, 12000, 16000)]
    with tempfile.NamedTemporaryFile(dir="/dev/shm") as made:
        line = b"12345,some plain text,2024-02-29\n"
        made.write(line * (options.mb * 1000000 // len(line)))
        made.flush()
        print("| Way, workers | Status at " + ", ".join(f"{it // 1000000}" for it in limits) + " MB |\n|---|---|")
        for name, words in WAYS:
            whole = run(program, words + ["--workers", "1"], made.name, None, environment)
            for workers in options.workers.split(","):
                seen = []
                for limit in limits:
                    status, out, errors = run(program, words + ["--workers", workers], made.name, limit, environment)
                    right = (status, out, errors) == whole or (status == 5 and errors == b"memory\n" and whole[1].startswith(out))
                    wrong += not right
                    seen.append(f"{status}" if right else f"{status}!")
                print(f"| {name}, {workers} | " + ", ".join(seen) + " |", flush=True)
    print(f"{wrong} wrong")
    sys.exit(1 if wrong else 0)


main()
