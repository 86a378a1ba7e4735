#!/usr/bin/env python3
"""Gives the program 2^36 bytes, the longest input, and one byte more, and checks that the first is converted and the second is refused as too long
(docs/robustness.md). The program keeps its input in memory: here all of it is zero bytes, which are blank lines under the words that are given, and
64 MiB of memory stand for all (thin.c). It takes some minutes of a processor; Linux has to allow 128 GiB of address space."""
import argparse
import os
import subprocess
import sys
import tempfile
import time

HERE = os.path.dirname(os.path.realpath(__file__))
PROGRAM = os.path.join(HERE, "..", "release", "pl_csv-x86_64-linux")

WORDS = ["--eol", "x00", "--schema", "n:int64,t:string", "--no-header"]
LONGEST = 2**36


def give(file, size):
    """Writes so many zero bytes, until nobody reads any more; tells how many were taken."""
    block, given = bytes(1 << 20), 0
    try:
        while given < size:
            given += os.write(file, block[: size - given])
    except BrokenPipeError:
        pass
    return given


def run(program, thin, workers, size):
    """Returns the status, the output, the errors, the bytes given, and the seconds of the processor and of the clock."""
    began = time.perf_counter()
    with tempfile.TemporaryFile() as out, tempfile.TemporaryFile() as errors:
        process = subprocess.Popen([program] + WORDS + ["--workers", workers], stdin=subprocess.PIPE, stdout=out, stderr=errors, env={"LD_PRELOAD": thin})
        given = give(process.stdin.fileno(), size)
        process.stdin.close()
        _, status, used = os.wait4(process.pid, 0)
        process.returncode = os.waitstatus_to_exitcode(status)
        out.seek(0)
        errors.seek(0)
        return process.returncode, out.read(), errors.read(), given, used.ru_utime + used.ru_stime, time.perf_counter() - began


def main():
    parser = argparse.ArgumentParser(description=__doc__)
    parser.add_argument("--program", default=PROGRAM)
    parser.add_argument("--workers", default="1,4")
    options = parser.parse_args()
    program, wrong = os.path.realpath(options.program), 0
    with tempfile.TemporaryDirectory() as folder:
        thin = os.path.join(folder, "thin.so")
        subprocess.run(["cc", "-O2", "-shared", "-fPIC", "-o", thin, os.path.join(HERE, "thin.c"), "-lpthread"], check=True)
        print("| Bytes, workers | Status | Output | Errors | Processor seconds | Seconds |\n|---|---|---|---|---|---|")
        for workers in options.workers.split(","):
            for size, wanted in ((LONGEST, (0, b"n,t\n", b"")), (LONGEST + 1, (6, b"", b"too long\n"))):
                status, out, errors, given, used, took = run(program, thin, workers, size)
                wrong += (status, out, errors) != wanted or given != size
                print(f"| {size}, {workers} | {status} | {out.decode()!r} | {errors.decode()!r} | {used:.0f} | {took:.0f} |", flush=True)
    print(f"{wrong} wrong")
    sys.exit(1 if wrong else 0)


main()
