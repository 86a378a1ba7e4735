#!/usr/bin/env python3
"""Drives `pl_csv stream` through pipes: each record has to come as soon as its line end came, and the memory has to stay flat.

bench/streams.py                    # record by record, and the memory for 10 MB and 1 GB
bench/streams.py --gigabytes 20     # the memory for 20 GB as well
"""

import argparse
import os
import select
import subprocess
import sys
import threading

HERE = os.path.dirname(os.path.realpath(__file__))
PROGRAM = os.path.join(HERE, "..", "release", "pl_csv-x86_64-linux")
SCHEMA = "id:int64,day:date,name:string,price:decimal/10/2"
HEAD = b"id,day,name,price\n"
# What is fed, and what has to be there before the next is fed.
STEPS = [
    (b"id,day,na", b""),
    (b"me,price\n", b""),
    (b"1,2024-02-29,tea,1.50\n", HEAD + b"1,2024-02-29,tea,1.50\n"),
    (b'2,2024-03-01,"sugar, white",', b""),
    (b'10.25\n3,2024-03-02,"two\nlines",', b'2,2024-03-01,"sugar, white",10.25\n'),
    (b"0.10\n", b'3,2024-03-02,"two\nlines",0.10\n'),
    (b"4,2024-03-03,salt,2.00", b""),
]
LAST = b"4,2024-03-03,salt,2.00\n"
# The longest record of the rows for memory is far shorter than a piece; 8 MB is what a stream may take beside it.
MOST_KB = 8 * 1024


def start(program, *words):
    return subprocess.Popen([program, "stream", "--schema", SCHEMA, *words],
                            stdin=subprocess.PIPE, stdout=subprocess.PIPE)


def gained(file, wanted):
    """Reads until so many bytes came, or for ten seconds, and then for a tenth of a second what should not come."""
    text = b""
    while len(text) < wanted:
        if not select.select([file], [], [], 10)[0]:
            return text
        more = os.read(file.fileno(), 65536)
        if not more:
            return text
        text += more
    while select.select([file], [], [], 0.1)[0]:
        more = os.read(file.fileno(), 65536)
        if not more:
            break
        text += more
    return text


def record_by_record(program):
    """Whether each record is written before more is fed."""
    run = start(program)
    for piece, wanted in STEPS:
        os.write(run.stdin.fileno(), piece)
        text = gained(run.stdout, len(wanted))
        if text != wanted:
            print("fed", piece, "wanted", wanted, "came", text)
            run.kill()
            return False
    run.stdin.close()
    text = run.stdout.read()
    status = run.wait()
    if text != LAST or status != 0:
        print("the end: came", text, "status", status)
        return False
    return True


def feed(run, megabytes):
    """Feeds so many megabytes of rows."""
    rows = b"".join(b"%d,2024-02-29,some name,%d.%02d\n" % (i, i % 1000, i % 100) for i in range(40000))
    left = megabytes * 1000000
    while left > 0:
        run.stdin.write(rows[:rows.rfind(b"\n", 0, left) + 1] if left < len(rows) else rows)
        left -= len(rows)
    run.stdin.close()


def peak_kb(run):
    with open("/proc/%d/status" % run.pid) as lines:
        return max((int(line.split()[1]) for line in lines if line.startswith("VmHWM")), default=0)


def memory(program, megabytes):
    """The most memory in KB that a stream of so many megabytes takes, and its status."""
    run = start(program, "--no-header")
    feeder = threading.Thread(target=feed, args=(run, megabytes))
    feeder.start()
    peak = came = 0
    while True:
        text = os.read(run.stdout.fileno(), 1 << 20)
        if not text:
            break
        if came >> 22 != (came + len(text)) >> 22:
            peak = max(peak, peak_kb(run))
        came += len(text)
    feeder.join()
    return peak, run.wait()


def main():
    asked = argparse.ArgumentParser(description=__doc__.split("\n", 1)[0])
    asked.add_argument("program", nargs="?", default=PROGRAM)
    asked.add_argument("--gigabytes", type=int, default=0)
    given = asked.parse_args()
    wrong = 0
    if record_by_record(given.program):
        print("record by record: each came before more was fed")
    else:
        wrong += 1
    for megabytes in [10, 1000] + [given.gigabytes * 1000] * (given.gigabytes > 0):
        peak, status = memory(given.program, megabytes)
        print("%d MB: %d KB, status %d" % (megabytes, peak, status), flush=True)
        wrong += status != 0 or not 0 < peak <= MOST_KB
    sys.exit(1 if wrong else 0)


main()
