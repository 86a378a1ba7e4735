#!/usr/bin/env python3
"""bench/numpy_read.py  measures reading into numpy arrays by the Python module, beside pandas' read_csv (its C engine).

usage: PYTHONPATH=python /usr/bin/python3 bench/numpy_read.py [--mb N] [--rounds N] [--workloads NAME,..] [--reader PROGRAM]

Each workload is a file in memory (tmpfs), read by: the module, which keeps every cell typed as numpy arrays; four Python threads over parts of
it; pandas, with the same types told, decimals as floats; and, where --reader names it, the program pl_csv_read by one worker, which keeps a frame
and no arrays. The runs are interleaved; the least time of the rounds counts, of the call alone. It prints a table of MB/s.
"""

import argparse
import importlib.util
import os
import pathlib
import subprocess
import tempfile
import time

import pandas

import pl_csv

HERE = pathlib.Path(__file__).resolve().parent


def workloads():
    """Returns the columns of each workload, as compare.py has them."""
    spec = importlib.util.spec_from_file_location("compare", HERE / "compare.py")
    compare = importlib.util.module_from_spec(spec)
    spec.loader.exec_module(compare)
    return compare.WORKLOADS, compare.TYPES


def arrays(frame):
    """Returns the arrays of all columns, and which cells are there."""
    return [((it.ends, it.data) if it.dtype == "string" else it.values, it.present) for it in frame]


def by_module(path, columns, types):
    return arrays(pl_csv.read_csv(path, schema={name: types[kind] for name, kind in columns}))


def by_threads(path, columns, types):
    scan = pl_csv.scan_csv(path, part_size=4 << 20, schema={name: types[kind] for name, kind in columns})
    return [arrays(it) for it in scan.frames(4)]


def by_pandas(path, columns, types):
    kinds = {"int": "Int64", "text": "object", "dec2": "float64"}
    return pandas.read_csv(
        path,
        engine="c",
        dtype={name: kinds[kind] for name, kind in columns if kind in kinds},
        parse_dates=[name for name, kind in columns if kind in ("date", "datetime")] or False,
        keep_default_na=False,
        na_values={name: [""] for name, kind in columns if kind != "text"},
        low_memory=False,
    )


def timed(call, *arguments):
    began = time.perf_counter()
    kept = call(*arguments)
    lasted = time.perf_counter() - began
    del kept
    return lasted


def by_reader(reader, path, columns, types):
    words = [reader, "--workers", "1", "--schema", ",".join(f"{name}:{types[kind]}" for name, kind in columns)]
    with open(path, "rb") as file:
        subprocess.run(words, stdin=file, stdout=subprocess.DEVNULL, check=True)


def main():
    parser = argparse.ArgumentParser(description=__doc__, formatter_class=argparse.RawDescriptionHelpFormatter)
    parser.add_argument("--mb", type=int, default=40)
    parser.add_argument("--rounds", type=int, default=5)
    parser.add_argument("--workloads", default="mixed,ints,strings,quoted,taxi,wide")
    parser.add_argument("--reader")
    it = parser.parse_args()
    known, types = workloads()
    with tempfile.TemporaryDirectory(dir="/dev/shm") as folder:
        maker = f"{folder}/make_data"
        subprocess.run(["cc", "-O2", "-o", maker, HERE / "make_data.c"], check=True)
        print("| Workload | by one thread | by four | pandas | one / pandas | four / one | a frame alone |\n|---|--:|--:|--:|--:|--:|--:|")
        for name in it.workloads.split(","):
            path = f"{folder}/{name}.csv"
            with open(path, "wb") as out:
                subprocess.run([maker, name, "--mb", str(it.mb)], stdout=out, check=True)
            size, least = os.path.getsize(path) / 1e6, {}
            for round in range(it.rounds):
                calls = [by_module, by_threads] + ([by_pandas] if round < 2 else [])
                for call in calls:
                    least.setdefault(call, []).append(timed(call, path, known[name], types))
                if it.reader:
                    least.setdefault(by_reader, []).append(timed(by_reader, it.reader, path, known[name], types))
            one, four, other = (size / min(least[call]) for call in (by_module, by_threads, by_pandas))
            alone = f"{size / min(least[by_reader]):.0f}" if it.reader else "-"
            print(f"| {name} | {one:.0f} | {four:.0f} | {other:.0f} | {one / other:.1f} | {four / one:.2f} | {alone} |", flush=True)
            os.remove(path)


if __name__ == "__main__":
    main()
