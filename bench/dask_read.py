#!/usr/bin/env python3
"""bench/dask_read.py  measures pl_csv.dask.read_csv beside dask.dataframe.read_csv (pandas) on one cluster of this machine, over one file.

usage: PYTHONPATH=python /usr/bin/python3 bench/dask_read.py [--mb N] [--processes N,..] [--workload NAME] [--block-mb N] [--rounds N]

The file is in memory (tmpfs). Each task is: read all partitions, with the same types told, decimals as floats, and add up a column. The runs
are interleaved; the least time of the rounds counts. It prints a table of seconds.
"""

import argparse
import os
import pathlib
import subprocess
import sys
import tempfile
import time

import dask.dataframe
import dask.distributed

import pl_csv.dask

HERE = pathlib.Path(__file__).resolve().parent
sys.path.insert(0, str(HERE))
from numpy_read import workloads


def ours(path, columns, types, block):
    return pl_csv.dask.read_csv(path, {name: types[kind] for name, kind in columns}, block, decimals="float")


def theirs(path, columns, types, block):
    kinds = {"int": "Int64", "text": "object", "dec2": "float64"}
    return dask.dataframe.read_csv(
        path,
        blocksize=block,
        dtype={name: kinds[kind] for name, kind in columns if kind in kinds},
        parse_dates=[name for name, kind in columns if kind in ("date", "datetime")] or False,
        keep_default_na=False,
        na_values={name: [""] for name, kind in columns if kind != "text"},
    )


def main():
    parser = argparse.ArgumentParser(description=__doc__, formatter_class=argparse.RawDescriptionHelpFormatter)
    parser.add_argument("--mb", type=int, default=2000)
    parser.add_argument("--processes", default="1,2,4")
    parser.add_argument("--workload", default="mixed")
    parser.add_argument("--block-mb", type=int, default=64)
    parser.add_argument("--rounds", type=int, default=1)
    it = parser.parse_args()
    known, types = workloads()
    columns = known[it.workload]
    wanted = next(name for name, kind in columns if kind == "int")
    with tempfile.TemporaryDirectory(dir="/dev/shm") as folder:
        maker, path = f"{folder}/make_data", f"{folder}/{it.workload}.csv"
        subprocess.run(["cc", "-O2", "-o", maker, HERE / "make_data.c"], check=True)
        with open(path, "wb") as out:
            subprocess.run([maker, it.workload, "--mb", str(it.mb)], stdout=out, check=True)
        print(f"{it.workload}, {os.path.getsize(path) / 1e6:.0f} MB\n\n| Processes | pl_csv.dask, s | dask, s | times as fast |\n|--:|--:|--:|--:|")
        for count in map(int, it.processes.split(",")):
            least = {}
            with dask.distributed.LocalCluster(n_workers=count, threads_per_worker=1, dashboard_address=None) as cluster:
                with dask.distributed.Client(cluster):
                    for _ in range(it.rounds):
                        for call in (ours, theirs):
                            began = time.perf_counter()
                            total = call(path, columns, types, it.block_mb * 10**6)[wanted].sum().compute()
                            least.setdefault(call, []).append((time.perf_counter() - began, int(total)))
            assert len({total for runs in least.values() for _, total in runs}) == 1
            one, other = (min(least[call])[0] for call in (ours, theirs))
            print(f"| {count} | {one:.1f} | {other:.1f} | {other / one:.1f} |", flush=True)


if __name__ == "__main__":
    main()
