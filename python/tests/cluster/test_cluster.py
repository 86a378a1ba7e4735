"""Tests of `pl_csv.dask`: the same bytes give the same frame, for every block size, number of processes and order of tasks.

usage: python/tests/cluster/run      which says what it needs
"""

import os
import pathlib
import signal
import subprocess
import tempfile
import time
import unittest

import dask
import dask.distributed
import pandas.testing

import pl_csv
import pl_csv.dask
from pl_csv import errors, parts

ROOT = pathlib.Path(__file__).resolve().parent.parent.parent.parent
DIALECTS = [
    {},
    {"separator": ";", "quote_char": "'"},
    {"quote_char": None},
    {"comment_prefix": "#"},
    {"has_header": False, "skip_rows": 1, "eol_char": "|"},
]


def sample(count, dialect):
    """Returns records with quoted line ends, doubled quotes, blank lines, comments and long fields, in a dialect."""
    separator, quote, eol = dialect.get("separator", ","), dialect.get("quote_char", '"'), dialect.get("eol_char", "\n")
    lines = ["skipped"] * dialect.get("skip_rows", 0) + ([] if dialect.get("has_header") is False else [separator.join("abc")])
    for it in range(count):
        text = f"line {it}" if quote is None else f"{quote}line {it}{eol}with {quote}{quote}marks{quote}{quote}{eol}{'x' * (it % 23)}{quote}"
        lines.append(separator.join([str(it), text, str(it * 7 % 11)]))
        if it % 5 == 0 and "comment_prefix" in dialect:
            lines.append("# a \"comment")
        if it % 9 == 0:
            lines.append("")
    return (eol.join(lines) + eol).encode()


def same(found, expected):
    pandas.testing.assert_frame_equal(found.reset_index(drop=True), expected)


class Blocks(unittest.TestCase):
    """By one thread, so that many sizes can be tried."""

    def setUp(self):
        self.folder = tempfile.TemporaryDirectory()
        self.path = pathlib.Path(self.folder.name, "in.csv")
        self.set = dask.config.set(scheduler="synchronous")

    def tearDown(self):
        self.folder.cleanup()

    def test_every_block_size(self):
        for dialect in DIALECTS:
            self.path.write_bytes(sample(12, dialect))
            whole = pl_csv.read_csv(self.path, **dialect).to_pandas(nullable=True)
            for size in (*range(1, 24), *range(24, self.path.stat().st_size + 20, 53)):
                with self.subTest(dialect=dialect, size=size):
                    same(pl_csv.dask.read_csv(self.path, blocksize=size, **dialect).compute(), whole)

    def test_row_numbers_over_all_files(self):
        second = pathlib.Path(self.folder.name, "second.csv")
        self.path.write_bytes(sample(9, {}))
        second.write_bytes(sample(7, {}))
        found = pl_csv.dask.read_csv([self.path, second], blocksize=70, row_index_name="n", row_index_offset=5).compute()
        first, last = pl_csv.read_csv(self.path), pl_csv.read_csv(second)
        self.assertEqual(found["n"].tolist(), list(range(5, 5 + first.height + last.height)))
        self.assertEqual(found["a"].astype("object").tolist()[-1], last["a"].to_list()[-1])
        listed = pl_csv.dask.read_csv(os.path.join(self.folder.name, "*.csv"), blocksize=70).compute()
        self.assertEqual(len(listed), first.height + last.height)

    def test_an_index_gives_the_same(self):
        self.path.write_bytes(sample(40, {}))
        schema, index = "a:int64,b:string,c:int64", pathlib.Path(self.folder.name, "in.index")
        whole = pl_csv.read_csv(self.path, schema=schema).to_pandas(nullable=True)
        for every in (1, 3, 100):
            built = subprocess.run([ROOT / "pl_csv", "seek", "build", str(every), self.path, "--schema", schema], capture_output=True)
            index.write_bytes(built.stdout)
            for size in (1, 50, 300, 10**6):
                same(pl_csv.dask.read_csv(self.path, schema, size, index).compute(), whole)
        with self.assertRaises(parts.ChangedFileError):
            pl_csv.dask.read_csv(self.path, schema, index=index, has_header=False)
        with self.assertRaises(ValueError):
            pl_csv.dask.read_csv(self.path, schema, index=self.path)

    def test_the_least_fault(self):
        self.path.write_bytes(sample(20, {}) + b"x,y,1\n" + sample(4, {})[6:] + b"u,v,1\n")
        rows = pl_csv.read_csv(sample(20, {})).height
        for size in (1, 33, 400, 10**6):
            with self.assertRaises(errors.RecordError) as caught:
                pl_csv.dask.read_csv(self.path, {"a": int, "b": str, "c": int}, size).compute()
            self.assertEqual((caught.exception.record, caught.exception.column), (rows, 0))

    def test_what_has_no_meaning(self):
        self.path.write_bytes(b"a\n1\n")
        for options in ({"n_rows": 1}, {"blocksize": "many"}, {"blocksize": 0}, {"index": []}):
            with self.assertRaises(ValueError):
                pl_csv.dask.read_csv([self.path], **options)
        for paths in ("/no/such/file", "/no/such/*.csv", []):
            with self.assertRaises(FileNotFoundError):
                pl_csv.dask.read_csv(paths)

    def test_empty_files(self):
        self.path.write_bytes(b"a,b\n")
        self.assertEqual(len(pl_csv.dask.read_csv(self.path, {"a": int, "b": str}).compute()), 0)


class Processes(unittest.TestCase):
    def setUp(self):
        self.folder = tempfile.TemporaryDirectory()
        self.path = pathlib.Path(self.folder.name, "in.csv")
        self.path.write_bytes(sample(20000, {}))
        self.whole = pl_csv.read_csv(self.path).to_pandas(nullable=True)

    def tearDown(self):
        self.folder.cleanup()

    def test_one_two_and_four(self):
        for count in (1, 2, 4):
            with dask.distributed.LocalCluster(n_workers=count, threads_per_worker=1, dashboard_address=None) as cluster:
                with dask.distributed.Client(cluster):
                    for size in (9973, 200_000):
                        same(pl_csv.dask.read_csv(self.path, blocksize=size).compute(), self.whole)

    def test_a_worker_is_killed(self):
        with dask.distributed.LocalCluster(n_workers=2, threads_per_worker=1, dashboard_address=None) as cluster:
            with dask.distributed.Client(cluster) as client:
                found = client.compute(pl_csv.dask.read_csv(self.path, blocksize=3000).map_partitions(slowly, meta=self.whole.head(0)))
                time.sleep(1)
                victim = next(iter(cluster.workers.values()))
                self.assertFalse(found.done())
                os.kill(victim.pid, signal.SIGKILL)
                same(found.result(), self.whole)

    def test_a_changed_file_is_refused(self):
        frame = pl_csv.dask.read_csv(self.path, blocksize=20000)
        (ranges,) = dask.compute(plan_of(self.path, 20000))
        layout = parts.layout_of(self.path, pl_csv.words.ReadOptions())
        self.path.write_bytes(self.path.read_bytes().replace(b"line 7", b"Line 7", 1))
        with self.assertRaises(parts.ChangedFileError):
            [parts.data_of(layout, it) for it in ranges if it.blocks]
        # what was not summarised yet is read as it is now
        self.assertEqual(len(frame.compute(scheduler="synchronous")), len(self.whole))


def plan_of(path, size):
    layout = parts.layout_of(path, pl_csv.words.ReadOptions())
    return dask.delayed(parts.ranges_of)([dask.delayed(parts.summarize)(layout, *it) for it in layout.cuts(size)])


def slowly(frame):
    time.sleep(0.01)
    return frame


class WithoutDask(unittest.TestCase):
    """examples/cluster: slices of an index by `xargs`, and the same as an array of Slurm."""

    def test_slices_joined_are_the_whole(self):
        with tempfile.TemporaryDirectory() as folder:
            path, out = pathlib.Path(folder, "in.csv"), pathlib.Path(folder, "out")
            path.write_bytes(sample(500, {}))
            schema = "a:int64,b:string,c:int64"
            whole = subprocess.run([ROOT / "pl_csv", "--schema", schema], input=path.read_bytes(), capture_output=True, check=True).stdout
            for jobs, records in ((1, 7), (4, 60), (4, 10**6)):
                script = [ROOT / "examples/cluster/slices", path, out, str(records), str(jobs), "--schema", schema]
                subprocess.run(script, check=True, env={**os.environ, "PL_CSV": str(ROOT / "pl_csv")})
                self.assertEqual(b"".join(it.read_bytes() for it in sorted(out.glob("part-*.csv"))), whole)


if __name__ == "__main__":
    unittest.main()
