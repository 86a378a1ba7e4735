"""Tests of the Python module: what it adds to the library.

usage: python3 -m unittest discover python/tests     with numpy and pandas (Debian: python3-numpy python3-pandas)
"""

import ctypes
import datetime
import decimal
import gc
import os
import pathlib
import pickle
import re
import subprocess
import tempfile
import unittest

import numpy
import pandas

import pl_csv
from pl_csv import _library, errors, parts
from pl_csv.words import ReadOptions

ROOT = pathlib.Path(__file__).resolve().parent.parent.parent
SALES = ROOT / "examples" / "sales.csv"
TYPES = {
    "b": "boolean",
    "i": "int64",
    "u": "uint64",
    "w": "int128",
    "s": "string",
    "c": "category",
    "e": "enum/x/y",
    "d": "date",
    "t": "time",
    "m": "datetime/ms",
    "n": "datetime/ns",
    "p": "decimal/9/2",
}
TEXT = (
    b"b,i,u,w,s,c,e,d,t,m,n,p\n"
    b"true,-7,18446744073709551615,-170141183460469231731687303715884105728,\xc3\xa9\"x,q,y,2024-02-29,23:59:59.000001,"
    b"2024-02-29T12:00:00.001,1970-01-01T00:00:00.000000001,-1.25\n"
    b",,,,,,,,,,,\n"
)
CELLS = {
    "b": [True, None],
    "i": [-7, None],
    "u": [2**64 - 1, None],
    "w": [-(2**127), None],
    "s": ["é\"x", None],
    "c": ["q", None],
    "e": ["y", None],
    "d": [datetime.date(2024, 2, 29), None],
    "t": [datetime.time(23, 59, 59, 1), None],
    "m": [datetime.datetime(2024, 2, 29, 12, 0, 0, 1000), None],
    "n": [numpy.datetime64(1, "ns"), None],
    "p": [decimal.Decimal("-1.25"), None],
}


def split(text):
    """Returns a text in which fields, quotes and line ends stand at odd places, with line ends in quotes."""
    records = (f'{it},"line {it}\nwith ""quotes"" and\n{"x" * (it % 13)}",{it * 7 % 11}' for it in range(text))
    return ("a,b,c\n" + "\n".join(records) + "\n").encode()


class Reading(unittest.TestCase):
    def test_each_type_as_python_has_it(self):
        frame = pl_csv.read_csv(TEXT, schema=TYPES, quote_char=None)
        self.assertEqual(frame.to_dict(), CELLS)
        self.assertEqual(frame.dtypes, TYPES)
        self.assertEqual(frame.shape, (2, 12))

    def test_arrays_are_the_memory_of_the_library(self):
        frame = pl_csv.read_csv(b"a,d\n5,2024-01-01\n,\n-7,2024-01-02\n", schema={"a": "int64", "d": "date"})
        array, days = frame["a"].values, frame["d"].values
        view = frame._owner.view.columns[0]
        self.assertEqual(array.ctypes.data, ctypes.cast(view.numbers, ctypes.c_void_p).value)
        self.assertFalse(array.flags.writeable)
        del frame, view
        gc.collect()
        self.assertEqual(array.tolist(), [5, 0, -7])
        self.assertEqual(days.dtype, "datetime64[D]")

    def test_every_array_lies_where_the_library_says(self):
        frame = pl_csv.read_csv(TEXT, schema=TYPES, quote_char=None)
        for column, it in zip(frame, frame._owner.view.columns[: frame.width]):
            arrays = [(column.present, it.present, it.present_len, "bool")]
            if column.dtype == "string":
                arrays += [(column.ends, it.ends, it.ends_len, "int64"), (column.data, it.bytes, it.bytes_len, "uint8")]
            elif it.words_len:
                arrays.append((column.words.reshape(-1), it.words, it.words_len, "uint64"))
            elif column.dtype != "boolean":
                arrays.append((column.values.view("int64"), it.numbers, it.numbers_len, "int64"))
            for array, at, count, kind in arrays:
                self.assertEqual((array.dtype, len(array)), (kind, count), column)
                self.assertEqual(array.tobytes(), ctypes.string_at(at, count * array.itemsize), column)
                self.assertFalse(array.flags.writeable)
                if count:
                    self.assertEqual(array.ctypes.data, ctypes.cast(at, ctypes.c_void_p).value, column)

    def test_pandas_has_nulls_where_they_are(self):
        data = pl_csv.read_csv(TEXT, schema=TYPES, quote_char=None).to_pandas(decimals="float")
        self.assertTrue(data.iloc[1].isna().all())
        self.assertEqual(str(data.dtypes["i"]), "Int64")
        self.assertEqual(str(data.dtypes["c"]), "category")
        self.assertEqual(data["p"][0], -1.25)
        self.assertEqual(data["d"][0], pandas.Timestamp("2024-02-29"))

    def test_words_and_sources(self):
        self.assertEqual(pl_csv.read_csv(SALES, null_values=["NA", "-"])["units"].values.sum(), 61)
        with open(SALES, "rb") as file:
            self.assertEqual(pl_csv.read_csv(file, columns=["shop"], n_rows=2).to_dict(), {"shop": ["Oslo", "Bergen"]})
        self.assertEqual(pl_csv.read_csv(b"1;x\n2;y\n", has_header=False, separator=";", columns=[1]).shape, (2, 1))
        self.assertEqual(pl_csv.read_csv(b"a\n1\n", row_index_name="n", row_index_offset=5)["n"].to_list(), [5])
        self.assertEqual(pl_csv.read_csv(b"a,b\n,x\n", null_values="").to_dict(), {"a": [None], "b": ["x"]})
        self.assertEqual(pl_csv.read_csv_schema(b"a,b\n1,x\n"), {"a": "int64", "b": "string"})
        self.assertEqual(pl_csv.count_rows(SALES), 9)

    def test_an_empty_frame(self):
        frame = pl_csv.read_csv(b"a,b\n", schema={"a": int, "b": str})
        self.assertEqual((frame.shape, frame["a"].values.tolist(), frame["b"].to_list()), ((0, 2), [], []))
        self.assertEqual(pl_csv.read_csv(b"", raise_if_empty=False).shape, (0, 0))

    def test_faults(self):
        with self.assertRaises(errors.RecordError) as caught:
            pl_csv.read_csv(b"a\n1\nx\n", schema={"a": int})
        fault = caught.exception
        self.assertEqual((fault.status, fault.record, fault.column, fault.kind), (24, 1, 0, "value"))
        self.assertEqual(pickle.loads(pickle.dumps(fault)).line, "refusal 14 record 1 column 0 value")
        for error, source, options in (
            (errors.NoDataError, b"", {}),
            (errors.DuplicateError, b"a,a,a_duplicated_0\n", {}),
            (errors.ColumnNotFoundError, b"a\n", {"columns": ["b"]}),
            (errors.OutOfBoundsError, b"a\n", {"columns": [3]}),
            (errors.InvalidOperationError, b"a\n", {"separator": '"'}),
            (errors.InvalidOperationError, b"a\n1\n", {"schema": {"a": int}, "schema_overrides": ["int64", "int64"]}),
            (errors.ArgumentError, b"a\n", {"schema": "a:float64"}),
            (errors.ComputeError, b"\x1f\x8b", {}),
            (ValueError, b"a\n", {"separator": "ab"}),
            (ValueError, b"a\n", {"columns": []}),
            (TypeError, b"a\n", {"no_such": 1}),
        ):
            with self.subTest(options=options), self.assertRaises(error):
                pl_csv.read_csv(source, **options)
        with self.assertRaises(FileNotFoundError):
            pl_csv.read_csv("/no/such/file")


class Sentences(unittest.TestCase):
    def test_what_is_wrong_is_said_as_the_program_says_it(self):
        told = set(re.findall(r'wrong: "(.*)"', (ROOT / "crates/pl_tell/src/sentences.rt").read_text()))
        own = {wrong for wrong, _ in (*errors._SENTENCES.values(), *errors._KINDS.values())}
        # words of the command line have other names here
        self.assertEqual(
            own - told,
            {
                "Lines and rows are both skipped, arrays do not fit together, or a name has a comma or a colon where a schema is told as a text",
                "More types are given than there are columns",
                "columns asks for a place behind the last column",
            },
        )


class Writing(unittest.TestCase):
    def test_a_frame_is_written_as_the_program_writes_it(self):
        program = subprocess.run([ROOT / "pl_csv"], input=SALES.read_bytes(), capture_output=True, check=True).stdout
        self.assertEqual(pl_csv.write_csv(pl_csv.read_csv(SALES)), program)

    def test_what_is_written_is_read_again(self):
        frame = pl_csv.read_csv(TEXT, schema=TYPES, quote_char=None)
        text = pl_csv.write_csv(frame)
        self.assertEqual(pl_csv.read_csv(text, schema=TYPES).to_dict(), CELLS)
        self.assertEqual(pl_csv.write_csv(CELLS, schema=TYPES), text)

    def test_pandas_and_numpy(self):
        data = pandas.DataFrame({"a": [1, 2], "b": pandas.array([True, None], "boolean"), "c": pandas.Categorical(["x", "y"])})
        data["d"] = pandas.to_datetime(["2024-01-01 12:00:00", None])
        text = pl_csv.write_csv(data, schema={"d": "datetime/us"}, quote_style="non_numeric")
        self.assertEqual(text, b'"a","b","c","d"\n1,"true","x","2024-01-01T12:00:00.000000"\n2,,"y",\n')
        self.assertEqual(pl_csv.write_csv({"a": numpy.arange(3, dtype="u1")}, include_header=False), b"0\n1\n2\n")
        self.assertEqual(pl_csv.write_csv({}), b"\n")

    def test_what_has_no_type_is_refused(self):
        with self.assertRaises(TypeError):
            pl_csv.write_csv({"a": numpy.array([1.5])})
        with self.assertRaises(errors.CsvError):
            pl_csv.write_csv({"a": [1], "b": [1, 2]})

    def test_a_file(self):
        with tempfile.TemporaryDirectory() as folder:
            pl_csv.write_csv({"a": ["x", None]}, os.path.join(folder, "out.csv"), null_value="NA", line_terminator="\r\n")
            self.assertEqual(pathlib.Path(folder, "out.csv").read_bytes(), b"a\r\nx\r\nNA\r\n")


class Parts(unittest.TestCase):
    def setUp(self):
        self.folder = tempfile.TemporaryDirectory()
        self.path = pathlib.Path(self.folder.name, "in.csv")

    def tearDown(self):
        self.folder.cleanup()

    def test_parts_joined_are_the_whole(self):
        self.path.write_bytes(split(40))
        whole = pl_csv.read_csv(self.path).to_dict()
        for size in (*range(1, 90), 1000, 10**6):
            joined = {name: [] for name in whole}
            for frame in pl_csv.scan_csv(self.path, part_size=size).frames(4):
                for it in frame:
                    joined[it.name] += it.to_list()
            self.assertEqual(joined, whole, size)

    def test_the_least_fault_with_its_number(self):
        self.path.write_bytes(split(40) + b"x,y,z\n" + split(3)[6:] + b"u,v,w\n")
        for size in (1, 7, 50, 400, 10**6):
            with self.assertRaises(errors.RecordError) as caught:
                list(pl_csv.scan_csv(self.path, part_size=size, schema={"a": int, "b": str, "c": int}))
            self.assertEqual((caught.exception.record, caught.exception.column), (40, 0))

    def test_a_large_head(self):
        self.path.write_bytes(b"a,b\n" + b"1," + b"x" * (3 << 20) + b"\n" + b"2,y\n" * 300 + b"z,y\n")
        scan = pl_csv.scan_csv(self.path, part_size=1 << 20, infer_schema_length=250)
        self.assertEqual(scan.schema, {"a": "int64", "b": "string"})
        self.path.write_bytes(b'"' + b"x" * 100_000 + b"\n" + b'",b\n' + b"1,2\n" * 9)
        for size in (1 << 10, 1 << 20):
            frames = list(pl_csv.scan_csv(self.path, part_size=size, schema={"a": int, "b": str}).frames(2))
            self.assertEqual(sum(it.height for it in frames), 9)

    def test_a_name_that_no_schema_tells(self):
        self.path.write_bytes(b"a:b,c\n1,2\n")
        self.assertEqual(pl_csv.read_csv(self.path).columns, ["a:b", "c"])
        with self.assertRaises(errors.InvalidOperationError):
            pl_csv.scan_csv(self.path)

    def test_a_changed_file_is_refused(self):
        self.path.write_bytes(split(400))
        frames = pl_csv.scan_csv(self.path, part_size=200).frames(1)
        next(frames)
        self.path.write_bytes(split(200))
        with self.assertRaises(parts.ChangedFileError):
            list(frames)

    def test_counts_are_those_of_the_reading(self):
        for data in (b"\n\n1,2,3\n", b"", b"1", b"\xef\xbb\xbf\n", b"#\n\n#x\n1\n"):
            for comment in (None, "#"):
                options = ReadOptions(schema="a:string,b:string,c:string", comment_prefix=comment)
                layout = parts.Layout("", len(data), options.schema, 0, options)
                array = numpy.frombuffer(data, "u1")
                self.assertEqual(parts.count_in(array, layout), parts.read_rows(array, layout).height)


class Arrow(unittest.TestCase):
    """What `c/pl_csv_arrow.c` fills, read by a small reader in C (arrow_reader.c), as pyarrow is not a part of Debian."""

    @classmethod
    def setUpClass(cls):
        cls.folder = tempfile.TemporaryDirectory()
        out = os.path.join(cls.folder.name, "reader.so")
        here = pathlib.Path(__file__).parent
        subprocess.run(["cc", "-std=c11", "-Wall", "-Wextra", "-shared", "-fPIC", "-o", out, here / "arrow_reader.c"], check=True)
        cls.reader = ctypes.CDLL(out)
        cls.reader.read.restype = ctypes.c_size_t
        cls.reader.read.argtypes = [ctypes.c_void_p, ctypes.c_void_p, ctypes.c_char_p, ctypes.c_size_t]

    @classmethod
    def tearDownClass(cls):
        cls.folder.cleanup()

    def read(self, frame):
        schema, array = frame.__arrow_c_array__()
        pointer = ctypes.pythonapi.PyCapsule_GetPointer
        pointer.restype, pointer.argtypes = ctypes.c_void_p, [ctypes.py_object, ctypes.c_char_p]
        out = ctypes.create_string_buffer(1 << 16)
        self.reader.read(pointer(schema, b"arrow_schema"), pointer(array, b"arrow_array"), out, len(out))
        return out.value.decode()

    def test_each_type(self):
        frame = pl_csv.read_csv(TEXT.replace(b"-170141183460469231731687303715884105728", b"-5"), schema=TYPES, quote_char=None)
        expected = (
            "b b: 1 null\ni l: -7 null\nu L: 18446744073709551615 null\nw d:38,0: -5 null\ns U: é\"x null\nc l: q null\ne l: y null\n"
            "d tdD: 19782 null\nt ttn: 86399000001000 null\nm tsm:: 1709208000001 null\nn tsn:: 1 null\np d:9,2: -125 null\n"
        )
        self.assertEqual(self.read(frame), expected)

    def test_an_array_outlives_the_frame(self):
        capsules = pl_csv.read_csv(b"a,b\n1,x\n2,yy\n").__arrow_c_array__()
        gc.collect()

        class Kept:
            def __arrow_c_array__(self):
                return capsules

        self.assertEqual(self.read(Kept()), "a l: 1 2\nb U: x yy\n")

    def test_what_arrow_can_not_tell(self):
        frame = pl_csv.read_csv(b"a\n170141183460469231731687303715884105727\n", schema={"a": "int128"})
        with self.assertRaises(OverflowError):
            frame.__arrow_c_array__()


if __name__ == "__main__":
    unittest.main()
