"""Reads the sales of a few shops, prints the sum of a column, and tells the fault of a file that has one.

usage: python3 examples/python/sales.py [FILE]
"""

import pathlib
import sys

import pl_csv

path = sys.argv[1] if len(sys.argv) > 1 else pathlib.Path(__file__).parent.parent / "sales.csv"
frame = pl_csv.read_csv(path, null_values=["NA", "-"])
units = frame["units"]
print(f"{frame.height} sales, {units.values.sum()} units, {units.null_count} unknown")

try:
    pl_csv.read_csv(path, schema_overrides={"units": "int64"})
except pl_csv.errors.RecordError as fault:
    print(f"record {fault.record}, column {fault.column}: {fault}")
