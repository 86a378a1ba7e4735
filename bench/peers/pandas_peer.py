"""pandas_peer.py IN OUT SCHEMA: read_csv (its C engine) and to_csv of pandas. Tells the seconds without Python's own start."""
import sys
import time

import pandas

source, target, schema = sys.argv[1:4]
columns = [column.rsplit(":", 1) for column in schema.split(",")]
kinds = {"int": "Int64", "text": "object", "dec2": "float64"}
moments = [name for name, kind in columns if kind in ("date", "datetime")]
began = time.perf_counter()
frame = pandas.read_csv(
    source,
    engine="c",
    dtype={name: kinds[kind] for name, kind in columns if kind in kinds},
    parse_dates=moments or False,
    keep_default_na=False,
    na_values={name: [""] for name, kind in columns if kind != "text"},
    low_memory=False,
)
frame.to_csv(target, index=False, lineterminator="\n")
print(f"seconds {time.perf_counter() - began:.6f}", file=sys.stderr)
