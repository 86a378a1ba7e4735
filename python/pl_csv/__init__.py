"""CSV into frames and back, by a library whose every function is proved to meet its contract.

    >>> import pl_csv
    >>> frame = pl_csv.read_csv("examples/sales.csv")
    >>> frame["units"].values          # a numpy array over the library's memory, not a copy
    >>> frame.to_pandas()

`read_csv` reads a path, bytes or a file; `scan_csv` reads a file in parts, by threads; `write_csv` writes frames, arrays and data frames;
`count_rows` and `read_csv_schema` look at an input without keeping it. `pl_csv.dask.read_csv` reads files by a cluster.
The errors are in `pl_csv.errors`.
"""

from . import errors
from .frame import Column, Frame
from .reading import count_rows, read_csv, read_csv_schema
from .scanning import Scan, scan_csv
from .writing import write_csv

__version__ = "0.1.0"

__all__ = ["Column", "Frame", "Scan", "count_rows", "errors", "read_csv", "read_csv_schema", "scan_csv", "write_csv"]
