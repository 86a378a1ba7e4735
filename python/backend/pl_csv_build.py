"""Builds the wheel of pl_csv by what Python itself has (PEP 517): the package, and the library that the repository's release holds.

The library is release/libpl_csv-x86_64-linux.so, or what PL_CSV_LIBRARY names. No compiler is needed, and nothing is fetched.
"""

import base64
import hashlib
import os
import pathlib
import zipfile

_HERE = pathlib.Path(__file__).resolve().parent.parent
_NAME, _VERSION, _TAG = "pl_csv", "0.1.0", "py3-none-linux_x86_64"
_INFO = f"{_NAME}-{_VERSION}.dist-info"
_DATE = (1980, 1, 1, 0, 0, 0)


def _library() -> pathlib.Path:
    given = os.environ.get("PL_CSV_LIBRARY")
    path = pathlib.Path(given) if given else _HERE.parent / "release" / "libpl_csv-x86_64-linux.so"
    if not path.is_file():
        raise RuntimeError(f"pl_csv: there is no library at {path}: set PL_CSV_LIBRARY to one")
    return path


def _files() -> "dict[str, bytes]":
    """Returns what the wheel holds, but the list of it."""
    package = _HERE / _NAME
    files = {f"{_NAME}/{it.name}": it.read_bytes() for it in sorted(package.iterdir()) if it.suffix == ".py" or it.name == "py.typed"}
    files[f"{_NAME}/libpl_csv.so"] = _library().read_bytes()
    files[f"{_INFO}/METADATA"] = (
        f"Metadata-Version: 2.1\nName: {_NAME}\nVersion: {_VERSION}\nRequires-Python: >=3.9\nRequires-Dist: numpy\n"
        "Summary: CSV into frames and back, by a library that is proved to meet its contracts\n"
    ).encode()
    files[f"{_INFO}/WHEEL"] = f"Wheel-Version: 1.0\nGenerator: pl_csv_build\nRoot-Is-Purelib: false\nTag: {_TAG}\n".encode()
    return files


def _line(name: str, data: bytes) -> str:
    digest = base64.urlsafe_b64encode(hashlib.sha256(data).digest()).rstrip(b"=").decode()
    return f"{name},sha256={digest},{len(data)}\n"


def build_wheel(wheel_directory, config_settings=None, metadata_directory=None):
    """Writes the wheel into a folder, and returns its name. The same files give the same bytes."""
    files = _files()
    record = "".join(_line(name, data) for name, data in files.items()) + f"{_INFO}/RECORD,,\n"
    files[f"{_INFO}/RECORD"] = record.encode()
    name = f"{_NAME}-{_VERSION}-{_TAG}.whl"
    with zipfile.ZipFile(os.path.join(wheel_directory, name), "w", zipfile.ZIP_DEFLATED) as wheel:
        for path, data in files.items():
            wheel.writestr(zipfile.ZipInfo(path, _DATE), data, zipfile.ZIP_DEFLATED)
    return name


def get_requires_for_build_wheel(config_settings=None):
    return []


def build_sdist(sdist_directory, config_settings=None):
    raise RuntimeError("pl_csv: there is no source distribution: install from the repository, or build a wheel")
