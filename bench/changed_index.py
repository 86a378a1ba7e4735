#!/usr/bin/env python3
"""Builds the index of an input of a million records, each with a place, and has it refused with one byte of it changed, a thousand times."""
import argparse
import hashlib
import os
import random
import subprocess
import sys
import tempfile

HERE = os.path.dirname(os.path.realpath(__file__))
PROGRAM = os.path.join(HERE, "..", "release", "pl_csv-x86_64-linux")
WORDS = ["--schema", "a:int64,b:string"]
# What stands in front of the places, by docs/index.md, "The bytes of an index": no comment prefix here.
HEAD = [("magic", 8), ("digest", 32), ("separator", 1), ("has quote", 1), ("quote", 1), ("line end", 1), ("header", 1), ("keep", 1),
        ("skip rows", 8), ("skip lines", 8), ("skip after", 8), ("prefix length", 8), ("every", 8), ("records", 8)]
SIZE = sum(size for _, size in HEAD)


def make_input(records):
    """Records with quoted fields among them, and their places, which are known as they are made."""
    parts, places, at = ["a,b\n"], [], 4
    for number in range(records):
        text = f'{number},"x\n""{number % 10}"""\n' if number % 5 == 0 else f"{number},y\n"
        places.append(at)
        parts.append(text)
        at += len(text)
    return "".join(parts).encode(), places


def index_of(text, places):
    """The bytes of the index whose groups are single records, by docs/index.md."""
    number = lambda n: n.to_bytes(8, "big")
    head = b"PLSEEK1\n" + hashlib.sha256(text).digest() + b"," + b"\x01\"" + b"\n" + b"\x01\x00" + 4 * number(0) + number(1) + number(len(places))
    return head + b"".join(map(number, places))


def field_at(offset):
    """The name of the field of the head that has this byte, and where the field begins."""
    begin = 0
    for name, size in HEAD:
        if offset < begin + size:
            return name, begin
        begin += size
    return "places", SIZE


def wanted(index, offset, byte, places):
    """The status and the fault line that docs/command-line.md asks for, where the byte at an offset is another one."""
    name, begin = field_at(offset)
    if name == "magic" or name in ("every", "records", "prefix length"):
        # Another number of bytes would be needed: no two such heads go with as many places.
        return 30, "format\n"
    if name == "digest":
        return 31, "input\n"
    if name in ("has quote", "header", "keep") and byte > 1 or name == "has quote" and byte == 0:
        # Without a quote its byte is 0, which it is not here.
        return 30, "format\n"
    if name != "places":
        return 32, "settings\n"
    place = (offset - SIZE) // 8
    at = SIZE + 8 * place
    changed = bytearray(index[at:at + 8])
    changed[(offset - SIZE) % 8] = byte
    changed = int.from_bytes(changed, "big")
    if place > 0 and changed <= places[place - 1] or place + 1 < len(places) and changed >= places[place + 1]:
        return 30, "format\n"
    return 33, f"places {place}\n"


def offsets(rng, count, size):
    """Places of bytes: each of the head, and of the others as many low as high bytes of a place."""
    chosen = list(range(SIZE))
    while len(chosen) < count:
        chosen.append(SIZE + 8 * rng.randrange((size - SIZE) // 8) + rng.choice((rng.randrange(8), 7)))
    return chosen[:count]


def main():
    said = argparse.ArgumentParser(description=__doc__)
    said.add_argument("program", nargs="?", default=PROGRAM)
    said.add_argument("--records", type=int, default=1_000_000)
    said.add_argument("--count", type=int, default=1000)
    said.add_argument("--seed", type=int, default=1)
    said = said.parse_args()
    rng = random.Random(said.seed)
    text, places = make_input(said.records)
    index = index_of(text, places)
    met, bad = {}, 0
    with tempfile.TemporaryDirectory() as folder:
        path, index_path = os.path.join(folder, "in.csv"), os.path.join(folder, "index")
        with open(path, "wb") as file:
            file.write(text)
        built = subprocess.run([said.program, "seek", "build", "1", path, *WORDS], capture_output=True)
        if (built.returncode, built.stdout) != (0, index):
            sys.exit(f"the index is another one: status {built.returncode}")
        slice_words = [said.program, "seek", "slice", str(said.records - 1), "1", path, index_path, *WORDS]
        with open(index_path, "wb") as file:
            file.write(index)
        sound = subprocess.run(slice_words, capture_output=True)
        last = text[places[-1]:]
        if (sound.returncode, sound.stdout) != (0, b"a,b\n" + last):
            sys.exit(f"the slice is another one: status {sound.returncode}")
        for offset in offsets(rng, said.count, len(index)):
            byte = rng.choice([byte for byte in range(256) if byte != index[offset]])
            if offset >= SIZE and rng.random() < 0.5:
                # The least changes are the ones that a place can hide.
                byte = index[offset] ^ 1
            with open(index_path, "r+b") as file:
                file.seek(offset)
                file.write(bytes([byte]))
            answer = subprocess.run(slice_words, capture_output=True)
            with open(index_path, "r+b") as file:
                file.seek(offset)
                file.write(index[offset:offset + 1])
            status, line = wanted(index, offset, byte, places)
            met[status] = met.get(status, 0) + 1
            if (answer.returncode, answer.stdout, answer.stderr.decode()) != (status, b"", line):
                bad += 1
                print(f"byte {offset} from {index[offset]} to {byte}: status {answer.returncode}, {answer.stderr.decode()!r}; wanted {status}, {line!r}")
    print(f"{len(places)} places, one byte changed {said.count} times, {bad} answers other than wanted; statuses", dict(sorted(met.items())))
    return bad > 0


if __name__ == "__main__":
    sys.exit(main())
