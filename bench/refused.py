#!/usr/bin/env python3
"""Has each allocation, read, write and start of a thread of the program fail in turn, and checks what it answers (docs/robustness.md)."""
import argparse
import os
import shutil
import subprocess
import sys
import tempfile

HERE = os.path.dirname(os.path.realpath(__file__))
PROGRAM = os.path.join(HERE, "..", "release", "pl_csv-x86_64-linux")

TYPES = (
    "a:boolean,b:int8,c:int64,d:int128,e:uint64,f:string,g:category,h:enum/x/y,i:date,j:time,k:datetime/us,l:decimal/38/2",
    "true,-1,2,-170141183460469231731687303715884105728,18446744073709551615,\"a \"\"b\"\"\",q,x,2024-02-29,23:59:59.500000000,2024-02-29T00:00:00.000001,1.50\n"
    "false,127,-9,7,0,,p,y,0000-01-01,00:00:00.000000000,9999-12-31T23:59:59.999999,-0.01\n",
)
SALES = (
    "# export of March\nid,day,shop,amount,note\n1,2024-02-29,Oslo,12.50,\"fine, thanks\"\n2,2024-03-01,,-3,\n3,NA,Bergen,n/a,\"say \"\"hi\"\"\"\n"
    "4,2024-03-02,-,7,ok\n"
)


def large(size):
    """Rows that are written as they were read, and in every tenth some that are not; a quoted line end in every seventh."""
    rows, length = [], 0
    while length < size:
        number = len(rows)
        note = "plain text" if number % 7 else '"a line\nand ""another"""'
        day = "2024-02-29" if number % 3 else ""
        rows.append(f"{'+' if number % 10 == 0 else ''}{number},{note},{day}\n")
        length += len(rows[-1])
    return "".join(rows)


def cases(size):
    """Yields the name, the words and the input of each case."""
    three = ["--schema", "n:int64,t:string,d:date", "--no-header"]
    rows = large(size)
    sales = ["--comment", "#", "--dates", "--nulls", "NA,n/a,-"]
    for workers in ("1", "3"):
        by = ["--workers", workers]
        yield f"quoted line ends, {workers}", ["--schema", "t:string", "--no-header", "--piece", "1"] + by, 'x"y\n"c\nd"\n'
        yield f"four categories, {workers}", ["--schema", "c:category", "--no-header", "--piece", "1"] + by, "q\np\nq\nr\n"
        yield f"sales with inference, {workers}", sales + by, SALES
        yield f"every type, {workers}", ["--schema", TYPES[0], "--no-header", "--piece", "1"] + by, TYPES[1]
        yield f"every type under a limit, {workers}", ["--schema", TYPES[0], "--no-header", "--piece", "1", "--limit", "9", "--style", "always"] + by, TYPES[1]
        yield f"a misfit, {workers}", three + ["--piece", "1"] + by, "1,a,\n2,b,\nx,c,\n4,d,\n"
        yield f"a name that stands twice, {workers}", by, "a,a,a_duplicated_0\n1,2,3\n"
        yield f"a name that is not there, {workers}", three + ["--columns", "t,z"] + by, "1,a,\n"
    four = ["--workers", "4", "--piece", "16384"]
    yield "printed while it comes, 4", three + four, rows
    yield "a misfit at the end while it comes, 4", three + four, rows + "x,,\n"
    yield "printed by regions, 4", three + ["--skip-rows", "1"] + four, rows
    yield "read to a frame by workers, 4", three + ["--row-index", "row", "--style", "never"] + four, rows
    yield "with inference, 4", four, "n,t,d\n" + rows
    yield "with categories, 4", ["--schema", "n:int64,t:category,d:date", "--no-header"] + four, rows
    yield "written by workers, 4", three + ["--row-index", "row", "--batch", "100", "--style", "never"] + four, rows
    yield "made, 4", ["--make", "2000"] + four, ""


class Trial:
    """A case, and how its runs go."""

    def __init__(self, program, shim, folder, words, given):
        self.command = [program] + words
        self.given, self.counts, self.folder = given.encode(), os.path.join(folder, "counts"), folder
        self.path = os.path.join(folder, "input")
        with open(self.path, "wb") as written:
            written.write(self.given)
        self.shim = shim
        self.whole = self.run({})[:3]

    def run(self, how):
        """Returns status, output, errors and counts of a run."""
        with open(self.path, "rb") as given:
            environment = {"LD_PRELOAD": self.shim, "REFUSE_COUNTS": self.counts, **how}
            done = subprocess.run(self.command, stdin=given, capture_output=True, env=environment, timeout=60)
        with open(self.counts, encoding="ascii") as counts:
            numbers = dict(line.split() for line in counts)
        return done.returncode, done.stdout, done.stderr, {kind: int(number) for kind, number in numbers.items()}

    def is_right(self, answer, status, line):
        """Whether an answer is that of the whole run, or the status of a fault with a prefix of the text."""
        if answer[:3] == self.whole:
            return True
        if self.whole[0] != 0:
            return answer[:3] == (status, b"", line)
        return answer[0] == status and self.whole[1].startswith(answer[1]) and answer[2] == line

    def each(self, kind, behind, status, line, wrong):
        """Has each call of a kind fail in turn; returns how many there were, and how many runs ended with the status of the fault."""
        call, failed = 1, 0
        while True:
            answer = self.run({"REFUSE": f"{kind}:{call}{behind}"})
            if answer[3][kind] < call:
                return call - 1, failed
            if not self.is_right(answer, status, line):
                wrong.append((self.command[1:], kind, call, behind, answer[0], answer[1][:60], answer[2]))
            failed += answer[0] == status != self.whole[0]
            call += 1


FAULTS = [("memory", 5, b"memory\n"), ("input", 3, b"source\n"), ("output", 4, b"sink\n"), ("thread", 5, b"memory\n")]


def try_case(trial, wrong):
    """Tries a case in each way; returns the number of calls of each kind and of those that ended with a fault, and the number of runs."""
    cells, runs = [], 0
    for kind, status, line in FAULTS:
        once, failed = trial.each(kind, "", status, line, wrong)
        good, always = trial.each(kind, "-", status, line, wrong)
        cells.append(f"{once}: {failed}, {always}")
        runs += once + good
    if trial.run({"REFUSE_SHORT": "1"})[:3] != trial.whole:
        wrong.append((trial.command[1:], "one byte a call"))
    # (standard error, which alone changes neither status nor output)
    for call in range(1, 4):
        answer = trial.run({"REFUSE": f"errors:{call}-"})
        if answer[:2] != trial.whole[:2] or not trial.whole[2].startswith(answer[2]):
            wrong.append((trial.command[1:], "errors", call))
    return cells, runs + 4


def main():
    parser = argparse.ArgumentParser(description=__doc__)
    parser.add_argument("--program", default=PROGRAM)
    parser.add_argument("--size", type=int, default=200000, help="bytes of the large input")
    parser.add_argument("--only", default="", help="cases whose names have this in them")
    options = parser.parse_args()
    folder = tempfile.mkdtemp()
    shim = os.path.join(folder, "refuse.so")
    subprocess.run(["cc", "-O2", "-shared", "-fPIC", "-o", shim, os.path.join(HERE, "refuse.c")], check=True)
    wrong, runs = [], 0
    print("| Input, workers | Status | Allocations | Reads | Writes | Starts of threads |\n|---|---|---|---|---|---|")
    for name, words, given in cases(options.size):
        if options.only in name:
            trial = Trial(os.path.realpath(options.program), shim, folder, words, given)
            cells, tried = try_case(trial, wrong)
            runs += tried
            print(f"| {name} | {trial.whole[0]} | " + " | ".join(cells) + " |", flush=True)
    print(f"{runs} runs, {len(wrong)} wrong")
    for one in wrong[:20]:
        print(*one)
    shutil.rmtree(folder)
    sys.exit(1 if wrong else 0)


main()
