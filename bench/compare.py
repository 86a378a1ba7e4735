#!/usr/bin/env python3
"""Measures the program beside its peers, and writes docs/speed.md and docs/speed.svg (bench/README.md)."""
import argparse
import os
import platform
import random
import re
import shutil
import subprocess
import sys
import tempfile
import time

HERE = os.path.dirname(os.path.abspath(__file__))
TOP = os.path.dirname(HERE)

# The columns of each workload: int, text, date, datetime, dec2 (two digits behind the point; perhaps empty).
WORKLOADS = {
    "mixed": [("id", "int"), ("name", "text"), ("day", "date"), ("amount", "dec2")],
    "ints": [(f"n{i}", "int") for i in range(20)],
    "strings": [(f"s{i}", "text") for i in range(10)],
    "quoted": [("id", "int"), ("name", "text"), ("day", "date"), ("amount", "dec2"), ("city", "text"), ("note", "text"), ("qty", "int"), ("code", "text")],
    "taxi": [("trip_id", "int"), ("vendor_id", "int"), ("pickup", "datetime"), ("dropoff", "datetime"), ("passengers", "int"), ("distance", "dec2"),
             ("rate", "int"), ("flag", "text"), ("pu", "int"), ("do", "int"), ("payment", "text"), ("fare", "dec2"), ("extra", "dec2"), ("mta_tax", "dec2"),
             ("tip", "dec2"), ("tolls", "dec2"), ("surcharge", "dec2"), ("total", "dec2")],
    "wide": [(f"c{i}", ("int", "date", "text", "dec2")[i & 3]) for i in range(1000)],
}
ABOUT = {
    "mixed": "4 columns: a number, a text of which every fourth is quoted, a date, a decimal",
    "ints": "20 columns of whole numbers of 1 to 9 digits",
    "strings": "10 columns of texts of up to 30 bytes, 5 % of them quoted",
    "quoted": "8 columns, every field quoted",
    "taxi": "18 columns: numbers, datetimes, decimals, short texts",
    "wide": "1000 columns of four types",
}
TYPES = {"int": "int64", "text": "string", "date": "date", "datetime": "datetime/us", "dec2": "decimal/-/2"}


def ours(workload):
    return ",".join(f"{name}:{TYPES[kind]}" for name, kind in WORKLOADS[workload])


def neutral(workload):
    return ",".join(f"{name}:{kind}" for name, kind in WORKLOADS[workload])


def has_data_table():
    return bool(shutil.which("Rscript")) and not subprocess.run(["Rscript", "-e", "library(data.table)"], capture_output=True).returncode


def python_with_pandas():
    """Returns the first Python that has pandas."""
    for it in ("/usr/bin/python3", sys.executable):
        if os.path.exists(it) and not subprocess.run([it, "-c", "import pandas"], capture_output=True).returncode:
            return it
    return None


def own_program():
    """Returns the program that ./pl_csv runs, which it makes if need be. It compares the sources each time, which takes longer than a small transcode."""
    subprocess.run([f"{TOP}/pl_csv", "--schema", "a:int64"], stdin=subprocess.DEVNULL, stdout=subprocess.DEVNULL, check=True)
    is_released = ["sha256sum", "--check", "--strict", "--status", "release/sources.sha256", "release/pl_csv-x86_64-linux.sha256"]
    return f"{TOP}/crates/pl_csv_main/out/pl_csv_main" if subprocess.run(is_released, cwd=TOP).returncode else f"{TOP}/release/pl_csv-x86_64-linux"


PANDAS = python_with_pandas()
# The programs that a run finds or makes, by name.
MADE = {}
# Each task: its name, whether it is there, its command (source and target are files; None for standard input and output), and what it checks.
TASKS = [
    ("pl_csv", lambda: True, lambda w, i, o: ([MADE["pl_csv"], "--schema", ours(w), "--workers", "1"], i, o), "types as told; every cell, date and UTF-8 text is checked"),
    ("pl_csv, 4 workers", lambda: True, lambda w, i, o: ([MADE["pl_csv"], "--schema", ours(w), "--workers", "4"], i, o), "the same; four workers read and print"),
    ("pl_csv, as `;`", lambda: True, lambda w, i, o: ([MADE["pl_csv"], "--schema", ours(w), "--workers", "1", "--out-sep", ";"], i, o), "the same as pl_csv; semicolons are written, so each cell is put anew"),
    ("pl_csv, no schema", lambda: True, lambda w, i, o: ([MADE["pl_csv"], "--dates", "--workers", "1"], i, o), "types by a sample; every cell and UTF-8 text is checked"),
    ("copy", lambda: True, lambda w, i, o: ([MADE["copy"]], i, o), "nothing: the input is read to its end, and then written"),
    ("data.table", has_data_table, lambda w, i, o: (["Rscript", f"{HERE}/peers/datatable.R", i, o, neutral(w)], None, None), "types by a sample; decimals as doubles; doubled quotes stay"),
    ("pandas", lambda: PANDAS, lambda w, i, o: ([PANDAS, f"{HERE}/peers/pandas_peer.py", i, o, neutral(w)], None, None), "types as told; decimals as doubles"),
    ("sqlite3", lambda: shutil.which("sqlite3"), lambda w, i, o: ([f"{HERE}/peers/sqlite.sh", i, o, neutral(w)], None, None), "refuses nothing; dates stay texts"),
    ("miller", lambda: shutil.which("mlr"), lambda w, i, o: (["mlr", *(["--hash-records"] if w == "wide" else []), "--icsv", "--ocsv", "cat", i], None, o), "no types"),
    ("csvtool", lambda: shutil.which("csvtool"), lambda w, i, o: (["csvtool", "cat", i], None, o), "no types"),
]
# The tasks that read alone, where the program is there that does (--read-program).
READS = [
    ("pl_csv_read", lambda: True, lambda w, i, o: ([MADE["pl_csv_read"], "--schema", ours(w), "--workers", "1"], i, o), "types as told; every cell, date and UTF-8 text is checked"),
    ("pl_csv_read, 4 workers", lambda: True, lambda w, i, o: ([MADE["pl_csv_read"], "--schema", ours(w), "--workers", "4"], i, o), "the same; four workers read"),
    ("fread", has_data_table, lambda w, i, o: (["Rscript", f"{HERE}/peers/datatable.R", i, "", neutral(w), "1"], None, None), "types by a sample; decimals as doubles; doubled quotes stay"),
    ("fread, 4 threads", has_data_table, lambda w, i, o: (["Rscript", f"{HERE}/peers/datatable.R", i, "", neutral(w), "4"], None, None), "the same; four threads parse"),
]


def run(command, source, target):
    """Runs a command once. Returns its seconds (those that it tells itself, if it does), and its greatest memory in bytes; None where it failed."""
    with open(source or os.devnull, "rb") as given, open(target or os.devnull, "wb") as taken, tempfile.TemporaryFile() as said:
        began = time.perf_counter()
        child = subprocess.Popen(command, stdin=given, stdout=taken, stderr=said)
        _, status, usage = os.wait4(child.pid, 0)
        seconds = time.perf_counter() - began
        child.returncode = os.waitstatus_to_exitcode(status)
        said.seek(0)
        told = re.search(rb"^seconds ([\d.]+)", said.read(), re.MULTILINE)
    return None if child.returncode else (float(told[1]) if told else seconds, usage.ru_maxrss * 1024)


def measured(workloads, tasks, data, rounds, patience):
    """Returns the least seconds and the memory of each task on each workload. Each round runs all in a new order; a slow task is run once."""
    best, calls = {}, [(task, workload) for task in tasks for workload in workloads]
    for turn in range(rounds):
        random.shuffle(calls)
        for task, workload in list(calls):
            at = (task[0], workload)
            if turn and (best.get(at) is None or best[at][0] > patience):
                continue
            found = run(*task[2](workload, f"{data}/{workload}.csv", f"{data}/out"))
            if found is None:
                print(f"{task[0]} failed on {workload}", file=sys.stderr)
                best.setdefault(at, None)
            elif not best.get(at) or found < best[at]:
                best[at] = found
        print(f"round {turn + 1} of {rounds}", file=sys.stderr)
    return best


def processor():
    with open("/proc/cpuinfo", encoding="utf-8") as it:
        names = re.findall(r"model name\s*: (.*)", it.read())
    return names[0] if names else platform.machine()


def table(workloads, tasks, sizes, best):
    """Returns the lines of a table of MB a second, by task and workload."""
    speed = lambda at: f"{sizes[at[1]] / 1e6 / best[at][0]:.0f}" if best.get(at) else "failed"
    lines = ["| | " + " | ".join(workloads) + " |", "|---|" + "--:|" * len(workloads)]
    return lines + [f"| {task[0]} | " + " | ".join(speed((task[0], it)) for it in workloads) + " |" for task in tasks]


def memory(workloads, tasks, sizes, best):
    """Returns the lines of a table of the most memory in bytes a byte of input, by task and workload."""
    most = lambda at: f"{best[at][1] / sizes[at[1]]:.1f}" if best.get(at) else "failed"
    lines = ["| | " + " | ".join(workloads) + " |", "|---|" + "--:|" * len(workloads)]
    return lines + [f"| {task[0]} | " + " | ".join(most((task[0], it)) for it in workloads) + " |" for task in tasks]


def page(workloads, tasks, reads, sizes, best, rounds):
    """Returns docs/speed.md."""
    lines = [
        "# Speed", "",
        "A transcode, on one thread but where workers are named: a file is read into typed columns and written as CSV again, from one file in memory to another. The numbers are MB of input a second, "
        f"the best of {rounds} rounds in which all programs ran in turn. [bench/README.md](../bench/README.md) says how to run it.", "",
        f"Machine: {processor()}, {os.cpu_count()} processors, {platform.system()} {platform.release()}.", "",
        "![MB of input a second by workload and program](speed.svg)", "",
        *table(workloads, tasks, sizes, best), "",
        "Inputs have " + ", ".join(f"{sizes[it] / 1e6:.0f} ({it})" for it in workloads) + " MB.",
    ]
    lines += ["", "| Workload | |", "|---|---|", *[f"| {it} | {ABOUT[it]} |" for it in workloads]]
    lines += ["", "Not all do the same work:", "", "| Program | What it checks |", "|---|---|", *[f"| {task[0]} | {task[3]} |" for task in tasks]]
    if reads:
        lines += ["", "## A read alone", "", "From a file in memory to typed columns, and no text of them: `pl_csv_read` makes the frame and ends, `fread` is that of data.table; neither frees what it read. MB of input a second:", "",
                  *table(workloads, reads, sizes, best), "", "The most memory that a process had, in bytes for each byte of input; R itself has some 60 MB:", "",
                  *memory(workloads, reads, sizes, best), "", "## What the numbers are"]
    lines += ["", "The time of R and of pandas is without the start of the language; that of the others is the whole process. Programs that are not in the table were not run. "
              "Without a schema and with dates tried, `pl_csv` takes decimals for texts, since it infers none.", "",
              "The rows of mixed, ints, strings and wide are written as they were read, and of quoted and taxi what is written stands in the fields but for zeros. So `pl_csv` tests each cell and copies it "
              "([regions.md](regions.md#rows-that-are-written-as-they-were-read)). Where it writes another separator each cell is found as well, and put into another block ([regions.md](regions.md#rows-that-are-written-otherwise)).", "",
              "`pl_csv` writes nothing before it knows that all rows are sound, and `copy` does no more than that, on one thread: it reads, and then writes. "
              "It is no bound: several workers make memory ready for the one that reads, and `copy` has to wait for its own."]
    return "\n".join(lines) + "\n"


def plot(workloads, tasks, sizes, best):
    """Returns docs/speed.svg: a group of bars for each workload."""
    colors = ["#1b6ca8", "#0b3d63", "#4f8f8b", "#7fb2d6", "#c8553d", "#e0a458", "#8a8d91", "#b7c0a6", "#d8c4b6", "#5d4e6d"]
    bar, gap, left, width = 13, 16, 70, 640
    most = max(sizes[at[1]] / 1e6 / found[0] for at, found in best.items() if found)
    rows, y = [], 40
    for i, task in enumerate(tasks):
        rows.append(f'<rect x="{left + i * 118}" y="10" width="10" height="10" fill="{colors[i]}"/><text x="{left + 14 + i * 118}" y="19">{task[0].replace("`", "")}</text>')
    for it in workloads:
        rows.append(f'<text x="{left - 8}" y="{y + bar * len(tasks) / 2 + 4:.0f}" text-anchor="end">{it}</text>')
        for i, task in enumerate(tasks):
            found = best.get((task[0], it))
            if found:
                value = sizes[it] / 1e6 / found[0]
                long = value / most * width
                rows.append(f'<rect x="{left}" y="{y}" width="{long:.1f}" height="{bar - 2}" fill="{colors[i]}"/><text x="{left + long + 4:.1f}" y="{y + bar - 4}">{value:.0f}</text>')
            y += bar
        y += gap
    all_wide = max(left + width + 50, left + 118 * len(tasks))
    return (f'<svg xmlns="http://www.w3.org/2000/svg" viewBox="0 0 {all_wide} {y}" font-family="sans-serif" font-size="11">'
            f'<rect width="{all_wide}" height="{y}" fill="white"/>' + "".join(rows) + "</svg>\n")


def main():
    words = argparse.ArgumentParser(description=__doc__)
    words.add_argument("--mb", type=float, default=50, help="size of each input")
    words.add_argument("--rounds", type=int, default=7)
    words.add_argument("--workloads", default=",".join(WORKLOADS), help="a list, of " + ", ".join(WORKLOADS))
    words.add_argument("--patience", type=float, default=5, help="a task that takes more seconds is run once")
    words.add_argument("--data", default="/dev/shm" if os.path.isdir("/dev/shm") else tempfile.gettempdir(), help="where inputs and outputs lie")
    words.add_argument("--read-program", help="the program of crates/pl_csv_read, as rt run builds it: reads alone are measured too")
    words.add_argument("--print", action="store_true", help="print the page, and write no file")
    given = words.parse_args()
    workloads = given.workloads.split(",")
    tasks = [task for task in TASKS if task[1]()]
    MADE["pl_csv"] = own_program()
    MADE["pl_csv_read"] = given.read_program and os.path.abspath(given.read_program)
    reads = [task for task in READS if task[1]()] if given.read_program else []
    with tempfile.TemporaryDirectory(dir=given.data) as data:
        for name, source in ("make_data", "make_data.c"), ("copy", "peers/copy.c"):
            MADE[name] = f"{data}/{name}"
            subprocess.run(["cc", "-O2", "-o", MADE[name], f"{HERE}/{source}"], check=True)
        sizes = {}
        for it in workloads:
            with open(f"{data}/{it}.csv", "wb") as made:
                subprocess.run([MADE["make_data"], it, "--mb", str(given.mb)], stdout=made, check=True)
            sizes[it] = os.path.getsize(f"{data}/{it}.csv")
        best = measured(workloads, tasks + reads, data, given.rounds, given.patience)
    text = page(workloads, tasks, reads, sizes, best, given.rounds)
    if given.print:
        print(text)
        return
    with open(f"{TOP}/docs/speed.md", "w", encoding="utf-8") as it:
        it.write(text)
    with open(f"{TOP}/docs/speed.svg", "w", encoding="utf-8") as it:
        it.write(plot(workloads, tasks, sizes, {at: found for at, found in best.items() if at[0] in [task[0] for task in tasks]}))


if __name__ == "__main__":
    main()
