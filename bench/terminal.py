#!/usr/bin/env python3
"""terminal.py PROGRAM [--longest]: what a person at a terminal sees of pl_csv, through a pseudo-terminal. Ends with status 1 where it is not as
it should be.

Each status and each refusal that words and inputs can bring about is driven twice: with a terminal as standard error, where the fault line and
the sentence behind it are compared with the table below, and without one, where the fault line alone has to come, byte by byte. Status 6, which
takes 64 GiB through a pipe, is driven with --longest: some minutes, and a C compiler for thin.c. Status 23 is not, as no words ask for it."""
import os
import pty
import re
import resource
import subprocess
import sys
import tempfile
import termios
import threading
import time

WAITING = b"pl_csv waits for CSV on standard input, which Ctrl-D on an empty line ends; `pl_csv help` has its words\n"
CSV = b"a\n1\n"
RED, PLAIN = b"\x1b[1;31m", b"\x1b[0m"
WIPE = b"\r" + b" " * 80 + b"\r"
NOT_FIT = "`--ignore-errors` makes it null; `--schema` can give the column another type."
HELP = "`pl_csv help` has all words. Usage: "
CONVERT = HELP + "pl_csv [words] < input > output"
MULTI = HELP + "pl_csv multi [--slice=A-B] [words] -- PATH.. > output"
BUILD = HELP + "pl_csv seek build K PATH [words] > index"
SLICE = HELP + "pl_csv seek slice A L PATH INDEX [words] > output"
STREAM = HELP + "pl_csv stream [words] < input > output"
ABOUT = HELP + "pl_csv help [word]"
NO_MEMORY = {"RLIMIT_AS": 60 << 20}
program = os.path.abspath(sys.argv[1])
wrong = runs = 0


def open_terminal():
    """A pseudo-terminal that shows no input and leaves line ends as they are."""
    mine, theirs = pty.openpty()
    state = termios.tcgetattr(theirs)
    state[1] &= ~termios.OPOST
    state[3] &= ~termios.ECHO
    termios.tcsetattr(theirs, termios.TCSANOW, state)
    return mine, theirs


def read_left(mine):
    left = b""
    while True:
        try:
            part = os.read(mine, 4096)
        except OSError:
            return left
        if not part:
            return left
        left += part


def see(words, stdin, stdout=subprocess.PIPE, terminal=True, environment=(), limits=()):
    """The status, standard output and standard error of a run over an open file; standard error is a terminal or a pipe."""

    def limit():
        for name, value in dict(limits).items():
            resource.setrlimit(getattr(resource, name), (value, value))

    mine, theirs = open_terminal()
    settings = {**os.environ, "TERM": "xterm"}
    settings.pop("NO_COLOR", None)
    settings.update(environment)
    err = theirs if terminal else subprocess.PIPE
    process = subprocess.Popen([program, *words], stdin=stdin, stdout=stdout, stderr=err, env=settings, preexec_fn=limit)
    os.close(theirs)
    told = process.communicate()
    seen = read_left(mine) if terminal else told[1]
    os.close(mine)
    return process.returncode, told[0] or b"", seen


def compare(what, got, wanted):
    global wrong, runs
    runs += 1
    if got != wanted:
        wrong += 1
        print(f"{what}: {got}, not {wanted}")


def run_typed(words, stdin_is_terminal, stderr_is_terminal):
    """The same of a run whose input is CSV, typed and ended by Ctrl-D where it is a terminal."""
    mine, theirs = open_terminal()
    other_mine, other_theirs = open_terminal()
    process = subprocess.Popen(
        [program, *words],
        stdin=theirs if stdin_is_terminal else subprocess.PIPE,
        stdout=subprocess.PIPE,
        stderr=other_theirs if stderr_is_terminal else subprocess.PIPE,
    )
    os.close(other_theirs)
    if stdin_is_terminal:
        os.write(mine, CSV + b"\x04")
    else:
        process.stdin.write(CSV)
        process.stdin.close()
    out = process.stdout.read()
    err = read_left(other_mine) if stderr_is_terminal else process.stderr.read()
    status = process.wait()
    for it in (mine, theirs, other_mine):
        os.close(it)
    return status, out, err


# the files that the cases read, by their names
FILES = {
    "days": b'# days\nday,item\n2024-02-29,"tea,\ngreen"\n2024-02-30,x\n',
    "numbers": b"n,t\n1,x\n2,y\n",
    "quotes": b'n,t\n1,"x"y\n',
    "latin": b"n,t\n1,caf\xe9\n",
    "wide": b"n,t\n1,x,more\n",
    "gzip": b"\x1f\x8b\x08\x00",
    "twins": b"a,a,a_duplicated_0\n",
    "nothing": b"",
    "other": b"n,t\n1,x\n3,z\n",
    "year=1/f": b"n,t\n1,x\n",
    "year=2/f": b"n,t\n2,y\n",
    "month=2/f": b"n,t\n2,y\n",
    "t=2/f": b"n,t\n2,y\n",
}
DAYS = ["--comment", "#", "--schema", "day:date,item:string"]
NT = ["--schema", "n:int64,t:string"]

# the words, the input (a file; or one behind |, which is piped; or a path behind <), the status, the fault line, and the sentence
CASES = [
    (["--help"], "numbers", 2, "words", "`--help` has no meaning. " + CONVERT),
    (["--shema", "a:int64"], "numbers", 2, "words", "`--shema` has no meaning; the nearest word is `--schema`. " + CONVERT),
    (["--workers", "2", "--lossi"], "numbers", 2, "words", "`--lossi` has no meaning; the nearest word is `--lossy`. " + CONVERT),
    (["--sep", "ab"], "numbers", 2, "words", "`--sep` has no such value as `ab`; `pl_csv help --sep` says which it has. " + CONVERT),
    (["--sep=ab"], "numbers", 2, "words", "`--sep` has no such value as `ab`; `pl_csv help --sep` says which it has. " + CONVERT),
    (["numbers.csv"], "numbers", 2, "words", "`numbers.csv` has no meaning. " + CONVERT),
    (["--sep", ";", "--sep", ";"], "numbers", 2, "words", "The words do not go together: one stands twice, excludes another, or is not UTF-8. " + CONVERT),
    ([b"\xff"], "numbers", 2, "words", "The words do not go together: one stands twice, excludes another, or is not UTF-8. " + CONVERT),
    (["version", "1"], "numbers", 2, "words", "Only one word can stand behind `help`, and none behind `version`. " + ABOUT),
    (["help", "--schma"], "numbers", 2, "words", "`--schma` has no meaning; the nearest word is `--schema`. " + ABOUT),
    (["multi", *NT, "{numbers}"], "numbers", 2, "words", "Many files need `--schema`, and behind `--` their paths; no limit goes with them. " + MULTI),
    (["multi", *NT, "--lossi", "--", "{numbers}"], "numbers", 2, "words", "`--lossi` has no meaning; the nearest word is `--lossy`. " + MULTI),
    (["seek", "bild"], "numbers", 2, "words", "`bild` has no meaning; the nearest word is `build`. " + BUILD),
    (["seek", "slice", "0"], "numbers", 2, "words", "An index needs numbers and paths, and behind them `--schema`; no limit goes with it. " + SLICE),
    (["stream", "--make", "5"], "numbers", 2, "words", "The words do not go together: one stands twice, or excludes another. " + STREAM),
    ([], "</", 3, "source", "The input could not be opened or read. Look at its path and its rights, and run the program again."),
    (["multi", *NT, "--", "{numbers}", "{lacking}"], "numbers", 3, "part 1 source", "The input could not be opened or read. Look at its path and its rights, and run the program again."),
    (["--workers", "0"], "numbers", 12, "refusal 2 option", "`--workers` or `--piece` is 0, or lines and rows are both skipped. Give a number above 0, and `--skip-lines` or `--skip-rows` alone."),
    (["--sep", '"'], "numbers", 11, "refusal 1 dialect", "Separator, quote, line end and comment prefix do not go together. Each is an ASCII byte of its own: change `--sep`, `--quote`, `--eol` or `--comment`."),
    (["--out-quote", "xFF"], "numbers", 13, "refusal 3 quote", "The quote of the output is not ASCII. Give another one by `--out-quote`."),
    ([], "gzip", 14, "refusal 4 compressed", "The input is compressed. Decompress it first, as by `zcat` or `zstdcat`."),
    ([], "nothing", 15, "refusal 5 empty", "The input has no first record, so it has no names of columns. `--allow-empty` takes it as one without columns."),
    ([], "twins", 16, "refusal 6 duplicate a_duplicated_0", "Two columns have one name. `--schema` names the columns, and `--no-header` with `--skip-rows 1` counts them."),
    ([*NT, "--dtypes", "int64,int64,int64"], "numbers", 17, "refusal 7 overrides 3 2", "`--dtypes` has more types than there are columns. Give one type for each column, or fewer."),
    (["--schema", "n:null,t:string"], "numbers", 18, "refusal 8 dtype column 0", "A column has a type that can't be read. `pl_csv help TYPE` has the types."),
    (["--columns", "m"], "numbers", 19, "refusal 9 not found m", "No column has a name that is asked for. Look at the names in `--columns` and `--null-of`."),
    ([*NT, "--skip-rows", "9"], "numbers", 20, "refusal 10 skip", "The input has fewer lines or rows than are to be skipped. Give a smaller number by `--skip-lines`, `--skip-rows` or `--skip-after`."),
    (["--projection", "2"], "numbers", 21, "refusal 11 bounds 2 2", "`--projection` asks for a column behind the last one. Its numbers count from 0."),
    (["--columns", "n,n"], "numbers", 22, "refusal 12 duplicate n", "A column is asked for twice, or the row index has its name. Name each column once in `--columns` or `--projection`, and give `--row-index` another name."),
    (DAYS, "days", 24, "refusal 14 record 1 column 0 value", "Record 2 (line 5) has `2024-02-30` in column 1, `day` (`date`, such as 2024-02-29): the text is no value of the column's type. " + NOT_FIT),
    (DAYS, "|days", 24, "refusal 14 record 1 column 0 value", "Record 2 has a fault in column 1: the text is no value of the column's type. " + NOT_FIT),
    (["stream", *DAYS], "days", 24, "refusal 14 record 1 column 0 value", "Record 2 (line 5) has `2024-02-30` in column 1, `day` (`date`, such as 2024-02-29): the text is no value of the column's type. " + NOT_FIT),
    (["multi", *DAYS, "--", "{days}"], "numbers", 24, "part 0 refusal 14 record 1 column 0 value", "Record 2 (line 5) has `2024-02-30` in column 1, `day` (`date`, such as 2024-02-29): the text is no value of the column's type. " + NOT_FIT),
    (["--infer", "1", "--schema", "n:int64,t:int64"], "numbers", 24, "refusal 14 record 0 column 1 value", "Record 1 (line 2) has `x` in column 2, `t` (`int64`: whole numbers of 64 bits): the text is no value of the column's type. " + NOT_FIT),
    ([], "quotes", 24, "refusal 14 record 0 column 1 escape", "Record 1 (line 2) has `\"x\"y` in column 2, `t` (`string`): the quotes do not close the text. Write a quote within quotes twice; `--quote none` takes quotes as text."),
    ([], "latin", 24, "refusal 14 record 0 column 1 utf8", "Record 1 (line 2) has `caf\\xe9` in column 2, `t` (`string`): the text is not UTF-8. `--lossy` replaces what is not UTF-8, and `--ignore-errors` makes the cell null."),
    ([], "wide", 24, "refusal 14 record 0 column 2 fields", "Record 1 (line 2) has `more` in column 3: there are fewer columns. `--truncate` passes over the fields behind the last column."),
    ([*NT, "--row-index", "i", "--row-offset", "18446744073709551615"], "numbers", 25, "refusal 15 index", "The last number of a row, or of a category, is too large. Give a smaller `--row-offset`, or read the column as `string`."),
    (["multi", *NT, "--", "{year=1/f}", "{month=2/f}"], "numbers", 30, "partitions part 1", "The path of a file tells values of other names than that of the first file. Give files whose paths have the same `NAME=` parts, in the same order."),
    (["multi", *NT, "--", "{t=2/f}"], "numbers", 31, "duplicate t", "A path tells a value of a name that a column or an earlier value has. Read fewer columns by `--columns`, or give `--row-index` another name."),
    (["multi", *NT, "--row-index", "i", "--row-offset", "18446744073709551615", "--", "{numbers}"], "numbers", 32, "index", "The last number of a row, or of a category, is too large. Give a smaller `--row-offset`, or read the column as `string`."),
    (["seek", "slice", "0", "1", "{numbers}", "{days}", *NT], "numbers", 30, "format", "The file behind the input is no index. `pl_csv seek build` writes one."),
    (["seek", "slice", "0", "1", "{other}", "{index}", *NT], "numbers", 31, "input", "The index is that of another input, or the input was changed. Build it anew by `pl_csv seek build`."),
    (["seek", "slice", "0", "1", "{numbers}", "{index}", *NT, "--no-header"], "numbers", 32, "settings", "The index was built by other options. Give the same separator, quote, line end, comment prefix, header and skips to both."),
    (["seek", "slice", "0", "1", "{numbers}", "{damaged}", *NT], "numbers", 33, "places 1", "The index has a place that no record of the input has. Build it anew by `pl_csv seek build`."),
    (["stream"], "numbers", 30, "no schema", "A stream needs the names and types of its columns. Give them by `--schema`."),
    (["stream", "--schema", "n:category,t:string"], "numbers", 31, "category column 0", "A stream keeps no categories. Read the column as `string`."),
]


def open_input(name, paths):
    if name.startswith("<"):
        return os.open(name[1:], os.O_RDONLY)
    if not name.startswith("|"):
        return os.open(paths[name], os.O_RDONLY)
    theirs, mine = os.pipe()
    os.write(mine, FILES[name[1:]])
    os.close(mine)
    return theirs


def run_case(case, paths):
    words, name, status, line, sentence = case
    words = [paths.get(it[1:-1], it) if isinstance(it, str) and it.startswith("{") else it for it in words]
    for terminal in (True, False):
        stdin = open_input(name, paths)
        got = see(words, stdin, terminal=terminal)
        os.close(stdin)
        seen = RED + line.encode() + PLAIN + b"\n" + sentence.encode() + b"\n"
        compare((words, terminal), (got[0], got[2]), (status, seen if terminal else line.encode() + b"\n"))


def make_files(folder):
    paths = {"lacking": f"{folder}/lacking"}
    for name, text in FILES.items():
        paths[name] = f"{folder}/{name}"
        os.makedirs(os.path.dirname(paths[name]), exist_ok=True)
        with open(paths[name], "wb") as it:
            it.write(text)
    paths["index"], paths["damaged"] = f"{folder}/index", f"{folder}/damaged"
    index = subprocess.run([program, "seek", "build", "1", paths["numbers"], *NT], capture_output=True, check=True).stdout
    for name, text in (("index", index), ("damaged", index[:-8] + bytes([index[-8] ^ 1]) + index[-7:])):
        with open(paths[name], "wb") as it:
            it.write(text)
    return paths


def try_devices(paths):
    """Standard output that can't be written, and memory that is wanting."""
    with open("/dev/full", "wb") as full, open(paths["numbers"], "rb") as it:
        got = see([], it, stdout=full)
    sentence = b"Standard output could not be written, and what is there is cut short. Look for room on the disk, or for a reader of the pipe that ended."
    compare("sink", (got[0], got[2]), (4, RED + b"sink" + PLAIN + b"\n" + sentence + b"\n"))
    large = paths["lacking"] + ".csv"
    with open(large, "wb") as it:
        it.write(b"n,t\n" + b"1,xxxxxxxxxxxxxxxxxxxxxxxxxxxx\n" * 4_000_000)
    with open(large, "rb") as it:
        got = see(["--workers", "1"], it, stdout=subprocess.DEVNULL, limits=NO_MEMORY)
    sentence = b"There is not memory enough. `--workers 1` takes less, and `pl_csv stream` does not hold the input."
    compare("memory", (got[0], got[2]), (5, RED + b"memory" + PLAIN + b"\n" + sentence + b"\n"))
    os.remove(large)


def try_colours(paths):
    """No colours with NO_COLOR or without a terminal that has them."""
    for environment in ({"NO_COLOR": "1"}, {"TERM": "dumb"}):
        with open(paths["nothing"], "rb") as it:
            got = see([], it, environment=environment)
        compare(environment, got[2].split(b"\n")[0], b"refusal 5 empty")


def try_bytes(folder):
    """Names and cells of all bytes: nothing but line feeds and the program's own colours steers the terminal."""
    path = f"{folder}/bytes"
    for byte in range(256):
        text = bytes([byte])
        for input, words in (
            (b"n" + text + b",t\n1,2\n1,\"" + text + b"x\"y\n", ["--infer", "1"]),
            (b"n\n1\n" + text + b"x\xff\xc2" + text + b"\n", ["--infer", "1"]),
            (b"a" + text + b",a" + text + b",a" + text + b"_duplicated_0\n", []),
        ):
            with open(path, "wb") as it:
                it.write(input)
            with open(path, "rb") as it:
                status, _, seen = see(words, it)
            left = seen.replace(RED, b"").replace(PLAIN, b"").replace(b"\n", b"")
            left = left.decode("utf-8", "surrogateescape")
            compare((byte, input, status), re.findall(r"[\x00-\x1f\x7f-\x9f\udc80-\udcff\u2028-\u202e\u2066-\u2069]", left), [])


def try_progress():
    """A slow input: a line is rewritten, and wiped out before the end."""
    theirs, mine = os.pipe()
    terminal, other = open_terminal()
    process = subprocess.Popen([program, "--schema", "a:int64"], stdin=theirs, stdout=subprocess.PIPE, stderr=other)
    os.close(other)
    os.close(theirs)
    for _ in range(30):
        os.write(mine, b"1\n" * 500)
        time.sleep(0.05)
    os.close(mine)
    out = process.communicate()[0]
    seen = read_left(terminal)
    os.close(terminal)
    parts = seen.split(WIPE)
    compare("progress: the output", len(out), 2 + 2 * 500 * 30 - 2)
    compare("progress: the last part", parts[-1], b"")
    compare("progress: lines", all(re.fullmatch(rb"\d+ MB, \d+ lines, \d+ MB/s", it) for it in parts[:-1]) and 2 <= len(parts) <= 7, True)
    plain = subprocess.run([program, "--schema", "a:int64"], input=b"1\n" * 15000, capture_output=True)
    compare("progress: not without a terminal", plain.stderr, b"")


def try_progress_of_files(folder):
    """A slow file of `multi`: its path stands in the line."""
    path = f"{folder}/slow.csv"
    os.mkfifo(path)
    terminal, other = open_terminal()
    process = subprocess.Popen([program, "multi", "--schema", "a:int64", "--", path], stdout=subprocess.PIPE, stderr=other)
    os.close(other)
    with open(path, "wb", buffering=0) as mine:
        for _ in range(30):
            mine.write(b"1\n" * 500)
            time.sleep(0.05)
    out = process.communicate()[0]
    parts = read_left(terminal).split(WIPE)
    os.close(terminal)
    compare("progress of files: the output", (process.returncode, len(out)), (0, 2 + 2 * 500 * 30 - 2))
    compare("progress of files: the last part", parts[-1], b"")
    told = re.compile(rb"\d+ MB, \d+ lines, \d+ MB/s.*slow\.csv.*")
    compare("progress of files: lines", all(told.fullmatch(it) for it in parts[:-1]) and 2 <= len(parts) <= 7, True)


def try_longest(folder):
    """One byte more than an input may have, in the memory of a machine that has less (longest.py)."""
    thin = f"{folder}/thin.so"
    here = os.path.dirname(os.path.realpath(__file__))
    subprocess.run(["cc", "-O2", "-shared", "-fPIC", "-o", thin, f"{here}/thin.c", "-lpthread"], check=True)
    terminal, other = open_terminal()
    words = [program, "--eol", "x00", "--schema", "n:int64,t:string", "--no-header", "--workers", "1"]
    settings = {"LD_PRELOAD": thin, "TERM": "dumb"}
    process = subprocess.Popen(words, stdin=subprocess.PIPE, stdout=subprocess.PIPE, stderr=other, env=settings)
    os.close(other)
    seen = []
    reading = threading.Thread(target=lambda: seen.append(read_left(terminal)))
    reading.start()
    block, left = bytes(1 << 20), 2**36 + 1
    while left:
        left -= os.write(process.stdin.fileno(), block[:left])
    process.stdin.close()
    out = process.stdout.read()
    compare("longest: status and output", (process.wait(), out), (6, b""))
    reading.join()
    os.close(terminal)
    wanted = b"too long\nThe input has more than 64 GiB. Cut it into files, and read them by `pl_csv multi`.\n"
    compare("longest: what is told", seen[0].split(WIPE)[-1], wanted)


# words, whether standard input and standard error are terminals, and what comes of it
TYPED = [
    ([], True, True, (0, CSV, WAITING)),
    ([], True, False, (0, CSV, b"")),
    ([], False, True, (0, CSV, b"")),
    ([], False, False, (0, CSV, b"")),
    (["--sep", ";"], True, True, (0, CSV, b"")),
]


def main():
    for words, stdin_is_terminal, stderr_is_terminal, wanted in TYPED:
        compare((words, stdin_is_terminal, stderr_is_terminal), run_typed(words, stdin_is_terminal, stderr_is_terminal), wanted)
    for words in (["version"], ["help"], ["help", "--schema"]):
        plain = subprocess.run([program, *words], stdin=subprocess.DEVNULL, capture_output=True)
        compare(words, run_typed(words, True, True), (0, plain.stdout, b""))
    with tempfile.TemporaryDirectory() as folder:
        paths = make_files(folder)
        for case in CASES:
            run_case(case, paths)
        try_devices(paths)
        try_colours(paths)
        try_bytes(folder)
        try_progress_of_files(folder)
        if sys.argv[2:] == ["--longest"]:
            try_longest(folder)
    try_progress()
    print(f"{runs} comparisons, {wrong} wrong")
    sys.exit(wrong > 0)


main()
