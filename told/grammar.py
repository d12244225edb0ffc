#!/usr/bin/env python3
"""Compares the program with the grammar of docs/FORMATS.md, told again in geda_files.py.

It draws random files, damages most of them, and asks the program for `export` of each, as a sheet
and as a symbol, and for `netlist`: bytes, status and error line must be those told here, without a
line of the program's code. No symbols lie beside the files; projects.py has those.

Usage:
  grammar.py [--seed S] [--count N] [--jobs J] [PROGRAM]    random files (1, 4000, 4)
  grammar.py --folder FOLDER [--alone] [PROGRAM]            each .sch and .sym below a folder
  grammar.py --edges [PROGRAM]                              files at the limits, of up to 4 MiB
  grammar.py --cases                                        files with known answers

With --alone and with --cases no program is run: it tells what the Python reader finds. A difference
is printed when it is found, and each hundredth file says how far it is. The status is 1 where
something differs; the first twenty files that differ are kept, cut down to the lines that matter,
in a folder that is printed. README.md has what PROGRAM is where none is named.
"""
import collections
import multiprocessing
import pathlib
import subprocess
import sys
import tempfile
import time

sys.dont_write_bytecode = True

from built import built
from comparing import apart, arguments, status_of
from geda_files import Fault, canonical, read_object, read_sheet, read_symbol, written
from grammar_cases import case_table
from project_rules import answer_of
from random_files import edges, random_file


def export_of(name, data):
    """What `export` answers: status, what goes out, and the line of a fault."""
    try:
        file = (read_symbol if name.endswith(".sym") else read_sheet)(data)
    except Fault as fault:
        return 1, b"", b"gafd: %s:%d: %s\n" % (name.encode(), fault.line, fault.kind.encode())
    return 0, canonical(file), b""


def netlist_of(name, data):
    """What `netlist` answers where no other file is there."""
    return answer_of({name: data}, name)


ANSWERS = {"export": export_of, "netlist": netlist_of}


def differs(program, folder, command, name, data):
    """Runs the program on a file, and tells what differs from the answer told here, if anything."""
    wanted = ANSWERS[command](name, data)
    pathlib.Path(folder, name).write_bytes(data)
    try:
        run = subprocess.run([program, command, name], cwd=folder, capture_output=True, timeout=480)
    except subprocess.TimeoutExpired:
        return f"{command} {name}: no end within 120 seconds"
    said = apart((run.returncode, run.stdout, run.stderr), wanted)
    return said and f"{command} {name}: {said}"


CALLS = [("export", "x.sch"), ("export", "x.sym"), ("netlist", "x.sch")]


def shrunk(program, folder, command, name, data):
    """The file without the lines that are not needed for the difference."""
    lines, at = data.split(b"\n"), 0
    while at < len(lines) and len(lines) < 2_000:
        fewer = lines[:at] + lines[at + 1 :]
        if differs(program, folder, command, name, b"\n".join(fewer)):
            lines = fewer
        else:
            at += 1
    return b"\n".join(lines)


def compare(program, folder, data, calls=CALLS):
    """The differences of a file, each with the file cut down."""
    found = []
    for command, name in calls:
        if differs(program, folder, command, name, data):
            less = shrunk(program, folder, command, name, data)
            found.append((differs(program, folder, command, name, less), less))
    return found


def work(job):
    """The kinds of some random files, and the differences."""
    program, seed, numbers = job
    found, kinds = [], collections.Counter()
    with tempfile.TemporaryDirectory() as folder:
        for number in numbers:
            data = random_file(seed, number)
            kinds[kind_of("x.sch", data)] += 1
            found += [(f"file {number}", *it) for it in compare(program, folder, data)]
            if len(found) > 20:
                break
    return found, kinds


class Report:
    """How many files were compared, and the differences: each is printed when it is found."""

    def __init__(self):
        self.started, self.files, self.differences = time.perf_counter(), 0, 0
        self.kept = None

    def count(self, files=1):
        """So many further files were compared."""
        self.files += files
        if self.files // 100 > (self.files - files) // 100:
            print(f"{self.files} files, {self.differences} differences", flush=True)

    def add(self, where, what, data):
        """A difference with its file, of which the first twenty are kept."""
        self.kept = self.kept or pathlib.Path(tempfile.mkdtemp(prefix="gafd-differs-"))
        print(f"{where}: {what}", flush=True)
        if self.differences < 20:
            path = self.kept / f"{self.differences}.txt"
            path.write_bytes(data)
            print(f"    {path}", flush=True)
        self.differences += 1

    def status(self):
        """Prints the sum, and answers the status."""
        seconds = time.perf_counter() - self.started
        print(f"{self.files} files, {self.differences} differences, {seconds:.1f} s")
        return 1 if self.differences else 0


def kind_of(name, data):
    try:
        (read_symbol if name.endswith(".sym") else read_sheet)(data)
    except Fault as fault:
        return fault.kind
    return "read"


def compare_random(program, seed, files, jobs):
    report, kinds = Report(), collections.Counter()
    step = max(1, min(100, files // jobs))
    work_items = [(program, seed, range(at, min(at + step, files))) for at in range(0, files, step)]
    with multiprocessing.Pool(jobs) as pool:
        for found, counted in pool.imap_unordered(work, work_items):
            for it in found:
                report.add(*it)
            report.count(counted.total())
            kinds += counted
    print("as sheets:", ", ".join(f"{kind} {count}" for kind, count in kinds.most_common()))
    return report.status()


def compare_edges(program):
    report = Report()
    with tempfile.TemporaryDirectory() as folder:
        for where, data in edges():
            for command, name in [*CALLS, ("netlist", "x.sym")]:
                what = differs(program, folder, command, name, data)
                if what:
                    report.add(where, what, data)
            report.count()
    return report.status()


def compare_folder(program, top, alone):
    report, kinds = Report(), collections.Counter()
    where, spelled = collections.defaultdict(list), collections.Counter()
    with tempfile.TemporaryDirectory() as folder:
        for path in sorted([*pathlib.Path(top).rglob("*.sch"), *pathlib.Path(top).rglob("*.sym")]):
            data = path.read_bytes()
            name = "x" + path.suffix
            kind = kind_of(name, data)
            kinds[path.suffix, kind] += 1
            spelled[path.suffix] += export_of(name, data)[1] == data
            where[path.suffix, kind].append(path)
            if not alone:
                calls = [("export", name)] + ([("netlist", name)] if path.suffix == ".sch" else [])
                for it in compare(program, folder, data, calls):
                    report.add(str(path), *it)
            report.count()
    for (suffix, kind), number in sorted(kinds.items()):
        print(f"{suffix} {kind}: {number}")
        if kind != "read":
            for path in where[suffix, kind][:10]:
                said = export_of("x" + suffix, path.read_bytes())[2].decode().strip()
                print(f"    {path}: {said}")
    print(f"canonical: {spelled['.sch']} sheets, {spelled['.sym']} symbols")
    return report.status()


def outcome_of(read, data):
    """The canonical text of what is read, or the kind and the line of a fault."""
    try:
        got = read(data)
        return b"\n".join([*written(got), b""]) if read is read_object else canonical(got)
    except Fault as fault:
        return fault.kind, fault.line


def known_cases():
    for number, (data, read, wanted) in enumerate(case_table()):
        what = f"file {number}, {read.__name__} {data[:80]!r}"
        yield what, outcome_of(read, data), data if wanted is None else wanted


def again_cases():
    """Of each random file that can be read, whether its canonical text is read as the same."""
    for number in range(2_000):
        data = random_file("self", number)
        for read in (read_sheet, read_symbol):
            try:
                version, items = read(data)
            except Fault:
                continue
            text = canonical((version, items))
            again_version, again = read(text)
            got = again_version, [item.told() for item in again], canonical((again_version, again))
            yield f"random file {number}", got, (version, [item.told() for item in items], text)


def self_test():
    failed = status_of("files with known answers", list(known_cases()))
    return status_of("canonical texts of random files", list(again_cases())) or failed


def main():
    parser = arguments(__doc__, 4000)
    parser.add_argument("--jobs", type=int, default=4)
    parser.add_argument("--alone", action="store_true")
    parser.add_argument("--edges", action="store_true")
    asked = parser.parse_args()
    if asked.cases:
        return self_test()
    program = None if asked.alone else built(asked.program)
    if asked.folder:
        return compare_folder(program, asked.folder, asked.alone)
    if asked.edges:
        return compare_edges(program)
    return compare_random(program, asked.seed, asked.count, asked.jobs)


if __name__ == "__main__":
    sys.exit(main())
