"""Times a run of a program: `measured`, `best` of several, and `best_of_table`."""
import json
import pathlib
import subprocess
import sys
import tempfile

RUNS = 5

# A process of its own starts the program, since a child counts the memory of its parent.
STARTER = """
import json, os, sys, time
null = os.open(os.devnull, os.O_WRONLY)
start = time.perf_counter()
quiet = [(os.POSIX_SPAWN_DUP2, null, 1)]
pid = os.posix_spawn(sys.argv[1], sys.argv[1:], os.environ, file_actions=quiet)
_, status, used = os.wait4(pid, 0)
seconds = time.perf_counter() - start
print(json.dumps([os.waitstatus_to_exitcode(status), seconds, used.ru_maxrss * 1024]))
"""


def measured(program, folder, words):
    """Status, seconds, the peak of memory in bytes, and what stands on standard error."""
    start = [sys.executable, "-S", "-E", "-c", STARTER, program, *words]
    run = subprocess.run(start, cwd=folder, capture_output=True, check=True)
    return (*json.loads(run.stdout), run.stderr.decode().strip())


def best(program, folder, words, runs=RUNS):
    """The seconds of the best of so many runs, and their peak in bytes. Each has to end well."""
    found = [measured(program, folder, words) for _ in range(runs)]
    for status, _, _, said in found:
        if status != 0:
            sys.exit(f"{' '.join(words)}: status {status} {said}")
    return min(run[1] for run in found), max(run[2] for run in found)


def best_of_table(program, name, lines):
    """The same for the program `cases`, which reads a table of these lines in the folder of this
    name."""
    with tempfile.TemporaryDirectory() as room:
        path = pathlib.Path(room, name, "times.txt")
        path.parent.mkdir()
        path.write_text("\n".join(lines) + "\n", encoding="utf-8")
        return best(program, room, [f"{name}/times.txt"])
