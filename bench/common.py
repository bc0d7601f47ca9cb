"""What the benchmarks share: where the built program is, and how a run of it is measured."""
import os
import resource
import subprocess
import sys
import tempfile
import time

TOP = os.path.dirname(os.path.dirname(os.path.abspath(__file__)))
TIME = "/usr/bin/time"
PROGRAM = os.environ.get("LOADER", os.path.join(TOP, "crates", "loader", "out", "loader"))


def need_program():
    """Stops where the program is not built yet."""
    if not os.access(PROGRAM, os.X_OK):
        sys.exit(f"bench: {PROGRAM} is not built: run ./loader.sh --version first")


def run(words, folder, repeats=3, program=PROGRAM):
    """Runs the program, or another one. Gives the least time in seconds, the peak memory in bytes, the output's length and the status."""
    best, length, status = None, 0, 0
    for _ in range(repeats):
        begun = time.perf_counter()
        done = subprocess.run([program, *words], cwd=folder, stdout=subprocess.PIPE, stderr=subprocess.DEVNULL)
        spent = time.perf_counter() - begun
        best = spent if best is None else min(best, spent)
        length, status = len(done.stdout), done.returncode
    return best, peak_memory(words, folder, program), length, status


def processor(words, folder, repeats=7, program=PROGRAM):
    """Runs the program, or another one. Gives the least time of the processor in seconds, and what the last run printed."""
    best, printed = None, b""
    for _ in range(repeats):
        before = resource.getrusage(resource.RUSAGE_CHILDREN)
        done = subprocess.run([program, *words], cwd=folder, stdout=subprocess.PIPE, stderr=subprocess.DEVNULL)
        after = resource.getrusage(resource.RUSAGE_CHILDREN)
        spent = after.ru_utime - before.ru_utime + after.ru_stime - before.ru_stime
        best, printed = spent if best is None else min(best, spent), done.stdout
    return best, printed


def peak_memory(words, folder, program):
    """The peak memory of one more run, in bytes; 0 where GNU time is not there to tell it.

    A child of this script would be told with the memory of Python itself, from which it is forked.
    """
    if not os.access(TIME, os.X_OK):
        return 0
    with tempfile.NamedTemporaryFile("r") as report:
        subprocess.run(
            [TIME, "-q", "-f", "%M", "-o", report.name, program, *words],
            cwd=folder, stdout=subprocess.DEVNULL, stderr=subprocess.DEVNULL,
        )
        return int(report.read().split()[-1]) * 1024


def built(name, *below):
    """The program of a crate, built first, which proves it, where it is not there or a source of it or of a crate below is newer."""
    crate = os.path.join(TOP, "crates", name)
    program = os.path.join(crate, "out", name)
    sources = [os.path.join(TOP, "crates", one, "src") for one in (name, *below)]
    newest = max(os.path.getmtime(os.path.join(folder, file)) for folder in sources for file in os.listdir(folder))
    if os.access(program, os.X_OK) and os.path.getmtime(program) >= newest:
        return program
    print(f"bench: building {name}; it is proved first", file=sys.stderr)
    if os.path.exists(program):
        os.remove(program)
    done = subprocess.run(["rt", "run"], cwd=crate, stdout=subprocess.PIPE, stderr=subprocess.STDOUT, text=True)
    if not os.access(program, os.X_OK):
        sys.exit(done.stdout + f"bench: {name} was not built")
    return program
