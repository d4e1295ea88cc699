"""What the benchmarks that run bench_parts share: the programs that are built, and what they take of time and memory."""

import os
import resource
import subprocess
import sys

CRATE = os.path.join(os.path.dirname(os.path.abspath(__file__)), "..", "crates", "bench_parts")
PROGRAM = os.path.join(CRATE, "out", "bench_parts")

# as the root's script has it
os.environ.setdefault(
    "GLIBC_TUNABLES",
    "glibc.malloc.hugetlb=1:glibc.malloc.mmap_threshold=16777216:glibc.malloc.trim_threshold=33554432:glibc.malloc.top_pad=4194304",
)


def build_program(tiny):
    """Builds bench_parts by running a tiny case of it."""
    quiet = subprocess.DEVNULL
    subprocess.run(["rt", "run", "--"] + tiny, cwd=CRATE, check=True, stdout=quiet, stderr=quiet)


def build(tiny, source, baseline):
    """Builds bench_parts, and the baseline's source by `rustc -O`."""
    build_program(tiny)
    subprocess.run(["rustc", "-O", "-o", baseline, source], check=True)


def seconds(command, status=0):
    """The processor time that a command takes, which has to end with this status, and what it prints."""
    before = resource.getrusage(resource.RUSAGE_CHILDREN)
    done = subprocess.run(command, capture_output=True, text=True)
    if done.returncode != status:
        sys.exit(f"{command[0]} ended with status {done.returncode}: {done.stderr}")
    answer = done.stdout
    after = resource.getrusage(resource.RUSAGE_CHILDREN)
    return after.ru_utime + after.ru_stime - before.ru_utime - before.ru_stime, answer


def least_times(commands, rounds):
    """The least time of each program's command, since whatever else runs on the machine only makes a run longer; the
    programs have to print the same."""
    times = {name: [] for name in commands}
    for _ in range(rounds):
        answers = set()
        for name, command in commands.items():
            took, answer = seconds(command)
            times[name].append(took)
            answers.add(answer)
        if len(answers) != 1:
            sys.exit(f"the programs differ: {answers}")
    return {name: min(took) for name, took in times.items()}


def most_memory(command, status=0):
    """The most bytes of memory that a command had resident at once; it has to end with this status."""
    errors = subprocess.DEVNULL if status else None
    child = subprocess.Popen(command, stdout=subprocess.DEVNULL, stderr=errors)
    _, waited, usage = os.wait4(child.pid, 0)
    ended = os.waitstatus_to_exitcode(waited)
    if ended != status:
        sys.exit(f"{command[0]} ended with status {ended}")
    return usage.ru_maxrss * 1024
