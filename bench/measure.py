"""What the benchmarks share: the plain-Rust program, and the costs of both programs. The least of several runs in turns counts."""
import hashlib
import math
import os
import re
import shutil
import subprocess
import sys
import tempfile
import time

HERE = os.path.dirname(os.path.realpath(__file__))
ROOT = os.path.dirname(HERE)
RUNS = int(os.environ.get("RUNS", "7"))


def instructions(command, given=os.devnull):
    """How many instructions a run takes that reads this file, independent of the machine's load. None without valgrind."""
    if not shutil.which("valgrind"):
        return None
    words = ["valgrind", "--tool=callgrind", "--callgrind-out-file=/dev/null", *map(str, command)]
    with open(given) as text:
        said = subprocess.run(words, stdin=text, stdout=subprocess.DEVNULL, stderr=subprocess.PIPE, text=True).stderr
    return int(re.search(r"Collected : (\d+)", said)[1])


def peer():
    """The independent plain-Rust program of the folder PEER (../shared/peer), with the same command line: its file, and the folder of the
    inputs that it makes. None without that folder."""
    folder = os.environ.get("PEER", f"{ROOT}/../shared/peer")
    if not os.path.isdir(folder) or not shutil.which("cargo"):
        return None
    made = os.environ.get("PEER_CACHE", f"{tempfile.gettempdir()}/cilkcheck-peer")
    subprocess.run(["cargo", "build", "--release", "--quiet"], cwd=folder, env={**os.environ, "CARGO_TARGET_DIR": made}, check=True)
    if not os.path.isdir(f"{made}/inputs"):
        subprocess.run([f"{made}/release/gen", "all", f"{made}/inputs"], check=True)
    return f"{made}/release/cilkcheck", f"{made}/inputs"


class Cost:
    """What a command that reads a file costs: the least processor and wall seconds of its runs, and the most memory in MB and page faults.
    The memory that the system tells is never below that of this process, some 15 MB."""

    def __init__(self, command, given=os.devnull):
        self.command, self.given = list(map(str, command)), given
        self.seconds, self.wall, self.peak, self.faults = math.inf, math.inf, 0, 0

    def run(self):
        """Runs it once more, and gives its status, a sum of what it printed, and the first 4,096 bytes of that."""
        with open(self.given, "rb") as text, tempfile.TemporaryFile() as taken:
            begin = time.monotonic()
            child = subprocess.Popen(self.command, stdin=text, stdout=taken)
            _, status, used = os.wait4(child.pid, 0)
            self.wall = min(self.wall, time.monotonic() - begin)
            taken.seek(0)
            said = hashlib.file_digest(taken, "sha256").hexdigest()
            taken.seek(0)
            head = taken.read(4096)
        child.returncode = os.waitstatus_to_exitcode(status)
        if child.returncode not in (0, 1):
            sys.exit(f"{' '.join(self.command)} ended with status {child.returncode}")
        self.seconds = min(self.seconds, used.ru_utime + used.ru_stime)
        self.peak = max(self.peak, used.ru_maxrss * 1024 / 1e6)
        self.faults = max(self.faults, used.ru_minflt)
        return child.returncode, said, head


def costs(commands, given=os.devnull, runs=RUNS):
    """What these commands cost that read one file, in turns. All have to print the same and to end alike."""
    found = [Cost(command, given) for command in commands]
    for _ in range(runs):
        said = [it.run() for it in found]
        if any(it != said[0] for it in said):
            sys.exit(f"answers differ on {given}, {commands}: {[(it[0], it[2][:200]) for it in said]}")
    return found


def table(heads):
    """Prints a line of heads, and gives a function that prints the lines below it."""
    widths = [max(len(it), 9) for it in heads]
    tell = lambda *cells: print("  ".join(f"{cell:>{width}}" for cell, width in zip(cells, widths)), flush=True)
    tell(*heads)
    return tell


HEADS = ["seconds", "wall", "requests/s", "peak MB", "faults", "peer s", "peer wall", "peer MB", "peer faults", "ratio s", "ratio MB"]


def told(requests, ours, peers=None):
    """The cells below HEADS."""
    cells = [f"{ours.seconds:.3f}", f"{ours.wall:.3f}", f"{requests / ours.seconds:,.0f}", f"{ours.peak:.0f}", ours.faults]
    if peers:
        cells += [f"{peers.seconds:.3f}", f"{peers.wall:.3f}", f"{peers.peak:.0f}", peers.faults]
        cells += [f"{ours.seconds / peers.seconds:.2f}", f"{ours.peak / peers.peak:.2f}"]
    return cells


def exponent(sizes, costs):
    """The e for which costs grow as sizes to the e, from the first to the last."""
    return math.log(costs[-1] / costs[0]) / math.log(sizes[-1] / sizes[0])


def machine(runs=RUNS):
    with open("/proc/cpuinfo") as text:
        model = re.search(r"model name\s*: (.*)", text.read())
    print(f"{os.cpu_count()} processors ({model[1] if model else 'unknown'}), load {os.getloadavg()[0]:.1f}, least of {runs} runs")


def verdict(claims):
    """Says which claims hold, and ends with status 1 where one does not."""
    for what, holds in claims:
        print(f"{'holds' if holds else 'FAILS'}: {what}")
    sys.exit(0 if all(holds for _, holds in claims) else 1)
