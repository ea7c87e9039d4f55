#!/usr/bin/env python3
"""The library that judges each access: its answers against ones worked out by hand and against an oracle, and what its calls cost.

    judge.py [--library FILE] [--runs N] [--speed]

FILE is crates/judge_library/out/libjudge_library.a, which `rt lib` proves and builds, where it is there; else one that tools/build-unproved
makes. With --speed it prints what one call of each kind costs, in processor time and, where valgrind is there, in instructions.
"""
import argparse
import re
import shutil
import subprocess
import sys
import tempfile
from pathlib import Path

HERE = Path(__file__).resolve().parent
ROOT = HERE.parent.parent
PROVED = ROOT / "crates/judge_library/out/libjudge_library.a"
HEAP = ROOT / "recorder/runtime/judge_heap.c"
FLAGS = ["-O2", "-Wall", "-Wextra", "-Wconversion", "-Wshadow", "-Wstrict-prototypes", "-Wmissing-prototypes", "-Werror"]
KINDS = ("filtered", "first", "judged", "parallel", "searched", "spawn", "child", "call")


def run(*command):
    ran = subprocess.run([str(it) for it in command], capture_output=True, text=True)
    if ran.returncode:
        sys.exit(f"{' '.join(map(str, command[:4]))} ..: status {ran.returncode}\n{ran.stdout}{ran.stderr}")
    return ran.stdout.strip(), ran.stderr


def library(given, room):
    if given:
        return Path(given).resolve()
    if PROVED.is_file():
        return PROVED
    run(ROOT / "tools/build-unproved", "--library", room / "libcilkcheck_judge.a")
    return room / "libcilkcheck_judge.a"


def answers(judge, room, runs):
    for compiler, more in (("gcc", []), ("clang", []), ("gcc", ["-fsanitize=address,undefined", "-fno-sanitize-recover=all"])):
        run(compiler, "-std=c11", *FLAGS, *more, HERE / "judge/calls.c", HEAP, judge, "-o", room / "calls")
        print(f"judge: {compiler} {' '.join(more[:1])}: {run(room / 'calls', runs)[0]}")


def instructions(speed, kind, count):
    said = run("valgrind", "--tool=callgrind", "--callgrind-out-file=/dev/null", speed, kind, count)[1]
    return int(re.search(r"Collected : (\d+)", said)[1])


def costs(judge, room):
    run("gcc", "-std=gnu11", *FLAGS, HERE / "judge/speed.c", HEAP, judge, "-o", room / "speed")
    for kind in KINDS:
        text = min((run(room / "speed", kind, 5_000_000)[0] for _ in range(3)), key=lambda it: float(re.search(r"([\d.]+) ns", it)[1]))
        if shutil.which("valgrind"):
            # (what the begin and the end take is in both)
            text += f", {(instructions(room / 'speed', kind, 225_280) - instructions(room / 'speed', kind, 20_480)) / 204_800:.0f} instructions"
        print(text)


def main():
    parser = argparse.ArgumentParser(description=__doc__, formatter_class=argparse.RawDescriptionHelpFormatter)
    parser.add_argument("--library", metavar="FILE")
    parser.add_argument("--runs", type=int, default=2000)
    parser.add_argument("--speed", action="store_true")
    given = parser.parse_args()
    with tempfile.TemporaryDirectory(prefix="cilkcheck-judge-") as folder:
        judge = library(given.library, Path(folder))
        print(f"judge: {judge}")
        answers(judge, Path(folder), given.runs)
        if given.speed:
            costs(judge, Path(folder))


if __name__ == "__main__":
    main()
