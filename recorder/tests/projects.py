#!/usr/bin/env python3
"""A project with a Makefile and one with CMake, of several files and a library each, and one of each kind that is
written for OpenCilk's compiler and its flags: built by the wrappers, clean and with a race.

    projects.py [--cilkcheck PATH] [--expect N]
"""
import itertools
import os
import shutil
import tempfile
from pathlib import Path

import harness
import verdicts
from expected import Expected

PROJECTS = harness.HERE / "projects"


def make(given, folder, compiler, race):
    words = ["make", "-s", f"CC={given.wrappers / 'cilkcheck-cc'}"] + ["CFLAGS=-O2 -Iinclude -DSIZE=600 -DRACE"] * race
    return [harness.run(words, folder, {"CILKCHECK_CC": compiler})], folder / "total", folder / "sum.c"


def cmake(given, folder, compiler, race):
    env = {"CILKCHECK_CC": compiler}
    tools = [
        f"-DCMAKE_C_COMPILER={given.wrappers / 'cilkcheck-cc'}",
        f"-DCMAKE_CXX_COMPILER={given.wrappers / 'cilkcheck-c++'}",
    ]
    first = harness.run(["cmake", "-S", ".", "-B", "build", *tools, f"-DRACE={'ON' if race else 'OFF'}"], folder, env)
    steps = [first, harness.run(["cmake", "--build", "build"], folder, env)]
    return steps, folder / "build/sorted", folder / "sorting/sort.cpp"


def opencilk_make(given, folder, compiler, race):
    words = [
        "make",
        "-s",
        *(f"{name}={given.wrappers / tool}" for name, tool in (("CC", "cilkcheck-cc"), ("CXX", "cilkcheck-c++"))),
    ]
    ran = harness.run(words + ["EXTRA_CFLAGS=-DRACE"] * race, folder, {"CILKCHECK_CC": compiler})
    return [ran], folder / "count", folder / "bins.cpp"


def opencilk_cmake(given, folder, compiler, race):
    steps, _, _ = cmake(given, folder, compiler, race)
    return steps, folder / "build/smooth", folder / "rows.cpp"


def check(job):
    given, room, build, compiler, race = job
    name = f"{build.__name__} {compiler}{' with a race' * race}"
    folder = Path(room) / name.replace(" ", "-")
    shutil.copytree(PROJECTS / build.__name__, folder)
    steps, program, source = build(given, folder, compiler, race)
    for ran in steps:
        if ran.status:
            return f"{name}: not built: {ran.output[-300:]}{ran.errors[-500:]}"
    leftover = [it for it in os.listdir(folder) if it.endswith(".trace")]
    ran = harness.run([program], folder)
    if ran.status or leftover:
        return f"{name}: status {ran.status}, traces of the build {leftover}: {ran.errors[-300:]}"
    try:
        races = verdicts.races(verdicts.judged(verdicts.traces_of(folder / program.name), given.cilkcheck))
    except verdicts.Fault as fault:
        return f"{name}: {fault}: {ran.errors}"
    said = Expected(source).differences(races) if race else [str(it) for it in races]
    return f"{name}: {'; '.join(said)}" if said else None


def main():
    given = harness.parser(__doc__).parse_args()
    with tempfile.TemporaryDirectory(prefix="cilkcheck-projects-") as room:
        jobs = [
            (given, room, *it) for it in itertools.product(
                (make, cmake, opencilk_make, opencilk_cmake), harness.COMPILERS, (False, True)
            )
        ]
        failures = harness.shown(it for it in harness.in_parallel(check, jobs, given.jobs) if it)
    harness.finish("projects", len(jobs), failures, given.expect)


if __name__ == "__main__":
    main()
