#!/usr/bin/env python3
"""What is told of functions that were not compiled by the wrapper: libc's, libstdc++'s, OpenMP's.

    libraries/run.py [what ../cases.py takes]

First names/update check, effects.c and containers.cpp (with the runtime's wrappers alone), then the programs of cases/,
as ../cases.py does.
"""
import subprocess
import sys
import tempfile
from pathlib import Path

HERE = Path(__file__).resolve().parent
RECORDER = HERE.parent.parent
sys.path.insert(0, str(HERE.parent))
import cases  # noqa: E402


def run(*command):
    ran = subprocess.run([str(it) for it in command], capture_output=True, text=True)
    if ran.returncode:
        sys.exit(f"{' '.join(map(str, command[:4]))} ..: status {ran.returncode}\n{ran.stdout}{ran.stderr}")
    return ran.stdout.strip()


def wrappers_alone(room):
    """The wrappers beside a recorder that only notes what they tell."""
    objects = []
    for source in sorted([*(RECORDER / "runtime").glob("libc_*.c"), *(RECORDER / "runtime").glob("cxx_*.c")]):
        objects.append(room / f"{source.stem}.o")
        run("gcc", "-std=gnu11", "-g", "-O1", "-fno-builtin", "-c", source, "-o", objects[-1])
    plain = ["-std=gnu11", "-g", "-fno-builtin", "-Wno-format"]
    run("gcc", *plain, HERE / "effects.c", *objects, "-lm", "-o", room / "effects")
    print(run(room / "effects"))
    run("clang++", "-std=c++17", "-g", "-c", HERE / "containers.cpp", "-o", room / "containers.o")
    run("objcopy", f"--redefine-syms={RECORDER / 'names' / 'redirected'}", room / "containers.o")
    run("clang++", room / "containers.o", *objects, "-o", room / "containers")
    print(run(room / "containers"))


if __name__ == "__main__":
    run(RECORDER / "names" / "update", "check")
    with tempfile.TemporaryDirectory(prefix="cilkcheck-libraries-") as folder:
        wrappers_alone(Path(folder))
    cases.CASES = HERE / "cases"
    cases.main()
