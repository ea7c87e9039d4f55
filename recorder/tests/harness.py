"""What the tests share: the wrappers, a compile, a recorded run and its verdicts, the same program as plain C, jobs in
parallel."""
import argparse
import concurrent.futures
import os
import re
import subprocess
import sys
import tempfile
from dataclasses import dataclass
from pathlib import Path

import verdicts

HERE = Path(__file__).resolve().parent
RECORDER = HERE.parent
COMPILERS, LEVELS = ("clang",), ("-O0", "-O2", "-O3")
CXX = (".cpp", ".cc", ".cxx")
SECONDS = 300
# The wrappers run by the Python that runs this, without a version manager's detour, and their modules are compiled
# once.
MODULES = tempfile.TemporaryDirectory(prefix="cilkcheck-modules-")
ENVIRONMENT = {
    **{name: value for name, value in os.environ.items()
       if not name.startswith("CILKCHECK_") and name != "PYTHONDONTWRITEBYTECODE"},
    "PATH": f"{os.path.dirname(sys.executable)}:{os.environ['PATH']}",
    "PYTHONPYCACHEPREFIX": MODULES.name,
}


def parser(text):
    made = argparse.ArgumentParser(description=text.splitlines()[0])
    made.add_argument("--cilkcheck", type=Path, default=verdicts.CILKCHECK, help="the judge")
    made.add_argument("--wrappers", type=Path, default=RECORDER / "bin", help="the folder of cilkcheck-cc")
    made.add_argument("--compilers", nargs="+", default=COMPILERS, help="clangs: clang clang-16 ..")
    made.add_argument("--jobs", type=int, default=os.cpu_count())
    made.add_argument("--expect", type=int, help="how many checks there have to be")
    return made


@dataclass
class Ran:
    status: int
    output: str
    errors: str


def run(command, cwd, env=None, seconds=SECONDS):
    """Runs a command. Standard input is empty; a run of over two minutes has failed."""
    try:
        ran = subprocess.run([str(it) for it in command], cwd=cwd, env={**ENVIRONMENT, **(env or {})}, timeout=seconds,
                             stdin=subprocess.DEVNULL, capture_output=True, text=True, errors="replace")
    except subprocess.TimeoutExpired:
        return Ran(124, "", f"{command[0]}: more than {seconds} seconds")
    return Ran(ran.returncode, ran.stdout, ran.stderr)


def is_cxx(sources):
    return any(Path(it).suffix in CXX for it in sources)


def compile(wrappers, sources, output, compiler, level, flags=(), cwd=".", runtime=None):
    """Compiles and links for a recording, with another build of the runtime where one is given."""
    tool = wrappers / ("cilkcheck-c++" if is_cxx(sources) else "cilkcheck-cc")
    env = {"CILKCHECK_CC": compiler, **({"CILKCHECK_RUNTIME": str(runtime)} if runtime else {})}
    return run([tool, *([level] if level else []), *sources, *flags, "-o", output], cwd, env)


def compile_plain(wrappers, sources, output, compiler, level, flags=(), cwd="."):
    """Compiles the serial elision: the recorder's headers, without the recorder."""
    driver = [compiler, *(["--driver-mode=g++"] if is_cxx(sources) else [])]
    return run([*driver, "-w", level, "-I", wrappers.parent / "include", *sources, *flags, "-o", output], cwd)


def record(program, words=(), cwd=".", env=None):
    """Runs a recorded program. Gives the run and its traces."""
    ran = run([Path(cwd) / program, *words], cwd, env)
    return ran, verdicts.traces_of(Path(cwd) / program)


def refused(ran):
    """The place and the reason, where the run or the compile was refused."""
    found = re.search(r"^cilkcheck: refused: (.*?):(\d+): (.*)$", ran.errors, re.M)
    return found and (Path(found[1]).name, int(found[2]), found[3])


def in_parallel(function, items, jobs):
    with concurrent.futures.ThreadPoolExecutor(jobs) as pool:
        yield from pool.map(function, items)


def shown(failures):
    """Prints each failure as it comes, and gives them all."""
    found = []
    for it in failures:
        print(it, flush=True)
        found.append(it)
    return found


def finish(what, checks, failures, expected):
    """Prints one line of counts. Nothing passes that was not run."""
    if expected is not None and checks != expected:
        failures = [*failures, print(f"{what}: {expected} checks were expected")]
    print(f"{what}: {checks} checks, {len(failures)} failed", flush=True)
    sys.exit(1 if failures or not checks else 0)
