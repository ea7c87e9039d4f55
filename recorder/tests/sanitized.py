#!/usr/bin/env python3
"""The runtime's own code: all warnings and gcc's analyzer, and runs with AddressSanitizer and UBSan in it.

    sanitized.py [--expect N] [NAME..]

The runtime is built with -fsanitize=address,undefined and records the ten programs, the cases in C and 12 of the fuzz's programs. Its allocator is
renamed there, in it and in the programs, since AddressSanitizer brings one of its own. A finding ends the run with a report.
"""
import re
import subprocess
import tempfile
from pathlib import Path

import cases
import harness
from fuzz import SINK, drawn
from generator import HEADER, main_of
from programs import PROGRAMS

RUNTIME = harness.RECORDER / "runtime"
LIBRARIES = ["-Wl,--no-as-needed", "-lasan", "-lubsan", "-lm"]
FINDING = re.compile(r"AddressSanitizer|runtime error|UndefinedBehaviorSanitizer")
SEEDS = range(1, 13)
REFUSED = 70


def warnings(room):
    ran = subprocess.run(["make", "-s", "-j2", "-C", RUNTIME, "check-warnings", f"OUT={room / 'out'}"], env=harness.ENVIRONMENT, capture_output=True, text=True)
    return f"sanitized: warnings: {ran.stderr[-1500:]}" if ran.returncode else None


def build(room):
    """The sanitized runtime with its allocator renamed, and the list of renamings."""
    out = room / "out/sanitized"
    subprocess.run(["make", "-s", "-j2", "-C", RUNTIME, "sanitized", f"OUT={room / 'out'}"], env=harness.ENVIRONMENT, check=True, capture_output=True)
    defined = subprocess.run(["nm", "--defined-only", out / "heap.o"], check=True, capture_output=True, text=True).stdout.split("\n")
    names = [it.split()[2] for it in defined if len(it.split()) == 3 and it.split()[1] in "TW"]
    renamed = room / "renamed"
    renamed.write_text("".join(f"{it} renamed_{it}\n" for it in names if it.startswith("_Z") or re.search("alloc|free|memalign", it) and "_" not in it.replace("_alloc", "").replace("_memalign", "")))
    runtime = room / "runtime.o"
    subprocess.run(["objcopy", f"--redefine-syms={renamed}", out / "cilkcheck-runtime.o", runtime], check=True)
    if b"__asan_report" not in runtime.read_bytes() or b"__ubsan_handle" not in runtime.read_bytes():
        raise SystemExit("sanitized: the runtime has no sanitizers in it")
    return runtime, renamed


def check(job):
    given, room, runtime, renamed, source, flags, words, others = job
    folder = room / f"{source.stem}{''.join(flags)}{''.join(words)}".replace("/", "")
    folder.mkdir()
    name = f"sanitized: {source.name} {' '.join([*flags, *words])}"
    is_refused = source.parent == cases.CASES and cases.header(source)["expect"] == "refused"
    env = {"CILKCHECK_RUNTIME": str(runtime)}
    for command in (
        [given.wrappers / "cilkcheck-cc", *flags, "-c", source, "-o", "program.o"],
        ["objcopy", f"--redefine-syms={renamed}", "program.o"],
        # (AddressSanitizer finds the functions that it stands before only in libraries behind its own)
        [given.wrappers / "cilkcheck-cc", "program.o", *others, *LIBRARIES, *flags, "-o", "program"],
    ):
        ran = harness.run(command, folder, env)
        if ran.status == REFUSED and is_refused:
            return None
        if ran.status:
            return f"{name}: {ran.errors[-300:]}"
    ran = harness.run([folder / "program", *words], folder, {"ASAN_OPTIONS": "detect_leaks=0:exitcode=99", **({"CILKCHECK_RAW": "1"} if words else {})})
    if FINDING.search(ran.errors) or ran.status < 0 or ran.status == 99:
        return f"{name}: status {ran.status}: {ran.errors[:1500]}"
    if ("cilkcheck: recorded" in ran.errors) == is_refused or bool(harness.refused(ran)) != is_refused:
        return f"{name}: status {ran.status}, and {'no refusal' if is_refused else 'nothing recorded'}: {ran.errors[-300:]}"
    return None


def main():
    parser = harness.parser(__doc__)
    parser.add_argument("names", nargs="*")
    given = parser.parse_args()
    with tempfile.TemporaryDirectory(prefix="cilkcheck-sanitized-") as place:
        room = Path(place)
        failures = harness.shown(it for it in [warnings(room)] if it)
        runtime, renamed = build(room)
        drawn_programs = [drawn(it, False) for it in SEEDS]
        lines = list(HEADER)
        for program in drawn_programs:
            program.write(lines)
        fuzz = room / "fuzz.c"
        fuzz.write_text("\n".join([*lines, *main_of(drawn_programs)]) + "\n")
        (room / "sink.c").write_text(SINK)
        harness.run(["gcc", "-c", "sink.c", "-o", "sink.o"], room)
        jobs = [(given, room, runtime, renamed, it, flags, [], []) for it in sorted(PROGRAMS.glob("*.c")) for flags in (["-lm"], ["-DRACE", "-lm"])]
        for it in sorted(cases.CASES.glob("*.c")):
            wanted = cases.header(it)
            jobs.append((given, room, runtime, renamed, it, wanted.get("flags", "").split(), [], []))
        jobs += [(given, room, runtime, renamed, fuzz, [], [str(it)], [room / "sink.o"]) for it in SEEDS]
        jobs = [it for it in jobs if not given.names or it[4].stem.startswith(tuple(given.names))]
        failures += harness.shown(it for it in harness.in_parallel(check, jobs, given.jobs) if it)
    harness.finish("sanitized", len(jobs) + 1, failures, given.expect)


if __name__ == "__main__":
    main()
