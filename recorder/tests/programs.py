#!/usr/bin/env python3
"""The ten programs, clean and with -DRACE: output as the serial elision's, verdict, both lines, the
spawn where they part.

    programs.py [--cilkcheck PATH] [--compilers NAME..] [--levels LEVEL..] [--jobs N] [--expect N] [NAME..]
"""
import itertools
import tempfile
from pathlib import Path

import harness
import verdicts
from expected import Expected

PROGRAMS = harness.RECORDER / "programs"


def check(job):
    given, room, source, race, compiler, level = job
    flags = ["-DRACE"] * race + ["-lm"]
    name = f"{source.stem}{'-race' * race} {compiler} {level or 'default'}"
    folder = Path(room) / name.replace(" ", "")
    folder.mkdir()
    compiled = harness.compile(given.wrappers, [source], "program", compiler, level, flags, folder)
    if compiled.status:
        return f"{name}: not compiled: {compiled.errors[-400:]}"
    plain = harness.compile_plain(given.wrappers, [source], "plain", compiler, "-O1", flags, folder)
    if plain.status:
        return f"{name}: not compiled as plain C: {plain.errors[-400:]}"
    ran, traces = harness.record("program", [], folder)
    elision = harness.run([folder / "plain"], folder)
    if (ran.status, ran.output) != (elision.status, elision.output):
        as_plain = f"as plain C {elision.status} and {elision.output!r}"
        return f"{name}: status {ran.status} and {ran.output!r}, and {as_plain}: {ran.errors[-300:]}"
    try:
        races = verdicts.races(verdicts.judged(traces, given.cilkcheck))
    except verdicts.Fault as fault:
        return f"{name}: {fault}"
    unexpected = [f"{rule} of {one} and {other}" for rule, one, other in races]
    said = Expected(source).differences(races) if race else unexpected
    return f"{name}: {'; '.join(said)}" if said else None


def main():
    parser = harness.parser(__doc__)
    parser.add_argument("--levels", nargs="*", default=["-O0", "-O2"])
    parser.add_argument("names", nargs="*")
    given = parser.parse_args()
    sources = [it for it in sorted(PROGRAMS.glob("*.c")) if not given.names or it.stem in given.names]
    with tempfile.TemporaryDirectory(prefix="cilkcheck-programs-") as room:
        jobs = [(given, room, *it) for it in itertools.product(sources, (False, True), given.compilers, given.levels)]
        failures = harness.shown(it for it in harness.in_parallel(check, jobs, given.jobs) if it)
    harness.finish("programs", len(jobs), failures, given.expect)


if __name__ == "__main__":
    main()
