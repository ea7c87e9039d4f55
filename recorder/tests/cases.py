#!/usr/bin/env python3
"""Small programs with what is expected of them, at three levels.

    cases.py [--cilkcheck PATH] [--jobs N] [--expect N] [--without NAME] [--compilers NAME..] [--chosen | --spread | --levels LEVEL..]
             [NAME..]

The first line of a case is a comment of parts between semicolons, the last one for the reader:

    expect: clean     no race, and nothing that was not seen
    expect: race      the races that the comments of its lines tell (expected.py), one at least, and no others
    expect: refused   by the wrapper or by the run: exit status 70, the line that says `refused`, no trace
    unseen: NAME      what is not seen is named, when the program is linked or run, and in the trace
    says: TEXT        is in the refusal
    flags: ..         for the compiler; plain: no (the elision's output is not compared)
    levels: all       with --chosen too; from: -O2

A refusal must say `cilkcheck: refused: FILE:LINE: why`. Else the run's output and status must be those of the serial
elision.
"""
import itertools
import tempfile
from pathlib import Path

import harness
import verdicts
from expected import Expected

CASES = harness.HERE / "cases"


def header(source):
    first = source.read_text().splitlines()[0].strip().removeprefix("/*").removeprefix("//").removesuffix("*/")
    parts = [part.partition(":") for part in first.split(";")[:-1]]
    return {key.strip(): value.strip() for key, colon, value in parts if colon}


def refusal(source, wanted, ran, traces):
    """What is wrong with a refusal, or None."""
    found = harness.refused(ran)
    if not found:
        return f"status {ran.status} without `cilkcheck: refused: FILE:LINE: why`: {ran.errors[-300:]}"
    file, line, why = found
    lines = Expected(source).refused
    if ran.status != 70:
        return f"refused with status {ran.status}, not 70"
    if traces:
        return "refused, and left a trace"
    if lines and (file != source.name or line not in lines):
        return f"refused at {file}:{line} ({why})"
    if wanted.get("says", "") not in why:
        return f"refused because {why}"
    return None


def check(job):
    """What is wrong with a case, by each compiler and level."""
    given, room, source, ways = job
    wanted = header(source)
    folder = Path(room) / source.name
    folder.mkdir()
    plain = None
    if wanted.get("plain") != "no":
        # (by one compiler: its output is that of all)
        flags = wanted.get("flags", "").split()
        plain = harness.compile_plain(given.wrappers, [source], "plain", ways[0][0], "-O0", flags, folder)
        if not plain.status:
            plain = harness.run([folder / "plain"], folder)
    return [it for way in ways if (it := compare(given, folder, source, *way, wanted, plain))]


def compare(given, room, source, compiler, level, wanted, plain):
    folder = room / f"{compiler}{level}"
    folder.mkdir()
    name = f"{source.name} {compiler} {level}"
    kind, flags = wanted["expect"], wanted.get("flags", "").split()
    ran, traces = harness.compile(given.wrappers, [source], "program", compiler, level, flags, folder), []
    compiled = ran
    if not ran.status:
        ran, traces = harness.record("program", [], folder)
    told = compiled.errors + ran.errors
    if kind == "refused":
        said = refusal(source, wanted, ran, traces)
        return said and f"{name}: {said}"
    if ran.status == 70:
        return f"{name}: {told[-300:]}"
    if compiled.status:
        return f"{name}: not compiled: {compiled.errors[-500:]}"
    if plain and (ran.status, ran.output) != (plain.status, plain.output):
        said = plain.errors[-300:] + ran.errors[-300:]
        return f"{name}: status {ran.status}, {ran.output!r}; as plain C {plain.status}, {plain.output!r}: {said}"
    try:
        judged = verdicts.judged(traces, given.cilkcheck)
    except verdicts.Fault as fault:
        return f"{name}: {fault} {ran.errors[-300:]}"
    notes = "\n".join(note for it in judged for note in it.notes)
    if "unseen" in wanted and not (wanted["unseen"] in told and wanted["unseen"] in notes):
        return f"{name}: {wanted['unseen']} is not named as not seen: {told[-300:]} {notes[-300:]}"
    if "not seen" in notes and "unseen" not in wanted:
        return f"{name}: {notes[-300:]}"
    expected = Expected(source)
    if kind not in ("clean", "race") or bool(expected.race) != (kind == "race"):
        return f"{name}: expects {kind}, and its lines tell of {len(expected.race)} races"
    said = expected.differences(verdicts.races(judged))
    return f"{name}: {'; '.join(said)}" if said else None


def levels_of(given, wanted, k):
    if given.chosen:
        levels = harness.LEVELS if wanted.get("levels") == "all" else ["-O0", "-O2"]
    else:
        levels = ["-O0", ("-O2", "-O3")[k % 2]] if given.spread else given.levels
    return [it for it in levels if it >= wanted.get("from", it)]


def main():
    parser = harness.parser(__doc__)
    parser.add_argument("--levels", nargs="*", default=harness.LEVELS)
    parser.add_argument("--chosen", action="store_true", help="-O0 and -O2, and -O3 where optimization may matter")
    parser.add_argument("--spread", action="store_true", help="-O0, and -O2 or -O3 in turns")
    parser.add_argument("--without", default="-", metavar="NAME", help="leaves out the cases whose names begin so")
    parser.add_argument("names", nargs="*", help="cases, by the beginning of their names")
    given = parser.parse_args()
    sources = [it for it in sorted(CASES.iterdir()) if not given.names or it.name.startswith(tuple(given.names))]
    sources = [it for it in sources if not it.name.startswith(given.without)]
    with tempfile.TemporaryDirectory(prefix="cilkcheck-cases-") as room:
        jobs = []
        for k, source in enumerate(sources):
            wanted = header(source)
            ways = list(itertools.product(given.compilers, levels_of(given, wanted, k)))
            if ways:
                jobs.append((given, room, source, ways))
        failures = harness.shown(it for found in harness.in_parallel(check, jobs, given.jobs) for it in found)
    harness.finish("cases", sum(len(it[-1]) for it in jobs), failures, given.expect)


if __name__ == "__main__":
    main()
