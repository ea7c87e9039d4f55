#!/usr/bin/env python3
"""Random fork-join programs in C and C++, held against an oracle that knows nothing of the recorder.

    fuzz.py [--count N] [--seed S] [--compilers NAME..] [--keep FOLDER] [--expect N] [--expect-racy N]

A program is a tree of the statements in grammar/: accesses of numbers, fields, bit-fields, unions and packed
structures, casts, pointers to elements and to functions, functions of libc, the heap, loops, switches and jumps, calls,
spawns, spawned blocks, cilk_for, cilk_scope, atomics, reducers, early returns; in C++ references, lambdas, methods,
destructors, templates, exceptions and containers besides; and a function with many frames that are alike, few of them
racy. The oracle (oracle.py) interprets the same tree. Each program is recorded four times: compressed, compressed with
the judge deciding epochs, compressed in traces of 60 requests (which the recorder may refuse), and with every access of
every byte. Each recording has to show a race at exactly the bytes of globals at which the oracle finds one, and at as
many bytes of locals and of the heap; the lines of each report and the spawn at which they part have to be a pair and a
spawn that the oracle knows for that byte; and the output has to be the serial elision's.

Programs are spread over the compilers, three levels and both languages, 25 of them to a source.
"""
import concurrent.futures
import itertools
import shutil
import subprocess
import sys
import tempfile
from collections import Counter
from pathlib import Path

import harness
import verdicts
from generator import HEADER, Program, main_of
from oracle import Oracle, TooLong

EACH = 25
FLAGS = ["-w", "-fwrapv"]
MODES = {
    "compressed": {},
    "epochs by the judge": {"CILKCHECK_EPOCHS": "no"},
    "in parts": {"CILKCHECK_LIMIT": "60"},
    "raw": {"CILKCHECK_RAW": "1"},
}
SINK = """
static unsigned long sum;
void sink(long value) { sum = sum * 31 + (unsigned long)value; }
unsigned long sunk(void) { return sum; }
"""


def drawn(seed, cxx):
    """The program of a seed: the first of its draws that is not too long, and what the oracle says of it."""
    for draw in itertools.count():
        program = Program(seed, draw, cxx)
        program.write([])
        try:
            Oracle(program).run()
            return program
        except TooLong:
            continue


class Group:
    """Programs of one source, by one compiler and level."""

    def __init__(self, given, room, seeds, compiler, level, cxx, runtime):
        self.given, self.compiler, self.level, self.cxx, self.runtime = given, compiler, level, cxx, runtime
        self.name = f"{compiler}{level}{'-c++' * cxx}-{seeds[0]}"
        self.folder = Path(given.keep or room) / self.name
        self.folder.mkdir(parents=True, exist_ok=True)
        self.programs = [drawn(it, cxx) for it in seeds]
        self.failures, self.counts = [], Counter()

    def built(self):
        source = self.folder / ("p.cpp" if self.cxx else "p.c")
        lines = list(HEADER)
        for program in self.programs:
            program.write(lines)
        lines += main_of(self.programs)
        source.write_text("\n".join(lines) + "\n")
        for program in self.programs:
            program.found = Oracle(program).run()
        (self.folder / "sink.c").write_text(SINK)
        harness.run([self.compiler, "-c", "sink.c", "-o", "sink.o"], self.folder)
        how, sources = (self.compiler, self.level, FLAGS, self.folder), [source, "sink.o"]
        compiled = harness.compile(self.given.wrappers, sources, "p", *how, self.runtime)
        plain = harness.compile_plain(self.given.wrappers, sources, "plain", *how)
        for ran in compiled, plain:
            if ran.status:
                self.failures.append(f"{self.name}: not compiled: {ran.errors[-600:]}")
        return not self.failures

    def check(self):
        if self.built():
            for program in self.programs:
                for mode, env in MODES.items():
                    try:
                        said = self.compare(program, mode, env)
                    except verdicts.Fault as fault:
                        said = [str(fault)]
                    self.counts["recordings"] += 1
                    self.failures += [f"{self.name} seed {program.seed} {mode}: {it}" for it in said]
                self.counts["programs"] += 1
                self.counts["racy"] += program.found.is_racy()
                self.counts["locations"] += len(program.found.racy)

    def compare(self, program, mode, env):
        found = program.found
        words = [str(program.seed)]
        members = self.folder / "members"
        members.unlink(missing_ok=True)
        ran, traces = harness.record("p", words, self.folder, {**env, "CILKCHECK_MEMBERS": str(members)})
        if mode == "in parts" and ran.status == 70 and not traces:
            self.counts["refused"] += 1
            return []
        self.counts["parts"] += len(traces) > 1
        plain = harness.run([self.folder / "plain", *words], self.folder)
        if ran.status or ran.output != plain.output:
            said = "\n".join(it for it in ran.errors.splitlines() if not it.startswith("at "))[-300:]
            return [f"status {ran.status}, {ran.output!r}, as plain C {plain.status}, {plain.output!r}: {said}"]
        at = {}
        for line in ran.errors.splitlines():
            if line.startswith("at "):
                _, name, address, size = line.split()
                at[name] = (int(address, 16), int(size))
        if set(at) != set(program.globals()):
            return [f"the program told the places of {sorted(at)}"]
        judged = verdicts.judged(traces, self.given.cilkcheck)
        return list(dict.fromkeys(differences(found, at, members.read_text(), judged)))[:4]


def differences(found, at, members, judged):
    """What a recording says otherwise than the oracle. `at`: the globals' addresses and sizes; `members`: which bytes
    each cell stands for."""
    refusals, reducers = {}, set()
    for number, trace in enumerate(judged, 1):
        for it in trace.refusals:
            if it.rule in ("view-read", "unset"):
                reducers.add(it.rule)
            else:
                refusals.setdefault((number, it.cell), []).append(it)
    # Each refused cell's members race, by lines and a spawn that the oracle knows there; and each byte that races is
    # among some cell's.
    bytes_of_globals, bytes_of_lives, used, containers = set(), set(), set(), set()
    for line in members.splitlines():
        number, cell, address, life = line.split()
        cell, address = (int(number), f"c[{cell}]"), int(address, 16)
        if cell not in refusals:
            continue
        used.add(cell)
        pair = lines_of(refusals[cell][0])
        place = next(((name, address - it) for name, (it, size) in at.items() if it <= address < it + size), None)
        container = next((name for name, pairs in found.uses.items() if pair in pairs), None)
        if place:
            bytes_of_globals.add(place)
            known, where = found.racy.get(place, {}), place[0]
        elif container:
            containers.add(container)
            known, where = found.uses[container], container
        else:
            bytes_of_lives.add((address, int(life)))
            known, where = found.pairs_of_lives, "a local or block"
        for it in refusals[cell]:
            spawns = known.get(lines_of(it))
            if spawns is None:
                yield f"{it.rule} of lines {lines_of(it)} at {where}, which the oracle does not know"
            elif it.spawn.line not in spawns:
                yield f"lines {lines_of(it)} at {where} part at {it.spawn.line}, by the oracle at {sorted(spawns)}"
    if lost := set(refusals) - used:
        yield f"no members of {sorted(lost)}"
    wanted = {it for it in found.racy if isinstance(it[0], str)}
    lives = len(found.racy) - len(wanted)
    if bytes_of_globals != wanted:
        yield f"races lost: {told(wanted - bytes_of_globals)}; races that are none: {told(bytes_of_globals - wanted)}"
    if len(bytes_of_lives) != lives:
        known = told(it for it in found.racy if it not in wanted)
        yield f"{len(bytes_of_lives)} bytes of locals and blocks, by the oracle {lives} ({known})"
    if found.sure - containers:
        yield f"races of uses lost: {sorted(found.sure - containers)}"
    if bool(reducers) != bool(found.reducers):
        yield f"reducers: {reducers or 'no race'}, by the oracle {found.reducers or 'none'}"


def lines_of(refusal):
    return refusal.earlier.line, refusal.later.line


def check(job):
    group = Group(*job)
    group.check()
    return group.failures, group.counts


def told(places):
    return ", ".join(f"{name}+{k}" for name, k in sorted(places, key=str)[:12]) or "none"


def main():
    parser = harness.parser(__doc__)
    parser.add_argument("--count", type=int, default=300)
    parser.add_argument("--seed", type=int, default=1)
    parser.add_argument("--only", nargs="*", default=[], help="groups by the beginning of their names: clang-O0-c++")
    parser.add_argument("--keep", help="a folder in which sources and programs stay")
    parser.add_argument("--expect-racy", type=int, help="how many programs the oracle has to find racy")
    given = parser.parse_args()
    if given.keep:
        shutil.rmtree(given.keep, ignore_errors=True)
    combinations = list(itertools.product(harness.LEVELS, given.compilers, (False, True)))
    runtime = harness.RECORDER / "runtime"
    failures, counts = [], Counter()
    with tempfile.TemporaryDirectory(prefix="cilkcheck-fuzz-") as room:
        # (These programs are small: for most of them a runtime is built that tells the states in use from the others
        # after each strand, or that settles what is loose of a state at once.)
        builds = {"often": "-DCOLLECT_AFTER=1", "at-once": "-DMOST_LOOSE=1u"}
        for name, option in builds.items():
            words = [f"OUT={room}/{name}", f"CFLAGS=-O2 -g {option}", f"{room}/{name}/cilkcheck-runtime.o"]
            subprocess.run(["make", "-s", "-j2", "-C", runtime, *words], env=harness.ENVIRONMENT, check=True)
        jobs = []
        for k, first in enumerate(range(given.seed, given.seed + given.count, EACH)):
            level, compiler, cxx = combinations[k % len(combinations)]
            seeds = list(range(first, min(first + EACH, given.seed + given.count)))
            if not given.only or f"{compiler}{level}{'-c++' * cxx}".startswith(tuple(given.only)):
                often = (k // 2 + k // len(combinations)) % 2
                build = "often" if often else "at-once" if k // 4 % 2 else None
                jobs.append((given, room, seeds, compiler, level, cxx, build and f"{room}/{build}/cilkcheck-runtime.o"))
        with concurrent.futures.ProcessPoolExecutor(given.jobs) as pool:
            for found, counted in pool.map(check, jobs):
                failures += found
                counts += counted
                for it in found:
                    print(it, flush=True)
    print(f"fuzz: {counts['programs']} programs, {counts['racy']} of them racy at {counts['locations']} bytes, "
          f"{counts['recordings'] - counts['refused']} recordings held against the oracle, "
          f"{counts['parts']} of them in parts")
    if given.expect_racy is not None and counts["racy"] != given.expect_racy:
        failures.append(print(f"fuzz: {given.expect_racy} racy programs were expected"))
    if given.expect is not None and counts["programs"] != given.expect:
        failures.append(print(f"fuzz: {given.expect} programs were expected"))
    print(f"fuzz: {len(failures)} failures")
    sys.exit(1 if failures or not counts["racy"] else 0)


if __name__ == "__main__":
    main()
