#!/usr/bin/env python3
"""Judges the traces of a recording and tells its races by lines.

    verdicts.py [--cilkcheck PATH] [--all] PROGRAM | TRACE..

PROGRAM stands for PROGRAM.trace, or for PROGRAM.1.trace, PROGRAM.2.trace and so on. For each pair of lines that race it prints the rule,
both places, the spawn at which the two part, what the location is, and how often. The status is the worst of `cilkcheck judge`.

The strands' ancestry, and so the spawn at which two accesses part, is computed here from the trace's own spawns and the judge's answers.
"""
import argparse
import re
import subprocess
import sys
from dataclasses import dataclass, field
from pathlib import Path

ROOT = Path(__file__).resolve().parent.parent.parent
CILKCHECK = ROOT / "cilkcheck"
AT = re.compile(r"#at (\d+) (.*?):(\d+), (.*?)(?: \| ?(.*))?")
OF = re.compile(r"#of (\S+) (.*)")
# statuses of `judge`, from the best to the worst
ORDER = [0, 1, 2, 4, 3]


class Fault(Exception):
    """The traces are not a whole recording."""


@dataclass(frozen=True)
class Place:
    file: str
    line: int
    function: str = ""
    code: str = ""

    def __str__(self):
        return f"{self.file}:{self.line}"


NOWHERE = Place("?", 0)


@dataclass
class Refusal:
    """A refused access and its witness; `cell` is the cell or the reducer."""
    rule: str
    cell: str
    location: str
    earlier: Place
    later: Place
    spawn: Place
    entry: int


@dataclass
class Trace:
    path: Path
    status: int
    requests: int
    notes: list = field(default_factory=list)
    refusals: list = field(default_factory=list)


def traces_of(program):
    """The traces of a recording, in their order."""
    program = Path(program)
    one = program.with_name(program.name + ".trace")
    if one.exists():
        return [one]
    found = []
    while (it := program.with_name(f"{program.name}.{len(found) + 1}.trace")).exists():
        found.append(it)
    return found


def judge(path, cilkcheck=CILKCHECK):
    """Judges a trace. A trace that does not come to its root's return, or has an illegal request, is a fault."""
    with open(path, "rb") as text:
        ran = subprocess.run([str(cilkcheck), "judge"], stdin=text, capture_output=True, text=True)
    replies = ran.stdout.splitlines()
    if ran.returncode not in (0, 1):
        wrong = [it for it in replies if " illegal " in it or " limit" in it]
        raise Fault(f"{path}: judge ends with {ran.returncode}: {ran.stderr.strip()} {wrong[:1]}")
    if not replies or not replies[-1].endswith(" finished"):
        raise Fault(f"{path}: the trace does not end with the return of its root: {replies[-1:]}")
    trace = Trace(Path(path), ran.returncode, len(replies))
    places, locations, requests = {}, {}, []
    with open(path, encoding="ascii") as text:
        for line in text:
            if line.startswith("#"):
                if found := AT.fullmatch(line.rstrip("\n")):
                    places[found[1]] = Place(found[2], int(found[3]), found[4], found[5] or "")
                elif found := OF.fullmatch(line.rstrip("\n")):
                    locations[found[1]] = found[2]
                elif line.startswith("#run "):
                    trace.notes.append(line[5:].rstrip("\n"))
            elif ran.returncode and (words := line.split()) and words[0] not in ("cilk", "mem", "reducer"):
                requests.append(words)
    if ran.returncode == 1:
        if len(requests) != len(replies):
            raise Fault(f"{path}: {len(requests)} requests and {len(replies)} replies")
        trace.refusals = list(refusals(requests, replies, places, locations))
        if not trace.refusals:
            raise Fault(f"{path}: judge ends with 1 and refuses nothing")
    return trace


def refusals(requests, replies, places, locations):
    """The refused accesses of a judged trace."""
    def place(entry):
        mark = requests[entry - 1][-1]
        return places.get(mark[1:], NOWHERE) if mark.startswith("@") else NOWHERE

    # Each strand's spawns: those inside of whose child it is, the last one first, as a linked list.
    inside = {0: None}
    for entry, (request, reply) in enumerate(zip(requests, replies), 1):
        words, strand = reply.split(), int(request[1])
        if words[1] == "split":
            child, after, join = map(int, words[2:5])
            inside[child] = (entry, inside[strand])
            inside[after] = inside[strand]
            inside.setdefault(join, inside[strand])
        elif words[1] == "refused":
            cell = request[2]
            if words[2] == "unset":
                yield Refusal("unset", cell, locations.get(cell, locations.get("c[*]", cell)), NOWHERE, place(entry), NOWHERE, entry)
                continue
            witness = int(words[3])
            first, second = chain(inside[int(requests[witness - 1][1])]), chain(inside[strand])
            common = 0
            while common < min(len(first), len(second)) and first[common] == second[common]:
                common += 1
            apart = [it[common] for it in (first, second) if len(it) > common]
            yield Refusal(words[2], cell, locations.get(cell, locations.get("c[*]", cell)), place(witness), place(entry), place(min(apart)) if apart else NOWHERE, entry)


def chain(inside):
    found = []
    while inside:
        found.append(inside[0])
        inside = inside[1]
    return found[::-1]


def judged(paths, cilkcheck=CILKCHECK):
    if not paths:
        raise Fault("there is no trace")
    return [judge(it, cilkcheck) for it in paths]


def races(traces):
    """The refusals by rule and places: each one's first, and how many there are."""
    found = {}
    for trace in traces:
        for it in trace.refusals:
            found.setdefault((it.rule, str(it.earlier), str(it.later)), []).append(it)
    return found


def main():
    parser = argparse.ArgumentParser(description=__doc__.splitlines()[0])
    parser.add_argument("--cilkcheck", default=CILKCHECK)
    parser.add_argument("--all", action="store_true", help="all pairs of lines, not the first 20")
    parser.add_argument("recording", nargs="+")
    given = parser.parse_args()
    paths = [path for it in given.recording for path in ([Path(it)] if it.endswith(".trace") else traces_of(it))]
    try:
        traces = judged(paths, given.cilkcheck)
    except Fault as fault:
        sys.exit(f"verdicts.py: {fault}")
    found = races(traces)
    for (rule, earlier, later), refused in list(found.items())[: None if given.all else 20]:
        one = refused[0]
        print(f"race: {rule} on {one.location}, {len(refused)} time{'s' if len(refused) > 1 else ''}")
        for name, it in ("first", one.earlier), ("then", one.later), ("they part at", one.spawn):
            if it != NOWHERE:
                print(f"  {name} {it}, in {it.function} | {it.code}")
    if len(found) > 20 and not given.all:
        print(f"(and {len(found) - 20} pairs of lines more: --all)")
    for note in dict.fromkeys(note for trace in traces for note in trace.notes):
        print(f"note: {note}")
    requests = sum(it.requests for it in traces)
    refused = sum(map(len, found.values()))
    print(f"{refused} refusal{'s' * (refused > 1)} at {len(found)} pair{'s' * (len(found) > 1)} of lines" if found else "no race", f"among {requests} requests in {len(traces)} trace{'s' * (len(traces) > 1)}")
    sys.exit(max((it.status for it in traces), key=ORDER.index))


if __name__ == "__main__":
    main()
