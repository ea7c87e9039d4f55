#!/usr/bin/env python3
"""Random programs of OpenMP tasks, held against an oracle that knows nothing of the recorder.

    fuzz_openmp.py [--count N] [--seed S] [--keep FOLDER] [--jobs N] [--expect N]

A program is a parallel region of two threads: statements of both, barriers, and singles with tasks (if, final, untied,
firstprivate), taskwaits, taskgroups, taskloops, atomics, and functions that make tasks, whose local the tasks share.
The oracle draws the order that OpenMP's specification gives between all accesses: a task comes behind its creation; a
taskwait behind the children, a taskgroup and a barrier behind all descendants; what a function does with its local
comes before its end. The recording has to show a race at exactly the globals, and the addresses of locals, at which two
accesses that conflict have no order, or to be refused exactly where the program is no spawn and sync: a taskwait or the
end of an undeferred task that leaves descendants of its tasks outstanding, a taskwait in a taskgroup with earlier tasks
outstanding.
"""
import itertools
import random
import re
import sys
import tempfile
from collections import Counter
from pathlib import Path

sys.path.insert(0, str(Path(__file__).resolve().parent.parent))
import harness  # noqa: E402
import verdicts  # noqa: E402

EACH, CELLS, FUNCTIONS, MOST_NODES = 20, 12, 3, 400


class Program:
    """Statements are tuples: (kind, ..). A cell is a number, or "l" for the function's local. A taskloop's own clause
    is one of `loops`."""

    def __init__(self, seed, draw, loops):
        self.seed, self.random, self.loops = seed, random.Random(f"{seed}.{draw}"), loops
        self.left = 0
        self.functions = [self.part(12, lambda k=k: self.body(1, (), True, k + 1)) for k in range(FUNCTIONS)]
        self.phases = [self.part(40, self.phase) for _ in range(self.random.randint(1, 3))]

    def part(self, most, make):
        self.left = self.random.randint(5, most)
        return make()

    def access(self, cells, local):
        cell = "l" if local and self.random.random() < 0.4 else self.random.choice(cells)
        return "access", cell, self.random.choices("rwa", (6, 3, 1))[0]

    def statement(self, depth, cells, local, callee):
        draw = self.random.random()
        self.left -= 1
        if draw < 0.25 or self.left < 0 or depth > 4:
            return self.access(cells, local)
        if draw < 0.6:
            clauses = "", "if (0)", "final(1)", "untied", "firstprivate(v)"
            clause = self.random.choices(clauses, (6, 2, 2, 1, 1))[0]
            return "task", clause, self.body(depth + 1, cells, local, callee)
        if draw < 0.76:
            return ("wait",)
        if draw < 0.85:
            return "group", self.body(depth + 1, cells, local, callee)
        if draw < 0.91:
            return "loop", self.random.choice(self.loops), *self.access(cells, local)[1:]
        return ("call", self.random.randrange(callee, FUNCTIONS)) if callee < FUNCTIONS else self.access(cells, local)

    def body(self, depth, cells, local, callee):
        """A body's cells are one of those around it and one more, so that it meets what is near to it, and not
        everything everywhere."""
        cells = [self.random.choice(cells)] if cells else []
        cells.append(self.random.randrange(CELLS))
        return [self.statement(depth, cells, local, callee) for _ in range(self.random.randint(2, 6))]

    def phase(self):
        both = [self.access([self.random.randrange(CELLS)], False) for _ in range(self.random.choice((0, 0, 0, 1)))]
        return both, self.random.random() < 0.3, self.body(0, (), False, 0), self.random.random() < 0.5

    # ---- as C

    def write(self, out):
        name = f"p{self.seed}"
        out.append(f"static int {', '.join(f'{name}_c{k}' for k in range(CELLS))};")
        out += [f"static void {name}_f{k}(void);" for k in range(FUNCTIONS)]
        for k, body in enumerate(self.functions):
            out.append(f"static void {name}_f{k}(void) {{\n  int l = 0, v = 0;")
            out.append(f'  fprintf(stderr, "local {k} %p\\n", (void *)&l);')
            self.write_body(out, body)
            out.append("}")
        out.append(f"static void {name}(void) {{")
        out += [f'  fprintf(stderr, "global {k} %p\\n", (void *)&{name}_c{k});' for k in range(CELLS)]
        out.append("#pragma omp parallel num_threads(2)\n{\n  int v = 0;")
        for both, nowait, body, barrier in self.phases:
            self.write_body(out, both)
            out.append(f"#pragma omp single{' nowait' * nowait}\n{{")
            self.write_body(out, body)
            out.append("}" + "\n#pragma omp barrier" * barrier)
        out.append("  sink(v);\n}\n}")

    def write_body(self, out, body):
        for it in body:
            if it[0] == "access":
                self.write_access(out, *it[1:])
            elif it[0] == "task":
                private = "" if "private" in it[1] else " private(v)"
                out.append(f"#pragma omp task {it[1]} default(shared){private}\n{{\n  v = 0;")
                self.write_body(out, it[2])
                out.append("  sink(v);\n}")
            elif it[0] == "wait":
                out.append("#pragma omp taskwait")
            elif it[0] == "group":
                out.append("#pragma omp taskgroup\n{")
                self.write_body(out, it[1])
                out.append("}")
            elif it[0] == "loop":
                out.append(f"#pragma omp taskloop {it[1]} default(shared) private(v)")
                out.append("for (int i = 0; i < 4; i++) {\n  v = i;")
                self.write_access(out, *it[2:])
                out.append("  sink(v);\n}")
            else:
                out.append(f"p{self.seed}_f{it[1]}();")
        out.append("  sink(v);")

    def write_access(self, out, cell, kind):
        name = cell if cell == "l" else f"p{self.seed}_c{cell}"
        out.append({"r": f"  v += {name};", "w": f"  {name} = 1;", "a": f"#pragma omp atomic\n  {name} += 1;"}[kind])


class Refused(Exception):
    pass


class TooLong(Exception):
    pass


class Instance:
    """A task that runs: the last node of its own, its children, the tasks of its taskgroup."""

    def __init__(self, at, final=False, group=None):
        self.at, self.final, self.group, self.children, self.starts = at, final, group, [], []

    def descendants(self):
        for child in self.children:
            yield child
            yield from child.descendants()


class Oracle:
    """Nodes of the order, each with the set of all before it (as the bits of a number)."""

    def __init__(self, program):
        self.program, self.before, self.accesses, self.locals, self.tasks = program, [0], {}, [], []
        threads = [Instance(0), Instance(0)]
        for both, nowait, body, barrier in program.phases:
            for thread in threads:
                self.run(thread, both, None)
            self.run(threads[0], body, None)
            if not nowait:
                self.barrier(threads)
            if barrier:
                self.barrier(threads)
        self.racy = {cell for cell, all_of in self.accesses.items()
                     if any(self.race(*pair) for pair in itertools.combinations(all_of, 2))}

    def race(self, one, other):
        ordered = self.is_before(one[0], other[0]) or self.is_before(other[0], one[0])
        return self.conflict(one[1], other[1]) and not ordered

    @staticmethod
    def conflict(one, other):
        return one + other not in ("rr", "aa")

    def is_before(self, one, other):
        return one == other or bool(self.before[other] >> one & 1)

    def node(self, *behind):
        if len(self.before) == MOST_NODES:
            raise TooLong
        self.before.append(0)
        for it in behind:
            self.before[-1] |= self.before[it] | 1 << it
        return len(self.before) - 1

    def barrier(self, threads):
        at = self.node(*(it.at for it in threads), *(it.at for it in self.tasks))
        for thread in threads:
            thread.at = at

    def access(self, task, cell, kind):
        task.at = self.node(task.at)
        self.accesses.setdefault(cell, []).append((task.at, kind))

    def make(self, task, clause, run):
        child = Instance(task.at, task.final or "final" in clause, task.group)
        child.at = self.node(task.at)
        run(child)
        task.children.append(child)
        self.tasks.append(child)
        if task.group is not None:
            task.group.append(child)
        if task.final or "if" in clause:
            if not task.final:
                self.expect_whole(child)
            task.at = self.node(task.at, child.at)

    def expect_whole(self, task):
        if not all(self.is_before(it.at, task.at) for it in task.descendants()):
            raise Refused

    def wait(self, task):
        for child in task.children:
            if not self.is_before(child.at, task.at):
                self.expect_whole(child)
        for start in task.starts:
            if not all(self.is_before(it.at, task.at) for it in task.children[:start]):
                raise Refused
        task.at = self.node(task.at, *(it.at for it in task.children))

    def group(self, task, run):
        outer, task.group = task.group, []
        task.starts.append(len(task.children))
        run()
        task.at = self.node(task.at, *(it.at for it in task.group))
        task.starts.pop()
        task.group = outer

    def loop(self, task, clause, cell, kind):
        def rounds(count):
            return lambda child: [self.access(child, cell, kind) for _ in range(count)]

        def make_all():
            for _ in range(4 if clause in ("", "nogroup") else 2):
                self.make(task, "", rounds(1 if clause in ("", "nogroup") else 2))
        make_all() if clause == "nogroup" else self.group(task, make_all)

    def run(self, task, body, local):
        for it in body:
            if it[0] == "access":
                self.access(task, local if it[1] == "l" else it[1], it[2])
            elif it[0] == "task":
                self.make(task, it[1], lambda child, it=it: self.run(child, it[2], local))
            elif it[0] == "wait":
                self.wait(task)
            elif it[0] == "group":
                self.group(task, lambda it=it: self.run(task, it[1], local))
            elif it[0] == "loop":
                self.loop(task, it[1], local if it[2] == "l" else it[2], it[3])
            else:
                own = f"local {len(self.locals)}"
                self.locals.append(own)
                self.run(task, self.program.functions[it[1]], own)
                self.access(task, own, "w")


def drawn(seed):
    """The program of a seed: the first of its draws that is not too long, nor refused but where five divides the
    seed."""
    loops = "", "grainsize(2)", "num_tasks(2)", "nogroup"
    for draw in itertools.count():
        program = Program(seed, draw, loops)
        try:
            Oracle(program)
        except Refused:
            if seed % 5:
                continue
        except TooLong:
            continue
        return program


HEADER = "#include <stdio.h>\n#include <stdlib.h>\nvoid sink(int value);"


def compiled_group(given, room, seeds, compiler, level):
    """Some programs, the folder of their source, and how that was compiled."""
    folder = Path(given.keep or room) / f"{compiler}{level}-{seeds[0]}"
    folder.mkdir(parents=True, exist_ok=True)
    programs, lines = [drawn(it) for it in seeds], [HEADER]
    for it in programs:
        it.write(lines)
    lines += ["int main(int count, char **words) {", "  switch (atoi(words[count - 1])) {",
              *(f"  case {it}: p{it}(); break;" for it in seeds), "  }\n  return 0;\n}"]
    (folder / "p.c").write_text("\n".join(lines) + "\n")
    (folder / "sink.c").write_text("static int sum;\nvoid sink(int value) { sum += value; }\n")
    harness.run([compiler, "-c", "sink.c", "-o", "sink.o"], folder)
    compiled = harness.compile(given.wrappers, ["p.c", "sink.o"], "p", compiler, level, ["-fopenmp"], folder)
    return programs, folder, compiled


def group_of(given, room, seeds, compiler, level):
    """The failures of some programs in one source, and how many were what."""
    programs, folder, compiled = compiled_group(given, room, seeds, compiler, level)
    counts = Counter()
    if compiled.status:
        return [f"{folder.name}: not compiled: {compiled.errors[-500:]}"], counts
    failures = []
    for program in programs:
        counts["programs"] += 1
        try:
            said = compare(program, folder, given, counts)
        except verdicts.Fault as fault:
            said = str(fault)
        failures += [f"{folder.name} seed {program.seed}: {said}"] if said else []
    return failures, counts


def compare(program, folder, given, counts):
    members = folder / "members"
    members.unlink(missing_ok=True)
    env = {"CILKCHECK_MEMBERS": str(members), **({"CILKCHECK_RAW": "1"} if program.seed % 3 == 0 else {})}
    ran, traces = harness.record("p", [str(program.seed)], folder, env)
    try:
        oracle = Oracle(program)
    except Refused:
        counts["refused"] += 1
        return "" if ran.status == 70 else f"status {ran.status}, and not refused"
    if ran.status:
        return f"status {ran.status}: {ran.errors[-300:]}"
    counts["racy"] += bool(oracle.racy)
    globals_at = {int(it[2], 16): int(it[1]) for it in re.finditer(r"^global (\d+) (\S+)$", ran.errors, re.M)}
    locals_at = [int(it[2], 16) for it in re.finditer(r"^local (\d+) (\S+)$", ran.errors, re.M)]
    judged = verdicts.judged(traces, given.cilkcheck)
    refused = {(number, it.cell) for number, trace in enumerate(judged, 1) for it in trace.refusals}
    found = set()
    for line in members.read_text().splitlines():
        number, cell, address, _ = line.split()
        if (int(number), f"c[{cell}]") in refused:
            found.add(int(address, 16) & ~3)
    known = {it for it in globals_at if globals_at[it] in oracle.racy}
    known |= {at for at, name in zip(locals_at, oracle.locals) if name in oracle.racy}
    if len(locals_at) != len(oracle.locals):
        return f"{len(locals_at)} locals, by the oracle {len(oracle.locals)}"
    if found != known:
        def names(of):
            names = [f"c{globals_at[it]}" if it in globals_at else f"local {it:#x}" for it in sorted(of)]
            return ", ".join(names) or "none"
        return f"races lost: {names(known - found)}; races that are none: {names(found - known)}"
    return ""


def main():
    parser = harness.parser(__doc__)
    parser.add_argument("--count", type=int, default=240)
    parser.add_argument("--seed", type=int, default=1)
    parser.add_argument("--keep", help="a folder in which sources and programs stay")
    given = parser.parse_args()
    combinations = list(itertools.product(given.compilers, harness.LEVELS))
    counts, failures = Counter(), []
    with tempfile.TemporaryDirectory(prefix="cilkcheck-openmp-") as room:
        end = given.seed + given.count
        jobs = [(given, room, list(range(first, min(first + EACH, end))), *combinations[k % len(combinations)])
                for k, first in enumerate(range(given.seed, end, EACH))]
        for failed, counted in harness.in_parallel(lambda job: group_of(*job), jobs, given.jobs):
            failures += failed
            counts += counted
    for failure in failures:
        print(failure)
    print(", ".join(f"{counts[it]} {it}" for it in ("programs", "racy", "refused")))
    harness.finish("OpenMP", counts["programs"], failures, given.expect)


if __name__ == "__main__":
    main()
