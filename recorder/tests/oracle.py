"""Interprets a program of the generator as the language says, and tells by reachability which of its bytes have a race.

It knows nothing of the recorder or of traces: strands are the nodes of a graph, each with the set of those from which
it can be reached; two strands are parallel where neither reaches the other. A byte's accesses are kept with strand,
kind and line; two of them race where their strands are parallel and their kinds conflict. What a statement does is said
by its class (grammar/), in the words of this file: strand, spawn, sync, access. The values of pointers are kept as the
serial run has them.
"""
from contextlib import contextmanager
from dataclasses import dataclass, field

from grammar.control import Return
from grammar.places import LOAD, READ, UPDATE, WRITE, Pointer

CONFLICTS = {frozenset(it) for it in ((WRITE,), (WRITE, READ), (WRITE, LOAD), (WRITE, UPDATE), (UPDATE, READ))}
# Of uses of a container: those that race at some byte whatever the library does, and those that may.
SURE_CONFLICTS = {frozenset(it) for it in (("change",), ("change", "size"))}
POSSIBLE_CONFLICTS = {frozenset(("change", "look"))}
MOST_ACCESSES, MOST_STRANDS = 6000, 700


class TooLong(Exception):
    """The program makes more strands or accesses than a test is worth."""


class Thrown(Exception):
    """An exception of the program."""


@dataclass
class Found:
    """racy: by byte (of a global: name and offset; of a local or block: number of its life and offset) the pairs of
    lines, with the lines of the spawns at which they part. reducers: the names of those that are read by two strands
    with other peers. uses: the pairs of lines, with spawns, at which uses of containers may race, by the container;
    sure: the containers that do."""
    racy: dict = field(default_factory=dict)
    pairs_of_lives: dict = field(default_factory=dict)
    reducers: set = field(default_factory=set)
    uses: dict = field(default_factory=dict)
    sure: set = field(default_factory=set)

    def is_racy(self):
        return bool(self.racy or self.reducers or self.sure)


class Frame:
    """A function, spawned block, round or scope that is running: its strand, the strands in which its outstanding
    children ended, and what its destructors do."""

    def __init__(self, strand, names):
        self.strand, self.names, self.outstanding, self.ends = strand, names, [], []


class Oracle:
    Thrown, TooLong = Thrown, TooLong

    def __init__(self, program):
        self.program = program
        self.before = [0]          # of each strand: the set of strands that reach it, as bits
        self.inside = [()]         # of each strand: the spawns inside of whose child it is: number and line
        self.spawns = 0
        self.bytes = {}
        self.lives = 0
        self.statics = {}          # the lives of static locals
        self.values = {}           # of pointers, by where they are
        self.accesses = 0
        self.reads_of_reducers = []
        self.uses_of_containers = []

    # strands
    def strand(self, before, inside):
        if len(self.before) >= MOST_STRANDS:
            raise TooLong
        reached = 0
        for it in before:
            reached |= self.before[it] | 1 << it
        self.before.append(reached)
        self.inside.append(inside)
        return len(self.before) - 1

    def parallel(self, one, other):
        return one != other and not (self.before[one] >> other & 1 or self.before[other] >> one & 1)

    def spawn(self, frame, line, child):
        """The child runs in a frame of its own. An exception that leaves it comes to the spawner behind a sync."""
        self.spawns += 1
        spawner, inside = frame.strand, self.inside[frame.strand]
        inner = Frame(self.strand([spawner], (*inside, (self.spawns, line))), dict(frame.names))
        thrown = None
        try:
            child(inner)
        except Thrown as it:
            thrown = it
        self.sync(inner)
        frame.outstanding.append(inner.strand)
        frame.strand = self.strand([spawner], inside)
        if thrown:
            self.sync(frame)
            raise thrown

    def spawn_or_call(self, frame, line, child, is_spawned):
        if is_spawned:
            self.spawn(frame, line, child)
        else:
            child(frame)

    def sync(self, frame):
        if frame.outstanding:
            frame.strand = self.strand([*frame.outstanding, frame.strand], self.inside[frame.strand])
            frame.outstanding = []

    @contextmanager
    def inner(self, frame):
        """A part of a frame that syncs its own children at its end, in whatever way it ends."""
        inner = Frame(frame.strand, frame.names)
        try:
            yield inner
        finally:
            self.sync(inner)
            frame.strand = inner.strand

    # memory
    def life(self):
        self.lives += 1
        return (self.lives, 0)

    def access(self, frame, at, size, kind, line):
        self.accesses += size
        if self.accesses > MOST_ACCESSES:
            raise TooLong
        name, offset = at
        for k in range(size):
            self.bytes.setdefault((name, offset + k), {}).setdefault((frame.strand, kind), set()).add(line)

    def use(self, frame, name, kind, line):
        self.uses_of_containers.append((name, frame.strand, kind, line))

    # the program
    def run(self):
        program = self.program
        frame = Frame(0, {"n": 0})
        for name in program.reducers:
            self.reads_of_reducers.append((name, 0))
        for base in program.bases:
            if isinstance(base, Pointer):
                self.values[base.name, 0] = (base.targets[0].name, 0)
        if program.pointed:
            self.values[program.prefix + "next", 0] = program.pointed[0]
        self.call(program.functions[0], frame, program.start.at(self, frame, 0), program.first_n)
        for name in program.reducers:
            self.reads_of_reducers.append((name, frame.strand))
        return self.found()

    def call(self, function, frame, argument, n):
        """Runs a function: its body, its implied sync, the destructors of its locals. It is left by an exception where
        it throws at its end, or where one comes to it."""
        inner = Frame(frame.strand, {"p": argument, "n": n})
        for it in function.locals:
            it.begin_life(self, inner, n)
        thrown = None
        try:
            self.statements(function.body, inner)
            thrown = Thrown() if function.throws else None
        except Return:
            pass
        except Thrown as it:
            thrown = it
        self.sync(inner)
        for end in reversed(inner.ends):
            end()
        frame.strand = inner.strand
        if thrown:
            raise thrown

    def statements(self, statements, frame):
        for it in statements:
            it.run(self, frame)

    # what is found
    def part(self, one, other):
        """The line of the spawn at which two strands part."""
        first, second = self.inside[one], self.inside[other]
        common = 0
        while common < min(len(first), len(second)) and first[common] == second[common]:
            common += 1
        return min(it[common] for it in (first, second) if len(it) > common)[1]

    def pairs(self, items):
        """Of accesses of one byte, as (strand, kind) with lines: the pairs of lines that race, with the spawns at which
        they part."""
        pairs = {}
        for k, ((strand, kind), lines) in enumerate(items):
            for (other, other_kind), other_lines in items[k + 1:]:
                if frozenset((kind, other_kind)) in CONFLICTS and self.parallel(strand, other):
                    spawn = self.part(strand, other)
                    for line in lines:
                        for other_line in other_lines:
                            for pair in ((line, other_line), (other_line, line)):
                                pairs.setdefault(pair, set()).add(spawn)
        return pairs

    def found(self):
        found, known = Found(), {}
        for place, kinds in self.bytes.items():
            key = tuple(sorted((strand, kind, tuple(sorted(lines))) for (strand, kind), lines in kinds.items()))
            if key not in known:
                known[key] = self.pairs(list(kinds.items()))
            if known[key]:
                found.racy[place] = known[key]
                if not isinstance(place[0], str):
                    for pair, spawns in known[key].items():
                        found.pairs_of_lives.setdefault(pair, set()).update(spawns)
        peers = {}
        for name, strand in self.reads_of_reducers:
            of = frozenset(it for it in range(len(self.before)) if self.parallel(strand, it))
            if peers.setdefault(name, of) != of:
                found.reducers.add(name)
        self.find_uses(found)
        return found

    def find_uses(self, found):
        for k, (name, strand, kind, line) in enumerate(self.uses_of_containers):
            for other_name, other, other_kind, other_line in self.uses_of_containers[:k]:
                kinds = frozenset((kind, other_kind))
                if other_name != name or not self.parallel(strand, other):
                    continue
                if kinds not in SURE_CONFLICTS | POSSIBLE_CONFLICTS:
                    continue
                if kinds in SURE_CONFLICTS:
                    found.sure.add(name)
                for pair in ((line, other_line), (other_line, line)):
                    found.uses.setdefault(name, {}).setdefault(pair, set()).add(self.part(strand, other))
