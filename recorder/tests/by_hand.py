#!/usr/bin/env python3
"""The oracle by small programs whose races were found by hand.

    by_hand.py [--expect N]

Each program is one function's statements over globals `i` (four ints), `b` (three struct bits), `k` (three struct
packed), `u` (three unions) and `s` (four shorts). What races is said as the bytes of globals, by `name+offset`.
"""
from types import SimpleNamespace

import harness
from generator import Function
from grammar.accesses import Both, Copy, Load, Modify, PointTo, Read, Update, Write
from grammar.control import Break, Choose, Leave, Loop, Skip, Switch
from grammar.cxx import Container, Guard, NamedLambda, Template, Try, Virtual
from grammar.drawing import Lines
from grammar.libc import Heap, Parts, Sort, Text
from grammar.places import BITS, INT, PACKED, SHORT, UNION, Base, Block, Cast, Element, Pointer
from grammar.strands import BySharedPointer, Call, CilkFor, Scope, Spawn, SpawnedBlock, Sync
from oracle import Oracle

i, b, k, u, s = (Base(name, type_, count) for name, type_, count in (
    ("i", INT, 4), ("b", BITS, 3), ("k", PACKED, 3), ("u", UNION, 3), ("s", SHORT, 4)))
q, h = Pointer("q", INT, 1, [i]), Block("h", INT, 1)


def at(base, index, field=None):
    return Element(base, index, field)


def write(base, index, field=None):
    return Write.of(at(base, index, field), 1)


def read(base, index, field=None):
    return Read.of(at(base, index, field))


def child(*body):
    return SpawnedBlock(list(body))


def function(name, number, *body, throws=False):
    made = Function(name, number, INT, 1, False)
    made.body, made.throws = list(body), throws
    return made


SETS = function("sets", 1, Write.of(Element(Base("p", INT, 1), 0), 1))
THROWS = function("throws", 2, Write.of(Element(Base("p", INT, 1), 0), 1), throws=True)


def cilk_for(values, *body):
    return CilkFor(list(body), None, "j", "", values)


def range_of(name, first, size):
    return {f"{name}+{it}" for it in range(first, first + size)}


INTS = [range_of("i", 4 * it, 4) for it in range(4)]
PROGRAMS = {
    "a child beside its spawner": ([child(write(i, 0)), write(i, 0)], INTS[0]),
    "a sync between": ([child(write(i, 0)), Sync(), write(i, 0)], set()),
    "two reads": ([child(read(i, 0)), read(i, 0)], set()),
    "an element of its own": ([child(write(i, 0)), write(i, 1)], set()),
    "bit-fields of one unit": ([child(write(b, 1, "a")), write(b, 1, "b")], {"b+12"}),
    "a bit-field of two bytes that is read": ([child(read(b, 0, "c")), write(b, 0, "d")], {"b+2", "b+3"}),
    "bit-fields of other units": (
        [child(write(b, 0, "a")), write(b, 0, "c"), write(b, 0, "g"), write(b, 0, "e")], set()),
    "fields of a packed structure": ([child(write(k, 1, "i")), write(k, 1, "s"), read(k, 1, "l")], set()),
    "a packed field and a whole structure": ([child(write(k, 1, "s")), Copy(at(k, 0), at(k, 1))], range_of("k", 20, 2)),
    "members of a union": ([child(write(u, 0, "i[1]")), write(u, 0, "s[1]"), write(u, 0, "c[5]")], {"u+5"}),
    "a cast across elements": ([child(Write.of(Cast(i, 3, SHORT), 1)), write(i, 0)], {"i+3"}),
    "parts of two arrays": (
        [child(Parts(i, s, 5, 2, 3, "memcpy")), write(i, 1), write(s, 1)], range_of("i", 4, 3) | {"s+3"}),
    "atomics": ([child(Update.of(at(i, 0), "add")), Load.of(at(i, 0)), Update.of(at(i, 0), "add")], set()),
    "an atomic update beside a read": ([child(Update.of(at(i, 0), "add")), read(i, 0)], INTS[0]),
    "an atomic load beside a write": ([child(Load.of(at(i, 0))), write(i, 0)], INTS[0]),
    "&& that reads": ([child(write(i, 0)), Both(at(i, 0), "&&", "n == 2", lambda n: n == 2)], INTS[0]),
    "|| that does not": ([child(write(i, 0)), Both(at(i, 0), "||", "n == 2", lambda n: n == 2)], set()),
    "a pointer that is set beside a child that follows it": (
        [child(Read.of(at(q, 0))), PointTo(q, at(i, 2)), Write.of(at(q, 0), 1)], range_of("q", 0, 8)),
    "a pointer leads elsewhere": ([PointTo(q, at(i, 2)), child(Write.of(at(q, 0), 1)), write(i, 2)], INTS[2]),
    "a spawned function and its result": (
        [Spawn.of(SETS, at(i, 0), 0, at(i, 1)), read(i, 0), read(i, 1)], INTS[0] | INTS[1]),
    "a pointer is read by the spawner": (
        [BySharedPointer("next", None, at(i, 0), 0, True), BySharedPointer("next", SETS, None, 0, False)], set()),
    "a loop that breaks": (
        [child(write(i, 0), write(i, 1), write(i, 2)), Loop("for", "j", 3, [Break("j", 2, True), Read.of(at(i, "j"))])],
        INTS[0] | INTS[1]),
    "a loop that continues": (
        [child(write(i, 0), write(i, 1)), Loop("while", "j", 2, [Break("j", 0, False), Read.of(at(i, "j"))])], INTS[1]),
    "a switch that goes on": (
        [child(write(i, 0), write(i, 1), write(i, 2)),
         Switch([(0, [read(i, 0)], False), (2, [read(i, 1)], False), (None, [read(i, 2)], True)])], INTS[1] | INTS[2]),
    "a goto": ([child(write(i, 0)), Skip("out", "n == 2", [read(i, 0)])], set()),
    "a return syncs": (
        [Call(function("f", 1, child(write(i, 0)), Choose("n > 0", [Leave(None)]), write(i, 0)), at(i, 1), 1),
         read(i, 0)], set()),
    "a function does not sync for its caller": (
        [child(write(i, 0)), Call(function("f", 1, Sync()), at(i, 1), 1), read(i, 0)], INTS[0]),
    "a scope syncs its own": ([child(write(i, 0)), Scope([child(write(i, 1))]), read(i, 0), read(i, 1)], INTS[0]),
    "rounds downward by two": ([cilk_for(range(3, 0, -2), Write.of(at(i, "j"), 1)), read(i, 1)], set()),
    "rounds that meet": ([cilk_for(range(2), write(i, 3))], INTS[3]),
    "memory that is freed": (
        [Heap(h, [child(Read.of(at(h, 0)))], 0, [], True, True)], range_of("life", 0, 4)),
    "memory that is moved, and the pointer to it": (
        [Heap(h, [child(Read.of(at(h, 0)))], 2, [], True, True)], range_of("life", 0, 8)),
    "the length of a text": (
        [child(Text("text", "length", 1)), Text("text", "letter", 0), Text("text", "letter", 3)], {"text+3"}),
    "qsort": ([child(Sort(at(i, 1), 2)), read(i, 0), read(i, 2)], INTS[2]),
    "a child's exception comes behind a sync": (
        [Try([child(write(i, 0)), Spawn.of(THROWS, at(i, 1), 0), write(i, 0)], [read(i, 0), read(i, 1)])], set()),
    "a try block that spawns syncs at its end": ([Try([child(write(i, 0))], []), write(i, 0)], set()),
    "one that does not spawn does not": ([child(write(i, 0)), Try([write(i, 1)], []), write(i, 0)], INTS[0]),
    "a call's exception does not": (
        [Try([child(write(i, 0)), Call(THROWS, at(i, 1), 0)], [read(i, 0), read(i, 1)])], INTS[0]),
    "an exception that leaves a function syncs": (
        [Try([Call(function("f", 1, child(write(i, 0)), Call(THROWS, at(i, 1), 0)), at(i, 2), 0)], [write(i, 0)])],
        set()),
    "a destructor at the end of a block": ([Guard("g", at(i, 0), [child(read(i, 0))])], INTS[0]),
    "a destructor at the end of a function": ([Guard("g", at(i, 0), None), child(read(i, 0))], set()),
    "a lambda syncs at its end": (
        [NamedLambda("f", "j", [child(Write.of(at(i, "j"), 1))], [(0, True), (1, False), (1, False), (0, False)])],
        INTS[0]),
    "virtual functions": ([Virtual("", 0, True), Virtual("", 1, False), Virtual("", 0, False)], range_of("v0", 8, 4)),
    "a template": ([Template(at(s, 1), None, True), Modify.of(at(s, 1), 1)], {"s+2", "s+3"}),
    "containers": ([child(Container("", "text +=", 0)), Container("", "text size", 0)], {"uses: text"}),
    "a key that is there": (
        [Container("", "map insert", 1), child(Container("", "map insert", 1)), Container("", "map size", 0)], set()),
}


def found(body, is_racy_life):
    program = SimpleNamespace(
        functions=[function("main", 0, *body)], reducers=[], bases=[i, b, k, u, s, q], pointed=[SETS], prefix="",
        start=at(i, 0), first_n=2)
    out = Lines([])
    out.all(body)
    of = Oracle(program).run()
    lives = {f"life+{offset}" for life, offset in of.racy if not isinstance(life, str)} if is_racy_life else set()
    globals_ = {f"{name}+{offset}" for name, offset in of.racy if isinstance(name, str)}
    return globals_ | lives | {f"uses: {it}" for it in of.sure}


def main():
    given = harness.parser(__doc__).parse_args()
    failures = []
    for name, (body, wanted) in PROGRAMS.items():
        got = found(body, any(it.startswith("life") for it in wanted))
        if got != wanted:
            failures += harness.shown([f"by hand: {name}: {sorted(got)}, by hand {sorted(wanted)}"])
    harness.finish("by hand", len(PROGRAMS), failures, given.expect)


if __name__ == "__main__":
    main()
