"""Traces for `judge`, with legal requests from a seed: of seven shapes, and of one that is hard for order lists."""
import random
from collections import deque
from pathlib import Path


class Strands:
    """The numbers that a gate gives: the root is strand 0."""

    def __init__(self):
        self.unused = 1

    def spawn(self, join):
        child, after = self.unused, self.unused + 1
        self.unused += 2
        if join is None:
            join = self.unused
            self.unused += 1
        return child, after, join


def chain(count, rng):
    """Each spawn is by the newest continuation, and its child returns."""
    strands, newest, join = Strands(), 0, None
    for done in range(count * 100 // 201):
        child, after, join = strands.spawn(join)
        yield f"spawn {newest}"
        yield f"return {child}"
        newest = after
        if done % 100 == 0:
            yield f"write {newest} x {done}"


def nested(count, rng):
    """Each spawn is by the newest child; then all return from the inside."""
    strands, newest, levels = Strands(), 0, []
    for _ in range(count // 3):
        yield f"spawn {newest}"
        newest, after, join = strands.spawn(None)
        levels.append((after, join))
    yield f"return {newest}"
    for after, join in reversed(levels):
        yield f"sync {after}"
        yield f"return {join}"


def wide(count, rng):
    """Blocks of four children that read one cell and write a cell each, and a sync."""
    strands, newest = Strands(), 0
    for _ in range(count // 18):
        join, children = None, []
        yield f"write {newest} x 7"
        for _ in range(4):
            yield f"spawn {newest}"
            child, newest, join = strands.spawn(join)
            children.append(child)
        for place, child in enumerate(children):
            yield f"read {child} x"
            yield f"write {child} a[{place}] {child}"
            yield f"return {child}"
        yield f"sync {newest}"
        newest = join


def flat(count, rng):
    """Accesses alone, by one strand."""
    for done in range(count):
        cell = rng.randrange(1000)
        yield f"write 0 a[{cell}] {done % 1000}" if rng.randrange(3) == 0 else f"read 0 a[{cell}]"


def hot(count, rng):
    """Many readers of one cell."""
    strands, newest, join = Strands(), 0, None
    for _ in range(count // 5):
        child, after, join = strands.spawn(join)
        yield f"spawn {newest}"
        yield f"read {child} x"
        yield f"read {after} x"
        yield f"read {child} x"
        yield f"return {child}"
        newest = after


def any_of(count, rng, cells, reducers, most, version):
    """Requests of all kinds in a legal order, by at most so many strands at one time."""
    strands = Strands()
    running = [0]
    kept = {0: []}  # of each running strand its open blocks and functions, innermost last
    left = {}  # of each join its children that have not returned, and whether a sync waits

    def replace(place, *others):
        running[place] = running[-1]
        running.pop()
        running.extend(others)

    done = 0
    while done < count:
        place = rng.randrange(len(running))
        strand = running[place]
        scope = kept[strand]
        kind, join = scope[-1] if scope else (None, None)
        turn = rng.randrange(100)
        if turn < 16:
            if len(running) >= most:
                continue
            child, after, join = strands.spawn(join if kind == "block" else None)
            if kind != "block":
                left[join] = [0, False]
                kept[join] = scope
                scope = [*scope, ("block", join)]
            left[join][0] += 1
            kept[child], kept[after] = [("child", join)], scope
            replace(place, child, after)
            yield f"spawn {strand}"
        elif turn < 22:
            if kind == "block" and left[join][0] == 0:
                replace(place, join)
            elif kind == "block":
                if len(running) == 1:
                    continue
                left[join][1] = True
                replace(place)
            yield f"sync {strand}"
        elif turn < 34:
            if kind == "call":
                kept[strand] = scope[:-1]
            elif kind == "child":
                left[join][0] -= 1
                replace(place, *([join] if left[join] == [0, True] else []))
            else:
                continue
            yield f"return {strand}"
        elif turn < 38:
            kept[strand] = [*scope, ("call", None)]
            yield f"call {strand}"
        elif turn < 46:
            yield f"write {strand} a[{rng.randrange(cells)}] {done % 1000}"
        elif turn < 56 and version == 2:
            yield f"bump {strand} a[{rng.randrange(cells)}] {done % 1000}"
        elif turn < 70:
            yield f"update {strand} {rng.choice(reducers)} {done % 1000}"
        elif turn < 72:
            yield f"put {strand} {rng.choice(reducers)} {done % 1000}"
        elif turn < 76:
            yield f"get {strand} {rng.choice(reducers)}"
        else:
            yield f"read {strand} a[{rng.randrange(cells)}]"
        done += 1


def anywhere(count, rng):
    """Requests of all kinds, of 1,000 cells and four reducers, by up to 1,000 strands at one time."""
    return any_of(count, rng, 1000, ["h", "i", "j", "k"], 1000, 1)


def mixed(count, rng):
    """The same in version 2, of 30 cells and three reducers, by up to 12 strands at one time: many accesses are refused."""
    return any_of(count, rng, 30, ["h", "d", "k"], 12, 2)


def leaves(count, rng):
    """A tree of spawns breadth first, and then, leaf by leaf from the end, 17 spawns down. The tree lies evenly in both orders, all in one
    group, and then there is no room behind each leaf in turn."""
    strands, running = Strands(), deque([(0, None)])
    for _ in range(count * 11 // 200):
        strand, join = running.popleft()
        child, after, join = strands.spawn(join)
        yield f"spawn {strand}"
        running += [(child, None), (after, join)]
    for strand, join in reversed(running):
        for _ in range(17):
            child, _, _ = strands.spawn(join)
            yield f"spawn {strand}"
            strand, join = child, None


SEVEN = {"chain": chain, "flat": flat, "hot": hot, "mixed": mixed, "nested": nested, "random": anywhere, "wide": wide}
SHAPES = {**SEVEN, "leaves": leaves}
DECLARED = {
    1: "cilk 1\nmem x\nmem a 1000\nreducer h sum\nreducer i min\nreducer j max\nreducer k last\n",
    2: "cilk 2\nmem a 30\nreducer h sum\nreducer d digits\nreducer k last\n",
}


def written(folder, names, size):
    """Writes a trace of each of these shapes, of about so many requests, into the folder, and gives their files."""
    files = {}
    for name in names:
        files[name] = Path(folder, f"{name}-{size}.trace")
        lines = SHAPES[name](size, random.Random(1))
        files[name].write_text(DECLARED[2 if name == "mixed" else 1] + "".join(f"{it}\n" for it in lines))
    return files
