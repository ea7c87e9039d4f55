"""A slow model of the dag of a trace, by the rules of docs/FORMATS.md, and random traces that are legal by it.

`.ci/program` and `.ci/svg` compare drawings with it, `.ci/oracle` verdicts.
"""
import random


class Function:
    """A call of a function: who called it, or the call that spawned it, and the block that it has open."""

    def __init__(self, caller=None, spawner=None):
        self.caller, self.spawner = caller, spawner
        self.join, self.children, self.ends, self.waits = None, 0, [], False


class Dag:
    """Which strands the requests of a legal trace begin and which edges lead to them. A request of control has its verdict line, without
    the number, as its answer."""

    def __init__(self):
        self.running, self.count, self.begun, self.edges = {0: Function()}, 1, {0}, []

    def begin(self, strand, function):
        self.begun.add(strand)
        self.running[strand] = function

    def may_return(self, strand):
        return self.running[strand].join is None

    def spawn(self, strand):
        function = self.running.pop(strand)
        child, rest = self.count, self.count + 1
        self.count += 2
        if function.join is None:
            function.join, self.count = self.count, self.count + 1
        function.children += 1
        self.begin(child, Function(spawner=function))
        self.begin(rest, function)
        self.edges += [(strand, child, "child"), (strand, rest, "next")]
        return f"split {child} {rest} {function.join}"

    def call(self, strand):
        self.running[strand] = Function(caller=self.running[strand])
        return "same"

    def sync(self, strand):
        function = self.running[strand]
        if function.join is None:
            return "same"
        self.end(strand, function)
        function.waits = True
        join = self.meet(function)
        return "waits" if join is None else f"joined {join}"

    def end(self, strand, function):
        del self.running[strand]
        function.ends.append(strand)

    def meet(self, function):
        """Begins the join of a function that has synced where all children have returned, and answers which it is."""
        if not function.waits or function.children:
            return None
        join = function.join
        self.edges += [(end, join, "join") for end in function.ends]
        self.begin(join, function)
        function.join, function.ends, function.waits = None, [], False
        return join

    def do_return(self, strand):
        function = self.running[strand]
        if function.caller:
            self.running[strand] = function.caller
            return "resumed"
        if not function.spawner:
            del self.running[strand]
            return "finished"
        self.end(strand, function.spawner)
        function.spawner.children -= 1
        join = self.meet(function.spawner)
        return "ended" if join is None else f"ended-joined {join}"

    def follow(self, word, strand):
        return {"spawn": self.spawn, "call": self.call, "sync": self.sync, "return": self.do_return}.get(word, lambda _: None)(strand)


def random_trace(seed):
    """A legal trace of up to 60 requests."""
    draws, dag, lines = random.Random(seed), Dag(), ["cilk 2", "mem x", "reducer h sum", "mem a 3", "reducer g last"]
    for _ in range(draws.randrange(1, 61)):
        if not dag.running:
            break
        strand = draws.choice(sorted(dag.running))
        word = draws.choice(["spawn"] * 4 + ["call", "sync", "sync", "sync", "return", "return", "read", "read", "write", "bump", "update", "put", "get", "get"])
        if word == "return" and not dag.may_return(strand):
            word = "sync"
        cell = draws.choice(["x", "a[0]", "a[1]", "a[2]"])
        behind = {"read": f" {cell}", "get": f" {draws.choice('gh')}"}.get(word, "")
        if word in ("write", "bump"):
            behind = f" {cell} {draws.randrange(9)}"
        if word in ("update", "put"):
            behind = f" {draws.choice('gh')} {draws.randrange(9)}"
        lines.append(f"{word} {strand}{behind}")
        dag.follow(word, strand)
    return "\n".join(lines) + "\n"
