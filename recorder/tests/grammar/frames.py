"""A function that calls and spawns itself, so that there are many frames that are alike but for where they lie. At one
depth a statement does something else on the same line: it syncs or not, reads or writes, spawns or calls. So a race may
be in few of the frames."""
from .accesses import Load, Modify, Read, Update, Write
from .control import Choose, OneLine
from .places import INT, LONG, Base, Element
from .strands import Call, Reduce, Spawn, SpawnedBlock, Sync


class Frames:
    def __init__(self, program, random, function):
        self.program, self.random, self.function = program, random, function
        self.own = [Base(program.draw.name("x"), INT, 2), Base(program.draw.name("x"), LONG, 1)]
        function.own(self.own)
        self.calls = 0

    def add(self):
        function, program = self.function, self.program
        function.body = [self.access(self.random.choice(["read", "write", "modify"]), Element(function.parameter, 0))]
        for _ in range(self.random.randint(2, 4)):
            function.body += self.statements()
        program.functions.append(function)
        n = {0: 3, 1: 6, 2: 4}.get(self.calls, 3)
        body, argument = program.functions[0].body, Element(next(it for it in program.bases if it.type is INT), 0)
        body.insert(self.random.choice([0, len(body)]), Call(function, argument, n))

    def place(self):
        base = self.random.choice([self.own[0], self.own[0], self.own[1], self.function.parameter])
        return Element(base, self.random.randint(0, base.count - 1))

    def access(self, kind, place):
        value = self.random.randint(1, 9)
        return {
            "read": lambda: Read.of(place), "write": lambda: Write.of(place, value),
            "modify": lambda: Modify.of(place, value), "load": lambda: Load.of(place),
            "update": lambda: Update.of(place, "add")}[kind]()

    def again(self, is_spawned, argument, result):
        return (Spawn.of if is_spawned else Call)(self.function, argument, None, result)

    def guarded(self, it):
        return Choose("n > 0", [it])

    def statements(self):
        draw, kinds = self.random.random, ["again", "sync", "access", "block", "idle"] + ["either"] * 4
        kind = self.random.choice(kinds + ["reduce"] * bool(self.program.reducers))
        if kind == "either":
            # what comes before and behind it is mostly there, so that what differs is a race or none
            before, one, behind = self.either()
            parts = [(before, 0.8), ([one], 1), (behind, 0.8), ([Sync()], 0.7)]
            return [it for part, chance in parts if draw() < chance for it in part]
        if kind == "again":
            self.calls += 1
            result = Element(self.own[0], self.random.randint(0, 1)) if draw() < 0.6 else None
            return [self.guarded(self.again(draw() < 0.7, Element(self.own[0], self.random.randint(0, 1)), result))]
        if kind == "sync":
            return [Sync()]
        if kind == "idle":
            return [SpawnedBlock([])]
        if kind == "reduce":
            operation = self.random.choice(["get", "put", "update"])
            return [Reduce(self.random.choice(self.program.reducers), operation, self.program.cxx)]
        one = self.access(self.random.choice(["read", "write", "modify", "load", "update"]), self.place())
        return [SpawnedBlock([one]) if kind == "block" else one]

    def either(self):
        """What stands before, the statement with two ways, what stands behind."""
        place, k = self.place(), self.random.randint(1, 3)
        change = self.random.choice(["write", "modify", "update"])
        draw = self.random.choice(["sync", "kind", "kind of a child", "child", "call", "call", "place"])
        before, behind = [], []

        def read():
            return self.access("read", place)

        def write():
            return self.access(change, place)
        if draw == "sync":
            before, pair, behind = [SpawnedBlock([write()])], [[Sync()], []], [read()]
        elif draw == "kind":
            before, pair = [SpawnedBlock([read()])], [[read()], [write()]]
        elif draw == "kind of a child":
            pair, behind = [[SpawnedBlock([read()])], [SpawnedBlock([write()])]], [read()]
        elif draw == "child":
            pair, behind = [[SpawnedBlock([write()])], [write()]], [read()]
        elif draw == "call":
            self.calls += 1
            argument = Element(self.own[0], 0)
            pair = [[self.again(it, argument, None)] for it in (True, False)]
            behind = [self.access(self.random.choice(["read", "write"]), argument)]
        else:
            places = [Element(self.own[0], it) for it in (0, 1)]
            before = [SpawnedBlock([self.access("write", places[0])])]
            pair = [[self.access("read", it)] for it in places]
        self.random.shuffle(pair)
        it = OneLine(f"n == {k}", lambda n: n == k, *pair)
        return before, self.guarded(it) if draw == "call" else it, behind
