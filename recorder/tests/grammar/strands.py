"""Statements that make strands: calls, spawns, syncs, spawned blocks, loops of children, scopes, reducers."""
from .drawing import Range, Statement
from .control import Choose
from .places import INT, LONG, READ, SCALARS, WRITE, Base, Constant, Literal


class Call(Statement):
    """A function of the program's is called or spawned. `n`: the argument, or None for n - 1. `form`: how a spawn is
    written."""
    weight = 6

    def __init__(self, callee, place, n, other=None, is_spawned=False, form="cilk_spawn {};", declares=None, how=""):
        self.callee, self.place, self.n, self.other = callee, place, n, other
        self.is_spawned, self.form, self.declares, self.how = is_spawned, form, declares, how
        self.catches = self.is_guarded = False
        if declares:
            self.declared = [declares]

    @classmethod
    def draw(cls, program, here):
        callee = program.callee(here, True)
        place = callee and program.argument(callee, here)
        if not place:
            return None
        catches = callee.throws and not (here.throws and program.draw.chance(0.6))
        other = program.draw.direct(here) if program.draw.chance(0.4) and not callee.throws else None
        it = cls(callee, place, program.random.randint(0, 2), other)
        it.catches = catches
        it.is_guarded = not callee.throws and not other and program.draw.chance(0.15)
        return it

    def text(self):
        function, n = self.callee, "n - 1" if self.n is None else self.n
        return f"{function.name}({'' if function.parameter.is_single else '&'}{self.place.text}, {n})"

    def write(self, out):
        text = self.text()
        if self.is_spawned:
            self.line = out.line(self.spawned(text))
        elif self.catches:
            self.line = out.line(f"try {{ {text}; }} catch (int) {{ }}")
        elif self.is_guarded:
            self.line = out.line(f"if (n > 0 && {text}) sink(1);")
        else:
            self.line = out.line(f"{self.other.text} = {text};" if self.other else f"{text};")

    def spawned(self, text):
        if self.declares:
            return f"{self.how} {self.declares.name} = cilk_spawn {text};"
        if self.other:
            to = self.other.text
            return f"SPAWN_TO({to}, {text});" if self.form == "SPAWN({});" else f"{to} = cilk_spawn {text};"
        return self.form.format(text)

    def run(self, oracle, frame):
        if self.is_guarded and frame.names["n"] <= 0:
            return
        argument, n = self.place.at(oracle, frame, self.line), frame.names["n"] - 1 if self.n is None else self.n
        result = None
        if self.declares:
            result, size = oracle.life(), self.declares.type.size
            frame.names[self.declares.name] = result

        def child(inner):
            oracle.call(self.callee, inner, argument, n)
            if self.other:
                self.other.access(oracle, inner, [WRITE], self.line)
            elif result:
                oracle.access(inner, result, size, WRITE, self.line)
        try:
            oracle.spawn_or_call(frame, self.line, child, self.is_spawned)
        except oracle.Thrown:
            if not self.catches:
                raise


class Spawn(Call):
    weight = 11
    FORMS = ["cilk_spawn {};"] * 5 + ["SPAWN({});"] * 2 + [
        "if (n >= 0) cilk_spawn {};", "SPAWN_IF(n >= 0, {});", "do cilk_spawn {}; while (0);"]

    @classmethod
    def draw(cls, program, here):
        callee = program.callee(here, here.throws)
        if not callee:
            return None
        place = program.argument(callee, here)
        # (the object of a literal would end with the loop's or child's round)
        if not program.cxx and not here.depth and program.draw.chance(0.2):
            place = Literal(callee.parameter.type, callee.parameter.count)
        return place and cls.of(callee, place, program.random.randint(0, 2), form=program.random.choice(cls.FORMS))

    @classmethod
    def of(cls, callee, place, n, other=None, **parts):
        return Call(callee, place, n, other, True, **parts)


class SpawnTo(Spawn):
    """The result goes to a place, which the child writes."""
    weight = 7

    @classmethod
    def draw(cls, program, here):
        callee = program.callee(here, here.throws)
        place = callee and program.argument(callee, here)
        form = program.random.choice(["cilk_spawn {};", "SPAWN({});"])
        return place and cls.of(callee, place, program.random.randint(0, 2), program.draw.direct(here), form=form)


class Declare(Spawn):
    """The result initialises a variable."""
    weight = 4

    @classmethod
    def draw(cls, program, here):
        callee = program.callee(here, here.throws)
        if not callee or here.inner or here.depth:
            return None
        place, name = program.argument(callee, here), program.draw.name("y")
        if not place:
            return None
        ways = [("long", LONG), ("long", LONG), ("const long", LONG), ("__typeof__(n)", INT)]
        how, type_ = program.random.choice(ways + [("auto", INT)] * program.cxx)
        base = (Constant if how.startswith("const") else Base)(name, type_, 1, True)
        return cls.of(callee, place, program.random.randint(0, 2), declares=base, how=how)


class Again(Statement):
    """The function calls or spawns itself."""
    weight = 4

    @classmethod
    def draw(cls, program, here):
        function = here.function
        place = None if function.throws else program.argument(function, here)
        if not place:
            return None
        it = (Spawn.of if program.draw.chance(0.6) else Call)(function, place, None)
        return Choose("n > 0", [it])


class ByPointer(Statement):
    """A pointer to a function is called and spawned, and then leads elsewhere: each spawner reads it before the child
    begins."""
    weight = 3

    def __init__(self, name, calls):
        self.name, self.calls = name, calls

    @classmethod
    def draw(cls, program, here):
        callee = program.callee(here, False)
        if not callee:
            return None
        alike = [it for it in program.callees(here, False) if it.signature() == callee.signature()]
        calls = []
        for _ in range(program.random.randint(1, 3)):
            function = program.random.choice(alike)
            place = program.argument(function, here)
            if not place:
                return None
            n, is_spawned = program.random.randint(0, 2), program.draw.chance(0.7)
            calls.append(Call(function, place, n, is_spawned=is_spawned))
        return cls(program.draw.name("q"), calls)

    def write(self, out):
        out.line("{")
        for k, it in enumerate(self.calls):
            pointer = self.name if k else it.callee.signature().format(f"(*{self.name})")
            out.line(f"{pointer} = {it.callee.name};")
            it.line = out.line(f"{'cilk_spawn ' * it.is_spawned}{it.text().replace(it.callee.name, self.name, 1)};")
        out.line("}")

    def run(self, oracle, frame):
        oracle.statements(self.calls, frame)


class BySharedPointer(Statement):
    """The program's pointer to a function, which other strands set: its spawner reads it."""
    weight = 2

    def __init__(self, name, function, place, n, is_spawned):
        self.name, self.function, self.place, self.n, self.is_spawned = name, function, place, n, is_spawned

    @classmethod
    def draw(cls, program, here):
        alike, name = program.pointed, program.prefix + "next"
        if not alike:
            return None
        if program.draw.chance(0.4):
            return cls(name, program.random.choice(alike), None, 0, False)
        if here.function.number >= alike[0].number:
            return None
        most = max(alike, key=lambda it: it.parameter.count)
        place = program.argument(most, here)
        return place and cls(name, None, place, program.random.randint(0, 2), program.draw.chance(0.7))

    def write(self, out):
        if self.function:
            self.line = out.line(f"{self.name} = {self.function.name};")
        else:
            self.line = out.line(f"{'cilk_spawn ' * self.is_spawned}{self.name}(&{self.place.text}, {self.n});")

    def run(self, oracle, frame):
        at = (self.name, 0)
        if self.function:
            oracle.values[at] = self.function
            oracle.access(frame, at, 8, WRITE, self.line)
            return
        oracle.access(frame, at, 8, READ, self.line)
        argument, function = self.place.at(oracle, frame, self.line), oracle.values[at]

        def child(inner):
            oracle.call(function, inner, argument, self.n)
        oracle.spawn_or_call(frame, self.line, child, self.is_spawned)


class Sync(Statement):
    weight = 8

    def __init__(self, text="cilk_sync;"):
        self.text = text

    @classmethod
    def draw(cls, program, here):
        return cls("SYNC;" if program.draw.chance(0.1) else "cilk_sync;")

    def write(self, out):
        self.line = out.line(self.text)

    def run(self, oracle, frame):
        oracle.sync(frame)


class SpawnedBlock(Statement):
    """`own`: a local of the block."""
    weight = 5

    def __init__(self, body, own=None, is_lambda=False):
        self.body, self.own, self.is_lambda = body, own, is_lambda

    @classmethod
    def draw(cls, program, here):
        if here.depth > 1:
            return None
        return cls(*cls.inside(program, here.in_child()), program.cxx and program.draw.chance(0.6))

    @staticmethod
    def inside(program, here):
        """The statements of a child, and a local of its own, or none."""
        own = None
        if program.draw.chance(0.6):
            own = Base(program.draw.name("own"), program.random.choice(SCALARS), 1, True)
            here.scope.append(own)
        return program.block(here, program.random.randint(1, 3)), own

    def write(self, out):
        self.line = out.line("cilk_spawn [&] {" if self.is_lambda else "cilk_spawn {")
        self.write_body(out)
        out.line("}();" if self.is_lambda else "}")

    def write_body(self, out):
        if self.own:
            self.own_line = out.line(f"{self.own.type.name} {self.own.name} = 0;")
        out.all(self.body)

    def run(self, oracle, frame):
        oracle.spawn(frame, self.line, lambda inner: self.run_body(oracle, inner))

    def run_body(self, oracle, inner):
        if self.own:
            inner.names[self.own.name] = oracle.life()
            oracle.access(inner, inner.names[self.own.name], self.own.type.size, WRITE, self.own_line)
        oracle.statements(self.body, inner)


class CilkFor(SpawnedBlock):
    """`head`: what stands in the parentheses, `values`: those of the index in their order; or the rounds go along
    elements from `start` on."""
    weight = 5

    def __init__(self, body, own, index, head, values, start=None):
        super().__init__(body, own)
        self.index, self.head, self.values, self.start = index, head, values, start

    FORMS = [
        ("int {k} = 0; {k} < {c}; {k}++", lambda c: range(c)),
        ("int {k} = 0; {k} < {c}; {k}++", lambda c: range(c)),
        ("int {k} = {c} - 1; {k} >= 0; {k}--", lambda c: range(c - 1, -1, -1)),
        ("long {k} = 0; {k} != {c}; ++{k}", lambda c: range(c)),
        ("unsigned {k} = 0; {k} < 2 * {c}; {k} += 2", lambda c: range(0, 2 * c, 2)),
        ("unsigned long {k} = {c}; {k} > 0; --{k}", lambda c: range(c, 0, -1)),
        ("short {k} = 1; {k} <= {c}; ++{k}", lambda c: range(1, c + 1)),
        ("int {k} = 2 * {c} - 1; {k} > 0; {k} -= 2", lambda c: range(2 * c - 1, 0, -2)),
        ("unsigned {k} = 2 * {c}; {k} != 0; {k} -= 2", lambda c: range(2 * c, 0, -2)),
        ("int {k} = 0; {c} > {k}; {k}++", lambda c: range(c)),
    ]

    @classmethod
    def draw(cls, program, here):
        if here.depth > 1:
            return None
        count, index = program.random.randint(2, 3), program.draw.name("k")
        inside = here.in_child(throws=False)
        if program.draw.chance(0.15):
            start = program.draw.whole(here, lambda it: it.is_direct and not it.is_single, count)
            if start:
                inside.scope.append(Base(index, start.type, 1))
                way = program.random.choice(["{k} != &{x} + {c}; ++{k}", "{k} < &{x} + {c}; {k} += 1"])
                head = f"{start.type.name} *{index} = &{start.text}; " + way.format(k=index, x=start.text, c=count)
                return cls(*cls.inside(program, inside), index, head, range(count), start)
        head, values = program.random.choice(cls.FORMS)
        values = values(count)
        inside.indices[index] = Range(min(values), max(values), True)
        return cls(*cls.inside(program, inside), index, head.format(k=index, c=count), values)

    def write(self, out):
        self.line = out.line(f"cilk_for ({self.head}) {{")
        self.write_body(out)
        out.line("}")

    def run(self, oracle, frame):
        first = self.start and self.start.at(oracle, frame, self.line)
        with oracle.inner(frame) as rounds:
            for k in self.values:
                value = (first[0], first[1] + k * self.start.size) if first else k

                def child(inner, value=value):
                    inner.names[self.index] = value
                    self.run_body(oracle, inner)
                oracle.spawn(rounds, self.line, child)


class Scope(Statement):
    weight = 3

    def __init__(self, body):
        self.body = body

    @classmethod
    def draw(cls, program, here):
        if here.depth > 1:
            return None
        return cls(program.block(here.deeper(inner=True, loop=None), program.random.randint(1, 3)))

    def write(self, out):
        out.line("cilk_scope {")
        out.all(self.body)
        out.line("}")

    def run(self, oracle, frame):
        with oracle.inner(frame) as inner:
            oracle.statements(self.body, inner)


class Reduce(Statement):
    weight = 6

    def __init__(self, name, operation, cxx):
        self.name, self.operation, self.cxx = name, operation, cxx

    @classmethod
    def draw(cls, program, here):
        if not program.reducers:
            return None
        operation = program.random.choice(["update", "update", "get", "get", "put"])
        return cls(program.random.choice(program.reducers), operation, program.cxx)

    def write(self, out):
        name = self.name
        texts = {"update": f"*{name} += 2;", "get": f"sink({name}.get_value());", "put": f"{name}.set_value(5);"}
        if not self.cxx:
            texts = {"update": f"REDUCER_VIEW({name}) += 2;", "get": f"sink(REDUCER_GET({name}));",
                     "put": f"REDUCER_PUT({name}, 5);"}
        self.line = out.line(texts[self.operation])

    def run(self, oracle, frame):
        if self.operation != "update":
            oracle.reads_of_reducers.append((self.name, frame.strand))


STRANDS = [Call, Spawn, SpawnTo, Declare, Again, ByPointer, BySharedPointer, Sync, SpawnedBlock, CilkFor, Scope, Reduce]
