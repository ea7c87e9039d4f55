"""Statements of C++: methods, lambdas with a name, destructors, virtual functions, templates, exceptions,
containers."""
from .drawing import Range, Statement
from .places import INT, READ, STRUCT, WRITE, Base

CXX_HEADER = """\
struct shape {
  int c = 0;
  virtual void add(int k) {
    c += k;
  }
};
struct square : shape {
  void add(int k) override {
    c -= k;
  }
};
struct guard {
  int *at;
  ~guard() {
    *at += 1;
  }
};
template <class T> static int raised(T &x, int k) {
  x += k;
  return k;
}""".split("\n")
LINES = {}     # of the header's accesses; set by ../generator.py


class Method(Statement):
    weight, only = 4, "c++"

    def __init__(self, place, is_spawned, by_pointer):
        self.place, self.is_spawned, self.by_pointer = place, is_spawned, by_pointer

    @classmethod
    def draw(cls, program, here):
        place = program.draw.whole(here, lambda it: it.type is STRUCT)
        return place and cls(place, program.draw.chance(0.8), program.draw.chance(0.2))

    def write(self, out):
        spawn, place = "cilk_spawn " * self.is_spawned, self.place.text
        if self.by_pointer:
            self.line = out.line(f"{{ int (five::*method)(int) = &five::add; {spawn}({place}.*method)(2); }}")
        else:
            self.line = out.line(f"{spawn}{place}.add(2);")

    def run(self, oracle, frame):
        life, offset = self.place.at(oracle, frame, self.line)
        field = STRUCT.fields["c"]
        run_modification(oracle, frame, self, (life, offset + field.offset), field.type.size, LINES["five::add"])


def run_modification(oracle, frame, it, at, size, line):
    """A call, or a spawn, of what reads and writes a number at a line of the header."""
    def child(inner):
        for kind in READ, WRITE:
            oracle.access(inner, at, size, kind, line)
    oracle.spawn_or_call(frame, it.line, child, it.is_spawned)


class Virtual(Statement):
    """The object's class, which its spawner reads, says which function is the child."""
    weight, only = 3, "c++"

    def __init__(self, prefix, k, is_spawned):
        self.prefix, self.k, self.is_spawned = prefix, k, is_spawned

    @classmethod
    def draw(cls, program, here):
        steady = [name for name, it in here.indices.items() if it.low >= 0 and it.high < 2]
        k = program.random.choice(steady) if steady and program.draw.chance(0.7) else program.random.randint(0, 1)
        return cls(program.prefix, k, program.draw.chance(0.7))

    def write(self, out):
        self.line = out.line(f"{'cilk_spawn ' * self.is_spawned}{self.prefix}shapes[{self.k}]->add(2);")

    def run(self, oracle, frame):
        k = frame.names[self.k] if isinstance(self.k, str) else self.k
        name = f"{self.prefix}v{k}"
        oracle.access(frame, (name, 0), 8, READ, self.line)
        run_modification(oracle, frame, self, (name, 8), 4, LINES["square::add" if k else "shape::add"])


class Template(Statement):
    weight, only = 3, "c++"

    def __init__(self, place, other, is_spawned):
        self.place, self.other, self.is_spawned = place, other, is_spawned

    @classmethod
    def draw(cls, program, here):
        other = program.draw.direct(here) if program.draw.chance(0.3) else None
        return cls(program.draw.scalar(here, aligned=True), other, program.draw.chance(0.7))

    def write(self, out):
        to = f"{self.other.text} = " if self.other else ""
        self.line = out.line(f"{to}{'cilk_spawn ' * self.is_spawned}raised({self.place.text}, 3);")

    def run(self, oracle, frame):
        at = self.place.at(oracle, frame, self.line)

        def child(inner):
            for kind in READ, WRITE:
                oracle.access(inner, at, self.place.size, kind, LINES["raised"])
            if self.other:
                self.other.access(oracle, inner, [WRITE], self.line)
        oracle.spawn_or_call(frame, self.line, child, self.is_spawned)


class NamedLambda(Statement):
    """A function of the block, which shares the locals around it, and syncs its children at its end."""
    weight, only = 4, "c++"

    def __init__(self, name, index, body, calls):
        self.name, self.index, self.body, self.calls = name, index, body, calls

    @classmethod
    def draw(cls, program, here):
        if here.depth or here.inner:
            return None
        index = program.draw.name("k")
        inside = here.in_child(throws=False)
        inside.indices[index] = Range(0, 2, True)
        body = program.block(inside, program.random.randint(1, 3))
        calls = [(program.random.randint(0, 2), program.draw.chance(0.7)) for _ in range(program.random.randint(1, 3))]
        return cls(program.draw.name("lambda"), index, body, calls)

    def write(self, out):
        out.line(f"auto {self.name} = [&](int {self.index}) {{")
        out.all(self.body)
        out.line("};")
        self.lines = [out.line(f"{'cilk_spawn ' * spawned}{self.name}({value});") for value, spawned in self.calls]

    def run(self, oracle, frame):
        for (value, is_spawned), line in zip(self.calls, self.lines):
            def child(outer, value=value):
                with oracle.inner(outer) as inner:
                    inner.names = {**outer.names, self.index: value}
                    oracle.statements(self.body, inner)
            oracle.spawn_or_call(frame, line, child, is_spawned)


class Guard(Statement):
    """An object whose destructor changes a number: behind the function's sync, or at the end of a block beside its
    children."""
    weight, only = 3, "c++"

    def __init__(self, name, place, body):
        self.name, self.place, self.body = name, place, body

    @classmethod
    def draw(cls, program, here):
        place = program.draw.whole(here, lambda it: it.type is INT and not it.may_move)
        if not place or here.depth > 1:
            return None
        if not here.depth and not here.inner and program.draw.chance(0.5):
            return cls(program.draw.name("g"), place, None)
        inside = here.deeper(inner=True, loop=None, throws=False)
        return cls(program.draw.name("g"), place, program.block(inside, program.random.randint(1, 3)))

    def write(self, out):
        if self.body is not None:
            out.line("{")
        self.line = out.line(f"guard {self.name}{{&{self.place.text}}};")
        if self.body is not None:
            out.all(self.body)
            out.line("}")

    def run(self, oracle, frame):
        at = self.place.at(oracle, frame, self.line)

        def end():
            for kind in READ, WRITE:
                oracle.access(frame, at, INT.size, kind, LINES["~guard"])
        if self.body is None:
            frame.ends.append(end)
        else:
            oracle.statements(self.body, frame)
            end()


class Try(Statement):
    """An exception that a child throws comes to its spawner, which syncs and goes on at the catch; one of a plain call
    does not sync. A try block in which a spawn stands ends with a sync, as in Cilk Plus."""
    weight, only = 4, "c++"

    def __init__(self, body, handler):
        self.body, self.handler = body, handler

    @classmethod
    def draw(cls, program, here):
        if here.depth > 1:
            return None
        body = program.block(here.deeper(inner=True, throws=True, loop=None), program.random.randint(2, 4))
        return cls(body, program.block(here.deeper(inner=True, loop=None), program.random.randint(0, 2)))

    def write(self, out):
        first = out.line("try {")
        out.all(self.body)
        last = out.line("} catch (int) {")
        self.syncs = any("cilk_spawn" in it or "SPAWN" in it for it in out.lines[first:last])
        out.all(self.handler)
        out.line("}")

    def run(self, oracle, frame):
        try:
            oracle.statements(self.body, frame)
        except oracle.Thrown:
            oracle.statements(self.handler, frame)
            return
        if self.syncs:
            oracle.sync(frame)


class Vector(Base):
    """A std::vector: the first of its three pointers leads to the elements."""
    is_direct = False

    def begin(self, oracle, frame, line):
        at = frame.names[self.name]
        oracle.access(frame, at, 8, READ, line)
        return oracle.values[at]

    def first(self):
        return f"{self.name}.data()"


class LocalVector:
    """A local of a function. There is room for all that is appended, so that the elements stay where they are."""
    ROOM = 400

    def __init__(self, name, count):
        self.base = Vector(name, INT, count)

    def write(self, out):
        name = self.base.name
        self.line = out.line(f"std::vector<int> {name}; {name}.reserve({self.ROOM}); {name}.resize({self.base.count});")

    def begin_life(self, oracle, frame, _n):
        at, elements = oracle.life(), oracle.life()
        frame.names[self.base.name] = at
        oracle.values[at], oracle.values[at, "count"] = elements, self.base.count
        oracle.access(frame, at, 24, WRITE, self.line)
        oracle.access(frame, elements, 4 * self.base.count, WRITE, self.line)


class UseVector(Statement):
    """push_back reads where the elements end and where their room does, writes an element, and writes their end; size
    reads begin and end."""
    weight, only = 6, "c++"

    def __init__(self, base, is_appended):
        self.base, self.is_appended = base, is_appended

    @classmethod
    def draw(cls, program, here):
        found = [it for it in here.scope if isinstance(it, Vector)]
        return cls(program.random.choice(found), program.draw.chance(0.6)) if found else None

    def write(self, out):
        name = self.base.name
        text = f"{{ const int it = 3; {name}.push_back(it); }}" if self.is_appended else f"sink((long){name}.size());"
        self.line = out.line(text)

    def run(self, oracle, frame):
        at = frame.names[self.base.name]
        life, offset = at
        if not self.is_appended:
            oracle.access(frame, at, 16, READ, self.line)
            return
        count = oracle.values[at, "count"]
        elements = oracle.values[at]
        if count >= LocalVector.ROOM:
            raise oracle.TooLong
        oracle.values[at, "count"] += 1
        oracle.access(frame, (life, offset + 8), 16, READ, self.line)
        oracle.access(frame, (elements[0], 4 * count), 4, WRITE, self.line)
        oracle.access(frame, (life, offset + 8), 8, WRITE, self.line)


class Container(Statement):
    """The program's std::string or std::map. Which of its bytes race is the library's affair: what is known is which of
    its uses do."""
    weight, only = 3, "c++"
    USES = {
        "text +=": ("change", "{}string += 'x';"),
        "text size": ("size", "sink((long){}string.size());"),
        "map insert": ("change", "{}map.insert(std::make_pair({k}, 1));"),
        "map count": ("look", "sink((long){}map.count({k}));"),
        "map size": ("size", "sink((long){}map.size());"),
    }

    def __init__(self, prefix, use, key):
        self.prefix, self.use, self.key = prefix, use, key

    @classmethod
    def draw(cls, program, here):
        return cls(program.prefix, program.random.choice(list(cls.USES)), program.random.randint(0, 5))

    def write(self, out):
        self.line = out.line(self.USES[self.use][1].format(self.prefix, k=self.key))

    def run(self, oracle, frame):
        kind, what = self.USES[self.use][0], self.use.split()[0]
        name = self.prefix + what
        if self.use == "map insert":
            keys = oracle.values.setdefault((name, "keys"), set())
            kind = "look" if self.key in keys else kind
            keys.add(self.key)
        oracle.use(frame, name, kind, self.line)


CXX = [Method, Virtual, Template, NamedLambda, Guard, Try, UseVector, Container]
