"""Statements that read and write."""
from .drawing import CONDITIONS, Statement
from .places import INT, LOAD, LONG, READ, STRUCT, STRUCTURES, UPDATE, WRITE, Element, Pointer


class Access(Statement):
    """Accesses of one place, in one line."""
    kinds = ()

    def __init__(self, place, text):
        self.place, self.text = place, text

    def write(self, out):
        self.line = out.line(self.text)

    def run(self, oracle, frame):
        self.place.access(oracle, frame, self.kinds, self.line)


def volatile(program, place):
    """How a place is named; now and then as volatile, where its address may be taken."""
    if place.is_aligned and program.draw.chance(0.1):
        return f"*(volatile {place.type.name} *)&{place.text}"
    return place.text


class Write(Access):
    weight, kinds = 8, (WRITE,)

    @classmethod
    def draw(cls, program, here):
        place = program.draw.scalar(here)
        return cls.of(place, program.random.randint(1, 9), volatile(program, place))

    @classmethod
    def of(cls, place, value, text=None):
        return cls(place, f"{text or place.text} = {value};")


class Read(Access):
    weight, kinds = 8, (READ,)

    @classmethod
    def draw(cls, program, here):
        place = program.draw.scalar(here, constant=True)
        return cls.of(place, volatile(program, place))

    @classmethod
    def of(cls, place, text=None):
        return cls(place, f"sink({text or place.text});")


class DeadRead(Access):
    """A read whose value nobody uses."""
    weight, kinds = 1, (READ,)

    @classmethod
    def draw(cls, program, here):
        place = program.draw.scalar(here)
        name = program.draw.name("dead")
        return cls(place, f"{{ {place.type.name} {name} = {place.text}; (void){name}; }}")


class Modify(Access):
    weight, kinds = 5, (READ, WRITE)

    @classmethod
    def draw(cls, program, here):
        place, value = program.draw.scalar(here), program.random.randint(1, 9)
        if program.draw.chance(0.3):
            ways = [f"{place.text}++;", f"--{place.text};", f"{place.text} ^= {value};"]
            return cls(place, program.random.choice(ways))
        return cls.of(place, value)

    @classmethod
    def of(cls, place, value):
        return cls(place, f"{place.text} += {value};")


def atomic_place(program, here):
    return program.draw.whole(here, lambda it: it.type in (INT, LONG))


class Load(Access):
    weight, kinds = 2, (LOAD,)

    @classmethod
    def draw(cls, program, here):
        return cls.of(atomic_place(program, here))

    @classmethod
    def of(cls, place):
        return cls(place, f"sink(__atomic_load_n(&{place.text}, __ATOMIC_ACQUIRE));")


class Update(Access):
    weight, kinds = 2, (UPDATE,)

    @classmethod
    def draw(cls, program, here):
        return cls.of(atomic_place(program, here), program.random.choice(["add", "store", "exchange"]))

    @classmethod
    def of(cls, place, way):
        return cls(place, {
            "add": f"__atomic_fetch_add(&{place.text}, 3, __ATOMIC_SEQ_CST);",
            "store": f"__atomic_store_n(&{place.text}, 4, __ATOMIC_RELEASE);",
            "exchange": f"sink(__atomic_exchange_n(&{place.text}, 5, __ATOMIC_SEQ_CST));"}[way])


class CompareExchange(Access):
    """A plain read, and an exchange that succeeds in the serial run where it expects what was read; one that fails is a
    load."""
    weight = 1

    @classmethod
    def draw(cls, program, here):
        place, succeeds = atomic_place(program, here), program.draw.chance(0.6)
        name, other = program.draw.name("was"), "" if succeeds else " + 1"
        it = cls(place, f"{{ {place.type.name} {name} = {place.text}{other}; __atomic_compare_exchange_n("
                        f"&{place.text}, &{name}, 6, 0, __ATOMIC_SEQ_CST, __ATOMIC_SEQ_CST); }}")
        it.kinds = (READ, UPDATE) if succeeds else (READ, LOAD)
        return it

    def run(self, oracle, frame):
        for kind in self.kinds:
            self.place.access(oracle, frame, [kind], self.line)


class Copy(Statement):
    """From a number to a number, or a whole structure."""
    weight = 4

    def __init__(self, place, other):
        self.place, self.other = place, other

    @classmethod
    def draw(cls, program, here):
        draw = program.draw
        one = draw.whole(here, lambda it: it.type in STRUCTURES) if draw.chance(0.4) else draw.scalar(here)
        if one.type in STRUCTURES:
            other = draw.whole(here, lambda it: it.type is one.type)
        else:
            other = draw.scalar(here, constant=True)
        # (structures of one base may overlap, which an assignment does not allow)
        return cls(one, other) if one.name != other.name else None

    def write(self, out):
        self.line = out.line(f"{self.place.text} = {self.other.text};")

    def run(self, oracle, frame):
        self.other.access(oracle, frame, [READ], self.line)
        self.place.access(oracle, frame, [WRITE], self.line)


class Either(Statement):
    """`x = n > 1 ? y : z`: of the two that could be read one is."""
    weight = 2

    def __init__(self, place, others, text, holds):
        self.place, self.others, self.text, self.holds = place, others, text, holds

    @classmethod
    def draw(cls, program, here):
        text = program.random.choice(list(CONDITIONS))
        others = [program.draw.scalar(here, constant=True) for _ in range(2)]
        return cls(program.draw.scalar(here), others, text, CONDITIONS[text])

    def write(self, out):
        self.line = out.line(f"{self.place.text} = {self.text} ? {self.others[0].text} : {self.others[1].text};")

    def run(self, oracle, frame):
        self.others[not self.holds(frame.names["n"])].access(oracle, frame, [READ], self.line)
        self.place.access(oracle, frame, [WRITE], self.line)


class Both(Statement):
    """`n > 1 && x`, and `||`: read only where it counts."""
    weight = 2

    def __init__(self, place, operator, text, holds):
        self.place, self.operator, self.text, self.holds = place, operator, text, holds

    @classmethod
    def draw(cls, program, here):
        text, operator = program.random.choice(list(CONDITIONS)), program.random.choice(["&&", "||"])
        return cls(program.draw.scalar(here, constant=True), operator, text, CONDITIONS[text])

    def write(self, out):
        self.line = out.line(f"sink({self.text} {self.operator} {self.place.text});")

    def run(self, oracle, frame):
        if self.holds(frame.names["n"]) == (self.operator == "&&"):
            self.place.access(oracle, frame, [READ], self.line)


class StructLiteral(Statement):
    """A compound literal that is assigned: all bytes are written."""
    weight, only = 1, "c"

    def __init__(self, place):
        self.place = place

    @classmethod
    def draw(cls, program, here):
        place = program.draw.whole(here, lambda it: it.type is STRUCT)
        return place and cls(place)

    def write(self, out):
        self.line = out.line(f"{self.place.text} = (struct five){{.c = 3, .a = 4}};")

    def run(self, oracle, frame):
        self.place.access(oracle, frame, [WRITE], self.line)


class ByValue(Statement):
    """A structure as an argument, which its caller reads, also where the call is spawned; and as a result, which is
    written where it is assigned, by the child where the call is spawned."""
    weight = 2

    def __init__(self, place, is_result, is_spawned):
        self.place, self.is_result, self.is_spawned = place, is_result, is_spawned

    @classmethod
    def draw(cls, program, here):
        place = program.draw.whole(here, lambda it: it.type is STRUCT and it.is_direct)
        return place and cls(place, program.draw.chance(0.5), program.draw.chance(0.6))

    def write(self, out):
        spawn, place = "cilk_spawn " * self.is_spawned, self.place.text
        self.line = out.line(f"{place} = {spawn}made_five(3);" if self.is_result else f"{spawn}use_five({place});")

    def run(self, oracle, frame):
        if not self.is_result:
            self.place.access(oracle, frame, [READ], self.line)

        def child(inner):
            if self.is_result:
                oracle.access(inner, at, self.place.size, WRITE, self.line)
        at = self.place.at(oracle, frame, self.line)
        oracle.spawn_or_call(frame, self.line, child, self.is_spawned)


STRUCT_HEADER = """\
static int use_five(struct five it) {
  return it.c + it.e;
}
static struct five made_five(int k) {
  struct five it = {k, k, 1, 2, 3};
  return it;
}""".split("\n")


class PointTo(Statement):
    """A pointer is set to other elements."""
    weight = 3

    def __init__(self, pointer, place):
        self.pointer, self.place = pointer, place

    @classmethod
    def draw(cls, program, here):
        pointer = program.draw.base(here, lambda it: isinstance(it, Pointer))
        return pointer and cls.of(program, here, pointer)

    @classmethod
    def of(cls, program, here, pointer):
        base = program.random.choice(pointer.targets)
        return cls(pointer, Element(base, program.draw.index(base, here, pointer.count)))

    def write(self, out):
        self.line = out.line(f"{self.pointer.name} = &{self.place.text};")

    def run(self, oracle, frame):
        at = self.place.at(oracle, frame, self.line)
        oracle.access(frame, self.pointer.variable(frame), 8, WRITE, self.line)
        oracle.values[self.pointer.variable(frame)] = at


class PointerVariable(Statement):
    """Declares a pointer: of the function, or of a block of its own."""
    weight = 3

    def __init__(self, first, body):
        self.first, self.pointer, self.body = first, first.pointer, body
        self.declared = () if body else [first.pointer]

    @classmethod
    def draw(cls, program, here):
        draw = program.draw
        type_, count = draw.type(), program.random.randint(1, 2)
        targets = [it for it in [*here.scope, *program.bases]
                   if it.type is type_ and not it.may_move and not it.is_constant and it.has_room(count)]
        if not targets or here.depth > 1:
            return None
        pointer = Pointer(draw.name("q"), type_, count, targets)
        first = PointTo.of(program, here, pointer)
        if not here.depth and not here.inner and draw.chance(0.6):
            return cls(first, None)
        inside = here.deeper(scope=[*here.scope, pointer], inner=True)
        body = program.block(inside, program.random.randint(2, 3))
        return cls(first, body) if body else None

    def write(self, out):
        if self.body:
            out.line("{")
        declared = f"{self.pointer.type.name} *{self.pointer.name}"
        self.line = self.first.line = out.line(f"{declared} = &{self.first.place.text};")
        if self.body:
            out.all(self.body)
            out.line("}")

    def run(self, oracle, frame):
        frame.names[self.pointer.name] = oracle.life()
        self.first.run(oracle, frame)
        if self.body:
            try:
                oracle.statements(self.body, frame)
            finally:
                del frame.names[self.pointer.name]


ACCESSES = [Write, Read, DeadRead, Modify, Load, Update, CompareExchange, Copy, Either, Both, StructLiteral, ByValue,
            PointTo, PointerVariable]
