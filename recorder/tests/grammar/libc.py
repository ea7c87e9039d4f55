"""Statements that call functions of libc: of memory, of strings, of the heap, and qsort."""
from .drawing import Statement
from .places import CHAR, INT, LONG, READ, WRITE, Block, Pointer

TEXT, TEXT_END, TEXT_SIZE = "abcd", 4, 8


class Fill(Statement):
    weight = 2

    def __init__(self, place, count, value, function):
        self.place, self.count, self.value, self.function = place, count, value, function

    @classmethod
    def draw(cls, program, here):
        count = program.random.randint(1, 3)
        place = program.draw.whole(here, lambda it: True, count)
        function = program.random.choice(["memset", "__builtin_memset"])
        return place and cls(place, count, program.random.randint(0, 9), function)

    def write(self, out):
        it = self.place.text
        self.line = out.line(f"{self.function}(&{it}, {self.value}, {self.count} * sizeof {it});")

    def run(self, oracle, frame):
        oracle.access(frame, self.place.at(oracle, frame, self.line), self.place.size * self.count, WRITE, self.line)


class Move(Statement):
    """Elements. Two bases may be one memory where a parameter or a pointer is among them, which memmove allows."""
    weight = 2

    def __init__(self, place, other, count, function):
        self.place, self.other, self.count, self.function = place, other, count, function

    @classmethod
    def draw(cls, program, here):
        count = program.random.randint(1, 3)
        one = program.draw.whole(here, lambda it: True, count)
        other = one and program.draw.whole(here, lambda it: it.type is one.type and it.name != one.name, count)
        return other and cls(one, other, count, program.random.choice(["memmove", "__builtin_memmove"]))

    def write(self, out):
        to, start = self.place.text, self.other.text
        self.line = out.line(f"{self.function}(&{to}, &{start}, {self.count} * sizeof {to});")

    def run(self, oracle, frame):
        oracle.access(frame, self.other.at(oracle, frame, self.line), self.other.size * self.count, READ, self.line)
        oracle.access(frame, self.place.at(oracle, frame, self.line), self.place.size * self.count, WRITE, self.line)


class Parts(Statement):
    """Some bytes of a global are copied to another, from any byte to any byte."""
    weight = 2

    def __init__(self, base, other, size, to, start, function):
        self.base, self.other, self.size, self.to, self.start, self.function = base, other, size, to, start, function

    @classmethod
    def draw(cls, program, here):
        one, other = program.random.sample([it for it in program.bases if not isinstance(it, Pointer)], 2)
        most = [it.count * it.type.size for it in (one, other)]
        size = program.random.choice([it for it in (1, 2, 3, 4, 5, 8, 11, 16) if it <= min(most)])
        to, start = (program.random.randint(0, it - size) for it in most)
        return cls(one, other, size, to, start, program.random.choice(["memcpy", "__builtin_memcpy"]))

    def write(self, out):
        to, start = f"(char *){self.base.name} + {self.to}", f"(char *){self.other.name} + {self.start}"
        self.line = out.line(f"{self.function}({to}, {start}, {self.size});")

    def run(self, oracle, frame):
        oracle.access(frame, (self.other.name, self.start), self.size, READ, self.line)
        oracle.access(frame, (self.base.name, self.to), self.size, WRITE, self.line)


class Text(Statement):
    """A use of the program's text, whose NUL stays where it is: its length, a copy of it, or other letters in it."""
    weight = 3

    def __init__(self, name, way, start, to=None, builtin=""):
        self.name, self.way, self.start, self.to, self.builtin = name, way, start, to, builtin

    @classmethod
    def draw(cls, program, here):
        way = program.random.choice(["length", "copy", "letter", "letters", "all"])
        start = program.random.randint(0, TEXT_END - 1)
        to = program.draw.whole(here, lambda it: it.type is CHAR, TEXT_END + 1 - start) if way == "copy" else None
        if way == "copy" and not to:
            return None
        return cls(program.prefix + "text", way, start, to, program.random.choice(["", "__builtin_"]))

    def write(self, out):
        at = f"{self.name} + {self.start}"
        self.line = out.line({
            "length": f"sink((long){self.builtin}strlen({at}));",
            "copy": self.to and f"{self.builtin}strcpy(&{self.to.text}, {at});",
            "letter": f"{self.name}[{self.start}] = 'x';",
            "letters": f"{self.builtin}memcpy({at}, \"uvwxyz\", {TEXT_END - self.start});",
            "all": f"{self.builtin}strcpy({at}, \"{'efgh'[self.start:]}\");"}[self.way])

    def run(self, oracle, frame):
        at, left = (self.name, self.start), TEXT_END - self.start
        if self.way in ("length", "copy"):
            oracle.access(frame, at, left + 1, READ, self.line)
        if self.way == "copy":
            oracle.access(frame, self.to.at(oracle, frame, self.line), left + 1, WRITE, self.line)
        if self.way not in ("length", "copy"):
            oracle.access(frame, at, {"letter": 1, "letters": left, "all": left + 1}[self.way], WRITE, self.line)


class Sort(Statement):
    """qsort reads and moves all elements; its comparison reads them, where it stands."""
    weight = 2

    def __init__(self, place, count):
        self.place, self.count = place, count

    @classmethod
    def draw(cls, program, here):
        count = program.random.randint(2, 3)
        place = program.draw.whole(here, lambda it: it.type in (INT, LONG), count)
        return place and cls(place, count)

    def write(self, out):
        type_ = self.place.type.name
        self.line = out.line(f"qsort(&{self.place.text}, {self.count}, sizeof({type_}), by_{type_});")

    def run(self, oracle, frame):
        at, size = self.place.at(oracle, frame, self.line), self.place.size * self.count
        for kind, line in (READ, self.line), (WRITE, self.line), (READ, COMPARE_LINES[self.place.type.name]):
            oracle.access(frame, at, size, kind, line)


SORT_HEADER = """\
static int by_int(const void *a, const void *b) {
  int x = *(const int *)a, y = *(const int *)b;
  return (x > y) - (x < y);
}
static int by_long(const void *a, const void *b) {
  long x = *(const long *)a, y = *(const long *)b;
  return (x > y) - (x < y);
}""".split("\n")
COMPARE_LINES = {}    # set by ../generator.py, which knows where the header stands


class Heap(Statement):
    """A block of the heap, which may be moved to another by its own strand and is mostly freed."""
    weight = 4

    def __init__(self, base, body, grown, rest, is_freed, is_cleared):
        self.base, self.body, self.size = base, body, base.type.size * base.count
        self.grown, self.rest, self.is_freed, self.is_cleared = grown, rest, is_freed, is_cleared

    @classmethod
    def draw(cls, program, here):
        if here.depth > 1:
            return None
        base = Block(program.draw.name("h"), program.draw.type(), program.random.randint(1, 3))
        inside = here.deeper(scope=[*here.scope, base], inner=True)
        body, grown, rest = program.block(inside, program.random.randint(2, 4)), 0, []
        if program.draw.chance(0.3):
            grown, rest = base.count + program.random.randint(1, 2), program.block(inside, program.random.randint(1, 2))
        return cls(base, body, grown, rest, program.draw.chance(0.8), program.draw.chance(0.7))

    def write(self, out):
        name, type_ = self.base.name, self.base.type.name
        out.line("{")
        if self.is_cleared:
            self.line = out.line(f"{type_} *{name} = ({type_} *)calloc({self.base.count}, sizeof({type_}));")
        else:
            self.line = out.line(f"{type_} *{name} = ({type_} *)memset(malloc({self.size}), 0, {self.size});")
        out.all(self.body)
        if self.grown:
            self.grow_line = out.line(f"{name} = ({type_} *)realloc({name}, {self.grown} * sizeof({type_}));")
            more = self.grown - self.base.count
            self.clear_line = out.line(f"memset({name} + {self.base.count}, 0, {more} * sizeof({type_}));")
            out.all(self.rest)
        if self.is_freed:
            self.free_line = out.line(f"free({name});")
        out.line("}")

    def run(self, oracle, frame):
        name = self.base.name
        variable = frame.names[name] = oracle.life()

        def take(line):
            oracle.values[variable] = oracle.life()
            oracle.access(frame, variable, 8, WRITE, line)
        take(self.line)
        if not self.is_cleared:
            oracle.access(frame, oracle.values[variable], self.size, WRITE, self.line)
        try:
            oracle.statements(self.body, frame)
            held = self.size
            if self.grown:
                old = self.base.begin(oracle, frame, self.grow_line)
                for kind in READ, WRITE:
                    oracle.access(frame, old, held, kind, self.grow_line)
                take(self.grow_line)
                oracle.access(frame, oracle.values[variable], held, WRITE, self.grow_line)
                tail = held
                held = self.grown * self.base.type.size
                start, offset = self.base.begin(oracle, frame, self.clear_line)
                oracle.access(frame, (start, offset + tail), held - tail, WRITE, self.clear_line)
                oracle.statements(self.rest, frame)
            if self.is_freed:
                oracle.access(frame, self.base.begin(oracle, frame, self.free_line), held, WRITE, self.free_line)
        finally:
            del frame.names[name]


LIBC = [Fill, Move, Parts, Text, Sort, Heap]
