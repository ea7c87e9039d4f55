"""Draws random fork-join programs, and writes them as C or C++. A program is a tree of statements (grammar/), which
oracle.py interprets.

No statement uses a pointer into a frame or block that has ended in the serial order, reads memory that was not set, or
shares the index of a plain loop with a child: what is drawn has defined behavior but for its races (with -fwrapv).
"""
import random

from grammar.accesses import ACCESSES, STRUCT_HEADER, Modify, Write
from grammar.control import CONTROL
from grammar.cxx import CXX, CXX_HEADER, LINES, LocalVector, Method
from grammar.drawing import Drawing, Here, Lines
from grammar.frames import Frames
from grammar.libc import COMPARE_LINES, LIBC, SORT_HEADER, TEXT, TEXT_SIZE
from grammar.places import (BITS, CHAR, INT, LONG, PACKED, SHORT, STRUCT, TYPES_HEADER, UNION, WIDE, WRITE, Base,
                            Element, Pointer, Table)
from grammar.strands import STRANDS, SpawnedBlock, Sync

GLOBALS = {
    "c": (CHAR, 6), "s": (SHORT, 4), "i": (INT, 4), "l": (LONG, 3), "w": (WIDE, 3),
    "t": (STRUCT, 3), "u": (UNION, 3), "k": (PACKED, 3), "b": (BITS, 3),
}
HEADER = [*"""\
#include <cilk/cilk.h>
#include <cilk/reducer.h>
#include <cilk/reducer_opadd.h>
#include <stdio.h>
#include <stdlib.h>
#include <string.h>
#ifdef __cplusplus
#include <map>
#include <string>
#include <vector>
extern "C" {
#endif
void sink(long value);
unsigned long sunk(void);
#ifdef __cplusplus
}
#endif
#define AT(name) fprintf(stderr, "at %s %p %zu\\n", #name, (void *)&name, sizeof name)
#define SPAWN(call) cilk_spawn call
#define SPAWN_TO(to, call) to = cilk_spawn call
#define SPAWN_IF(condition, call) if (condition) cilk_spawn call
#define SYNC cilk_sync""".split("\n"),
          *TYPES_HEADER, *STRUCT_HEADER, *SORT_HEADER, "#ifdef __cplusplus", *CXX_HEADER, "#endif"]
for type_name in "int", "long":
    COMPARE_LINES[type_name] = HEADER.index(f"static int by_{type_name}(const void *a, const void *b) {{") + 2
LINES.update({"five::add": HEADER.index("    c += k;") + 1, "~guard": HEADER.index("    *at += 1;") + 1,
              "raised": HEADER.index("  x += k;") + 1, "square::add": HEADER.index("    c -= k;") + 1})
LINES["shape::add"] = LINES["square::add"] - 5
STATEMENTS = [*ACCESSES, *LIBC, *CONTROL, *STRANDS, *CXX]
RESULT = "return 1;"


class Local:
    """A local of a function: plain, static, of two dimensions, or of a length that its argument says."""

    def __init__(self, base, kind):
        self.base, self.kind = base, kind
        self.line = None

    def write(self, out):
        it = self.base
        count = f"2][{it.columns}" if self.kind == "table" else f"n + {it.count}" if self.kind == "length" else it.count
        out.line(f"{'static ' * (self.kind == 'static')}{it.type.name} {it.name}[{count}];")
        if self.kind != "static":
            self.line = out.line(f"memset({it.name}, 0, sizeof {it.name});")

    def begin_life(self, oracle, frame, n):
        if self.kind == "static":
            if self.base.name not in oracle.statics:
                oracle.statics[self.base.name] = oracle.life()
            frame.names[self.base.name] = oracle.statics[self.base.name]
            return
        frame.names[self.base.name] = oracle.life()
        count = self.base.count + n * (self.kind == "length")
        oracle.access(frame, frame.names[self.base.name], self.base.type.size * count, WRITE, self.line)


class Function:
    def __init__(self, name, number, type_, extent, is_reference):
        self.name, self.number, self.parameter = name, number, Base("p", type_, extent, is_reference)
        self.locals, self.body, self.throws = [], [], False

    def signature(self):
        """Its type, with a place for the name."""
        return f"int {{}}({self.parameter.type.name} {'&' if self.parameter.is_single else '*'}, int)"

    def head(self):
        return f"static int {self.name}({self.parameter.type.name} {'&' if self.parameter.is_single else '*'}p, int n)"

    def own(self, bases):
        self.locals += [Local(it, "plain") for it in bases]


class Program:
    def __init__(self, seed, draw, cxx):
        self.seed, self.cxx = seed, cxx
        self.random = random.Random(f"{seed} {draw} {'c++' if cxx else 'c'}")
        self.prefix = f"p{seed}_"
        self.calm = self.random.random() < 0.35
        self.bases = [Base(self.prefix + name, type_, count) for name, (type_, count) in GLOBALS.items()]
        self.bases.append(Table(self.prefix + "m", INT, 2, 3))
        pointer = Pointer(self.prefix + "q", INT, 2, [it for it in self.bases if it.type is INT])
        self.bases.append(pointer)
        self.draw = Drawing(self.random, self.bases)
        self.reducers = [f"{self.prefix}r{k}" for k in range(2)] if self.random.random() < 0.4 else []
        self.first_n = 2
        self.functions = [self.function(k) for k in range(self.random.randint(2, 5))]
        self.pointed = self.alike()
        self.statements = [it for it in STATEMENTS if it.only in (None, "c++" if cxx else "c")]
        for function in self.functions:
            self.fill(function)
        self.start = Element(next(it for it in self.bases if it.type is self.functions[0].parameter.type), 0)
        frames = Function(f"{self.prefix}frames", len(self.functions), INT, 1, False)
        Frames(self, random.Random(f"frames {seed} {draw}"), frames).add()

    def globals(self):
        return [*(it.name for it in self.bases), self.prefix + "text", self.prefix + "next",
                *(f"{self.prefix}v{k}" for k in range(2) if self.cxx)]

    def function(self, number):
        extent = self.random.randint(1, 3)
        is_reference = self.cxx and extent == 1 and self.random.random() < 0.5
        made = Function(f"{self.prefix}f{number}", number, self.draw.type(), extent, is_reference)
        made.throws = self.cxx and number > 0 and self.random.random() < 0.2
        return made

    def alike(self):
        """The functions to which the program's own pointer may lead: of one type, behind those that call by it."""
        last = self.functions[-1]
        if last.throws or last.parameter.is_single:
            return []
        return [it for it in self.functions[1:] if it.signature() == last.signature() and not it.throws]

    def fill(self, function):
        here = Here(function, [function.parameter], throws=function.throws)
        for _ in range(self.random.randint(0, 3)):
            kind = self.random.choice(["plain"] * 5 + ["static", "table", "length"])
            name, type_, count = self.draw.name("x"), self.draw.type(), self.random.randint(1, 3)
            base = Table(name, type_, 2, count) if kind == "table" else Base(name, type_, count)
            function.locals.append(Local(base, kind))
            here.scope.append(base)
        if self.cxx and self.random.random() < 0.3:
            function.locals.append(LocalVector(self.draw.name("v"), self.random.randint(1, 3)))
            here.scope.append(function.locals[-1].base)
        function.body = self.block(here, self.random.randint(3, 7))

    def callees(self, here, throwing):
        return [it for it in self.functions[here.function.number + 1:] if throwing or not it.throws]

    def callee(self, here, throwing):
        later = self.callees(here, throwing)
        return self.random.choice(later) if later else None

    def argument(self, function, here):
        return self.draw.argument(function.parameter, here)

    def block(self, here, count):
        """Statements; what one of them declares is in scope behind it."""
        here, found = here.deeper(depth=here.depth), []
        weights = [it.weight for it in self.statements]
        for _ in range(count):
            it = self.random.choices(self.statements, weights)[0].draw(self, here)
            if it:
                found.append(it)
                here.scope += it.declared
                makes = isinstance(it, (SpawnedBlock, Method, Write, Modify)) or getattr(it, "is_spawned", False)
                if self.calm and makes and self.random.random() < 0.75:
                    found.append(Sync())
        return found

    def write(self, lines):
        out = Lines(lines)
        for base in self.bases:
            if isinstance(base, Pointer):
                out.line(f"static {base.type.name} *{base.name} = {base.targets[0].name};")
            elif isinstance(base, Table):
                out.line(f"static {base.type.name} {base.name}[{base.count // base.columns}][{base.columns}];")
            else:
                out.line(f"static {base.type.name} {base.name}[{base.count}];")
        out.line(f"static char {self.prefix}text[{TEXT_SIZE}] = \"{TEXT}\";")
        if self.cxx:
            it = self.prefix
            out.line(f"static shape {it}v0; static square {it}v1;")
            out.line(f"static shape *const {it}shapes[2] = {{&{it}v0, &{it}v1}};")
            out.line(f"static std::string {it}string; static std::map<int, int> {it}map;")
        for name in self.reducers:
            made = "cilk::reducer<cilk::op_add<long>> {}(0);" if self.cxx else "CILK_C_REDUCER_OPADD({}, long, 0);"
            out.line("static " + made.format(name))
        for function in self.functions:
            out.line(function.head() + ";")
        one = self.pointed[0] if self.pointed else self.functions[-1]
        out.line(f"static {one.signature().format(f'(*{self.prefix}next)')} = {one.name};")
        for function in self.functions:
            out.line(function.head() + " {")
            out.line("(void)n;")
            out.all(function.locals)
            out.all(function.body)
            out.line("throw 1;" if function.throws else RESULT)
            out.line("}")


def main_of(programs):
    """The function that runs the program whose seed is the first argument."""
    yield "int main(int argc, char **argv) {"
    yield "  switch (argc > 1 ? atoi(argv[1]) : 0) {"
    for program in programs:
        yield f"  case {program.seed}:"
        for name in program.globals():
            yield f"    AT({name});"
        for name in program.reducers:
            if not program.cxx:
                yield f"    CILK_C_REGISTER_REDUCER({name});"
        first = program.functions[0]
        yield f"    {first.name}({'' if first.parameter.is_single else '&'}{program.start.text}, {program.first_n});"
        for name in program.reducers:
            yield f"    sink({name}.get_value());" if program.cxx else f"    sink(REDUCER_GET({name}));"
        for base in program.bases:
            if isinstance(base, Table):
                yield f"    for (int k = 0; k < {base.count}; k++) sink((&{base.name}[0][0])[k]);"
            elif not isinstance(base, Pointer):
                yield f"    for (int k = 0; k < {base.count}; k++) sink({base.name}[k]{base.type.shown});"
        yield f"    for (int k = 0; k < {TEXT_SIZE}; k++) sink({program.prefix}text[k]);"
        if program.cxx:
            yield f"    sink({program.prefix}v0.c); sink({program.prefix}v1.c);"
            yield f"    sink((long){program.prefix}string.size()); sink((long){program.prefix}map.size());"
        yield "    break;"
    yield "  }"
    yield '  printf("%lu\\n", sunk());'
    yield "  return 0;"
    yield "}"
