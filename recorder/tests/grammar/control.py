"""Statements that choose, repeat and jump, in one strand."""
from .drawing import CONDITIONS, Range, Statement


class Return(Exception):
    """The function returns."""


class Broken(Exception):
    """A break or a continue of the innermost plain loop."""

    def __init__(self, is_break):
        super().__init__()
        self.is_break = is_break


class Choose(Statement):
    weight = 4

    def __init__(self, text, body, otherwise=()):
        self.text, self.holds, self.body, self.otherwise = text, CONDITIONS[text], body, otherwise

    @classmethod
    def draw(cls, program, here):
        if here.depth > 1:
            return None
        text = program.random.choice(list(CONDITIONS))
        body = program.block(here.deeper(), program.random.randint(1, 3))
        return cls(text, body, program.block(here.deeper(), 1) if program.draw.chance(0.4) else [])

    def write(self, out):
        self.line = out.line(f"if ({self.text}) {{")
        out.all(self.body)
        if self.otherwise:
            out.line("} else {")
            out.all(self.otherwise)
        out.line("}")

    def run(self, oracle, frame):
        oracle.statements(self.body if self.holds(frame.names["n"]) else self.otherwise, frame)


class OneLine(Choose):
    """Both ways stand in one line."""
    weight = 0

    def __init__(self, text, holds, body, otherwise):
        self.text, self.holds, self.body, self.otherwise = text, holds, body, otherwise

    def write(self, out):
        texts = [out.join(it) for it in (self.body, self.otherwise)]
        self.line = out.line(f"if ({self.text}) {{ {texts[0]} }} else {{ {texts[1]} }}")


class Switch(Statement):
    """Each case ends by a break or goes on into the next."""
    weight = 2

    def __init__(self, cases):
        self.cases = cases      # (value or None for the default, statements, whether it ends)

    @classmethod
    def draw(cls, program, here):
        if here.depth > 1:
            return None
        values = program.random.sample([0, 1, 2, None], program.random.randint(2, 3))
        inside, draw = here.deeper(inner=True, loop=None), program.draw
        return cls([(it, program.block(inside, program.random.randint(1, 2)), draw.chance(0.6)) for it in values])

    def write(self, out):
        out.line("switch (n) {")
        for value, body, ends in self.cases:
            out.line("default: {" if value is None else f"case {value}: {{")
            out.all(body)
            out.line("}")
            if ends:
                out.line("break;")
        out.line("}")

    def run(self, oracle, frame):
        values = [it[0] for it in self.cases]
        n = frame.names["n"]
        if n not in values and None not in values:
            return
        for _, body, ends in self.cases[values.index(n if n in values else None):]:
            oracle.statements(body, frame)
            if ends:
                break


class Loop(Statement):
    """A plain loop in one of its forms. All have the same index, from 0 up, but where a for goes down."""
    weight = 6

    def __init__(self, form, index, count, body):
        self.form, self.index, self.count, self.body = form, index, count, body

    @classmethod
    def draw(cls, program, here):
        if here.depth > 1:
            return None
        index, count = program.draw.name("k"), program.random.randint(2, 3)
        form = program.random.choice(["for", "for", "down", "while", "do", "goto"])
        indices = {**here.indices, index: Range(0, count - 1)}
        inside = here.deeper(indices=indices, inner=True, loop=None if form == "goto" else index)
        return cls(form, index, count, program.block(inside, program.random.randint(1, 3)))

    def write(self, out):
        k, count = self.index, self.count
        before, behind = {
            "for": ([f"for (int {k} = 0; {k} < {count}; {k}++) {{"], ["}"]),
            "down": ([f"for (int {k} = {count}; {k}-- > 0;) {{"], ["}"]),
            # (the index is counted before the body, so that a continue does not leave it out)
            "while": (["{", f"int {k} = -1;", f"while (++{k} < {count}) {{"], ["}", "}"]),
            "do": (["{", f"int {k} = -1;", "do {", f"{k}++;"], [f"}} while ({k} < {count - 1});", "}"]),
            "goto": (["{", f"int {k} = 0;", f"again_{k}: {{"], ["}", f"if (++{k} < {count}) goto again_{k};", "}"]),
        }[self.form]
        for it in before:
            out.line(it)
        out.all(self.body)
        for it in behind:
            out.line(it)

    def run(self, oracle, frame):
        try:
            for k in reversed(range(self.count)) if self.form == "down" else range(self.count):
                frame.names[self.index] = k
                try:
                    oracle.statements(self.body, frame)
                except Broken as it:
                    if it.is_break:
                        break
        finally:
            frame.names.pop(self.index, None)


class Break(Statement):
    """Leaves the loop around it, or goes on with its next round, in one of its rounds."""
    weight = 8

    def __init__(self, index, value, is_break):
        self.index, self.value, self.is_break = index, value, is_break

    @classmethod
    def draw(cls, program, here):
        return cls(here.loop, program.random.randint(0, 2), program.draw.chance(0.4)) if here.loop else None

    def write(self, out):
        out.line(f"if ({self.index} == {self.value}) {'break' if self.is_break else 'continue'};")

    def run(self, oracle, frame):
        if frame.names[self.index] == self.value:
            raise Broken(self.is_break)


class Skip(Statement):
    """A goto that leaves out what stands between it and its label."""
    weight = 2

    def __init__(self, label, text, body):
        self.label, self.text, self.holds, self.body = label, text, CONDITIONS[text], body

    @classmethod
    def draw(cls, program, here):
        if here.depth > 1:
            return None
        return cls(program.draw.name("out"), program.random.choice(list(CONDITIONS)),
                   program.block(here.deeper(inner=True), program.random.randint(1, 3)))

    def write(self, out):
        out.line(f"{{ if ({self.text}) goto {self.label};")
        out.all(self.body)
        out.line(f"{self.label}: ; }}")

    def run(self, oracle, frame):
        if not self.holds(frame.names["n"]):
            oracle.statements(self.body, frame)


class Leave(Statement):
    weight = 6

    def __init__(self, place):
        self.place = place

    @classmethod
    def draw(cls, program, here):
        if here.inner or here.depth != 1:
            return None
        return cls(program.draw.scalar(here) if program.draw.chance(0.6) else None)

    def write(self, out):
        self.line = out.line(f"return (int){self.place.text};" if self.place else "return 2;")

    def run(self, oracle, frame):
        if self.place:
            self.place.access(oracle, frame, ["read"], self.line)
        raise Return


CONTROL = [Choose, Switch, Loop, Break, Skip, Leave]
