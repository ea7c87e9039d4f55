"""What a statement may use where it stands, and how places are drawn."""
from dataclasses import dataclass, field, replace
from typing import NamedTuple

from .places import BITS, CHAR, INT, LONG, PACKED, SCALARS, SHORT, STRUCT, UNION, WIDE, Cast, Element

CONDITIONS = {"n > 0": lambda n: n > 0, "n % 2 == 0": lambda n: n % 2 == 0, "n == 2": lambda n: n == 2}


class Range(NamedTuple):
    """The least and the greatest value of a loop's index. The index of a plain loop changes, so that no child may share
    it."""
    low: int
    high: int
    is_steady: bool = False


@dataclass
class Here:
    """inner: inside of a child or a loop, where no name of the function is declared and nothing is returned. loop: the
    index of the plain loop that a break would leave. throws: an exception may leave this place."""
    function: object
    scope: list
    indices: dict = field(default_factory=dict)
    depth: int = 0
    inner: bool = False
    loop: str = None
    throws: bool = False

    def deeper(self, **changed):
        return replace(self, **{"scope": list(self.scope), "depth": self.depth + 1, **changed})

    def in_child(self, **changed):
        """Inside of a child: no index that its spawner changes, no loop to leave."""
        indices = {name: it for name, it in self.indices.items() if it.is_steady}
        return self.deeper(**{"inner": True, "loop": None, "indices": indices, **changed})


class Drawing:
    """Draws places for a program, with its random numbers."""

    def __init__(self, random, bases):
        self.random, self.bases, self.unique = random, bases, 0

    def name(self, letter):
        self.unique += 1
        return f"{letter}{self.unique}"

    def chance(self, part):
        return self.random.random() < part

    def type(self):
        types = [*SCALARS, INT, STRUCT]
        return self.random.choice([*types, STRUCT, UNION, PACKED, BITS, WIDE] if self.chance(0.5) else types)

    def base(self, here, wanted=lambda base: True, constant=False):
        def usable(it):
            return wanted(it) and (constant or not it.is_constant)
        ours, others = [it for it in here.scope if usable(it)], [it for it in self.bases if usable(it)]
        found = ours if ours and (self.chance(0.6) or not others) else others
        return self.random.choice(found) if found else None

    def index(self, base, here, extent=1):
        usable = [name for name, it in here.indices.items()
                  if it.low >= 0 and it.high + extent <= base.count and base.takes(it.high + extent - 1)]
        if usable and self.chance(0.7):
            return self.random.choice(usable)
        return self.random.choice([k for k in range(base.count) if base.room(k) >= extent])

    def scalar(self, here, wanted=lambda base: True, constant=False, aligned=False):
        """A number in memory. `aligned`: one whose address may be taken."""
        base = self.base(here, wanted, constant)
        if not aligned and not base.is_constant and self.chance(0.1):
            type_ = self.random.choice([CHAR, SHORT, INT, LONG])
            room = base.type.size * base.room(0)
            if room >= type_.size:
                return Cast(base, self.random.randint(0, room - type_.size), type_)
        fields = [name for name, it in base.type.fields.items() if it.is_aligned or not aligned]
        return Element(base, self.index(base, here), self.random.choice(fields) if fields else None)

    def direct(self, here, aligned=False):
        """A number whose place is known without a read, so that nothing hangs on when the place is computed."""
        return self.scalar(here, lambda it: it.is_direct, aligned=aligned)

    def whole(self, here, wanted, extent=1, constant=False):
        """So many elements, or None."""
        base = self.base(here, lambda it: wanted(it) and it.has_room(extent), constant)
        return base and Element(base, self.index(base, here, extent))

    def argument(self, parameter, here):
        """A place that a function with this parameter takes: so many elements of its type, or a field."""
        if parameter.count == 1 and self.chance(0.3):
            places = [(type_, name) for type_ in (STRUCT, UNION, BITS) for name, it in type_.fields.items()
                      if it.type is parameter.type and it.is_aligned]
            if places:
                type_, field_ = self.random.choice(places)
                base = self.base(here, lambda it: it.type is type_)
                return Element(base, self.index(base, here), field_)
        return self.whole(here, lambda it: it.type is parameter.type, parameter.count)


class Statement:
    """One construct. `weight`: how often it is drawn; `only`: the language that has it, "c" or "c++"."""
    weight, only = 0, None
    declared = ()          # bases that are in scope behind it
    line = None

    @classmethod
    def draw(cls, program, here):
        """A statement for this place, or None."""
        raise NotImplementedError

    def write(self, out):
        raise NotImplementedError

    def run(self, oracle, frame):
        raise NotImplementedError


class Lines:
    """The text of a source. While statements are joined they stand in one line."""

    def __init__(self, lines):
        self.lines, self.joined = lines, None

    def line(self, text):
        if self.joined is not None:
            self.joined.append(text)
            return len(self.lines) + 1
        self.lines.append(text)
        return len(self.lines)

    def all(self, statements):
        for it in statements:
            it.write(self)

    def join(self, statements):
        """The text of statements whose line is the next one."""
        self.joined = []
        self.all(statements)
        text, self.joined = " ".join(self.joined), None
        return text
