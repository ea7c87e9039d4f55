"""Types of the random programs, what holds their elements (bases), and what a statement names (places).

A base is the name of an array, a pointer or a reference. `begin` gives its first byte as the oracle knows it, and tells
the reads that lead there. A place is an element, a field of one, or some bytes of one by a cast.
"""
from typing import NamedTuple

READ, WRITE, LOAD, UPDATE = "read", "write", "atomic load", "atomic update"
POINTER_SIZE = 8


class Type:
    """`shown`: the field that stands for a whole structure where a number is wanted."""

    def __init__(self, name, size, fields=(), shown=""):
        self.name, self.size, self.fields, self.shown = name, size, dict(fields), shown


class Field(NamedTuple):
    """`unit`: offset and size of a bit-field's storage unit, which each access of the bit-field reads, and each write
    writes as well. `is_aligned`: its address may be handed on as a pointer to its type."""
    type: Type
    offset: int
    unit: tuple = None
    is_aligned: bool = True


CHAR, SHORT, INT, LONG = Type("char", 1), Type("short", 2), Type("int", 4), Type("long", 8)
WIDE = Type("__int128", 16)
SCALARS = [CHAR, SHORT, INT, LONG]
STRUCT = Type("struct five", 16, {
    "d": Field(LONG, 0), "c": Field(INT, 8), "b": Field(SHORT, 12), "a": Field(CHAR, 14), "e": Field(CHAR, 15)}, ".c")
UNION = Type("union mixed", 8, {
    "l": Field(LONG, 0), "i[0]": Field(INT, 0), "i[1]": Field(INT, 4), "s[1]": Field(SHORT, 2),
    "c[5]": Field(CHAR, 5)}, ".l")
PACKED = Type("struct packed", 15, {
    "c": Field(CHAR, 0), "i": Field(INT, 1, is_aligned=False), "s": Field(SHORT, 5, is_aligned=False),
    "l": Field(LONG, 7, is_aligned=False)}, ".i")
# Each run of bit-fields fills its bytes and ends at a plain member, so that its storage unit is just these bytes in
# every release of clang.
BITS = Type("struct bits", 12, {
    "a": Field(INT, 0, (0, 1), False), "b": Field(INT, 0, (0, 1), False), "g": Field(CHAR, 1),
    "c": Field(INT, 2, (2, 2), False), "d": Field(INT, 2, (2, 2), False), "h": Field(INT, 4),
    "e": Field(INT, 8, (8, 4), False), "f": Field(INT, 8, (8, 4), False)}, ".h")
STRUCTURES = [STRUCT, UNION, PACKED, BITS]
TYPES_HEADER = """\
struct five {
  long d; int c; short b; char a; char e;
#ifdef __cplusplus
  int add(int k) {
    c += k;
    return k;
  }
#endif
};
union mixed { long l; int i[2]; short s[4]; char c[8]; };
struct __attribute__((packed)) packed { char c; int i; short s; long l; };
struct bits { unsigned a : 3, b : 5; char g; unsigned short c : 7, d : 9; int h; unsigned e : 20, f : 12; };
typedef short __attribute__((aligned(1), may_alias)) any_short;
typedef int __attribute__((aligned(1), may_alias)) any_int;
typedef long __attribute__((aligned(1), may_alias)) any_long;
typedef char any_char;""".split("\n")


class Base:
    """An array, or a pointer that no statement changes; a reference or a single variable (`is_single`) is its only
    element."""
    is_direct = True    # no read leads to its elements
    is_constant = False
    may_move = False    # a pointer to its elements may not be kept

    def __init__(self, name, type_, count, is_single=False):
        self.name, self.type, self.count, self.is_single = name, type_, count, is_single

    def begin(self, oracle, frame, line):
        return frame.names[self.name] if self.name in frame.names else (self.name, 0)

    def element(self, index):
        return self.name if self.is_single else f"{self.name}[{index}]"

    def first(self):
        return f"&{self.name}" if self.is_single else self.name

    def room(self, index):
        """How many elements stand from this index on, one behind the other."""
        return self.count - index

    def has_room(self, extent):
        return any(self.room(k) >= extent for k in range(self.count))

    def takes(self, last):
        """Whether a loop's index may be used, and reach this element."""
        return not self.is_single


class Constant(Base):
    is_constant = True


class Table(Base):
    """An array of arrays. A loop's index goes along its first row."""

    def __init__(self, name, type_, rows, columns):
        super().__init__(name, type_, rows * columns)
        self.columns = columns

    def element(self, index):
        row, column = (0, index) if isinstance(index, str) else divmod(index, self.columns)
        return f"{self.name}[{row}][{column}]"

    def room(self, index):
        return self.columns - index % self.columns

    def takes(self, last):
        return last < self.columns


class Pointer(Base):
    """A variable that points to `count` elements at least, and is set to others; `targets` are the bases that live as
    long as it does."""
    is_direct = False
    may_move = True

    def __init__(self, name, type_, count, targets):
        super().__init__(name, type_, count)
        self.targets = targets

    def variable(self, frame):
        return frame.names[self.name] if self.name in frame.names else (self.name, 0)

    def begin(self, oracle, frame, line):
        oracle.access(frame, self.variable(frame), POINTER_SIZE, READ, line)
        return oracle.values[self.variable(frame)]


class Block(Base):
    """A block of the heap. The variable that holds it is written by its own strand (`realloc`) while children may read
    it."""
    is_direct = False
    may_move = True

    def begin(self, oracle, frame, line):
        variable = frame.names[self.name]
        oracle.access(frame, variable, POINTER_SIZE, READ, line)
        return oracle.values[variable]


class Element:
    """An element of a base, or a field of one. The index is a number or the name of a loop's index."""

    def __init__(self, base, index, field=None):
        self.base, self.index, self.name = base, index, base.name
        found = base.type.fields[field] if field else Field(base.type, 0)
        self.type, self.offset, self.unit = found.type, found.offset, found.unit
        self.is_aligned, self.size = found.is_aligned, found.type.size
        self.text = base.element(index) + (f".{field}" if field else "")

    def locate(self, oracle, frame, line):
        life, offset = self.base.begin(oracle, frame, line)
        index = frame.names[self.index] if isinstance(self.index, str) else self.index
        return life, offset + index * self.base.type.size

    def access(self, oracle, frame, kinds, line):
        """Accesses what it names. A bit-field that is written is read as well."""
        life, offset = self.locate(oracle, frame, line)
        at, size = self.unit or (self.offset, self.size)
        for kind in (READ, WRITE) if self.unit and WRITE in kinds else kinds:
            oracle.access(frame, (life, offset + at), size, kind, line)

    def at(self, oracle, frame, line):
        """Its first byte, for who takes its address."""
        life, offset = self.locate(oracle, frame, line)
        return life, offset + self.offset


class Cast:
    """Some bytes of a base as a number of another size, at any offset."""
    unit, is_aligned = None, False

    def __init__(self, base, offset, type_):
        self.base, self.offset, self.type, self.size, self.name = base, offset, type_, type_.size, base.name
        self.text = f"(*(any_{type_.name} *)((char *){base.first()} + {offset}))"

    def at(self, oracle, frame, line):
        life, offset = self.base.begin(oracle, frame, line)
        return life, offset + self.offset

    def access(self, oracle, frame, kinds, line):
        at = self.at(oracle, frame, line)
        for kind in kinds:
            oracle.access(frame, at, self.size, kind, line)


class Literal:
    """A compound literal, for who takes its address. Its object lives as long as the block around it: here the
    function's."""

    def __init__(self, type_, count):
        self.type, self.size = type_, type_.size * count
        values = ", ".join(map(str, range(1, count + 1)))
        self.text = f"({type_.name}[{count}]){{{values}}}[0]"

    def at(self, oracle, frame, line):
        life = oracle.life()
        oracle.access(frame, life, self.size, WRITE, line)
        return life
