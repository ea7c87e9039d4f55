"""Objects, archives and programs as files: their symbols, and the rows of what is not seen. No machine code is read."""
import mmap
import os
import struct
from contextlib import contextmanager

from .objects import VERSION, Member

EXECUTABLE = 4                                              # a section's flag
SYMTAB, DYNSYM = 2, 11                                      # its type
ABSENT, OUT_OF_ROOM = 0, 0xffff                             # a symbol's section
FUNCTIONS, UNTYPED = (2, 10), 0                             # its type
LOCAL, WEAK, UNIQUE = 0, 2, 10                              # its binding
DYNAMIC = 3                                                 # a file's type
NOTES, NOTE = "cilkcheck_notes", struct.Struct("<iiII")     # pass/rows.h
ARCHIVE, THIN = b"!<arch>\n", b"!<thin>\n"
HEAD = 60                                                   # bytes before an archive's member


@contextmanager
def mapped(path):
    with open(path, "rb") as file:
        if os.fstat(file.fileno()).st_size == 0:
            yield b""
            return
        with mmap.mmap(file.fileno(), 0, access=mmap.ACCESS_READ) as image:
            yield image


class Elf:
    """A 64-bit ELF file that begins at `start` of an image; `sections` is empty where it is none."""

    def __init__(self, image, start=0):
        self.image, self.start, self.sections, self.names = image, start, [], 0
        if image[start:start + 6] != b"\x7fELF\x02\x01":
            return
        self.type, = struct.unpack_from("<H", image, start + 16)
        table, = struct.unpack_from("<Q", image, start + 0x28)
        size, count, names = struct.unpack_from("<HHH", image, start + 0x3A)
        if not table:
            return
        row = struct.Struct("<IIQQQQIIQQ")
        first = row.unpack_from(image, start + table)
        count, names = count or first[5], first[6] if names == OUT_OF_ROOM else names
        self.sections = [row.unpack_from(image, start + table + at * size) for at in range(count)]
        self.names = self.sections[names][4]

    def text(self, at):
        """The text that begins at an offset."""
        at += self.start
        return self.image[at:self.image.find(b"\0", at)].decode("utf-8", "surrogateescape")

    def section(self, name):
        return next((it for it in self.sections if self.text(self.names + it[0]) == name), None)

    def symbols(self):
        """(name, is undefined, is weak, is code) of each that other files see."""
        wanted = DYNSYM if self.sections and self.type == DYNAMIC else SYMTAB
        for table in self.sections:
            if table[1] != wanted:
                continue
            begin, names = self.start + table[4], self.sections[table[6]][4]
            for name, info, _, section, _, _ in struct.iter_unpack("<IBBHQQ", self.image[begin:begin + table[5]]):
                if info >> 4 == LOCAL or not name:
                    continue
                kind, is_code = info & 15, False
                if kind == UNTYPED and 0 < section < len(self.sections):
                    is_code = bool(self.sections[section][2] & EXECUTABLE)
                is_code |= kind in FUNCTIONS
                yield self.text(names + name), section == ABSENT, info >> 4 in (WEAK, UNIQUE), is_code


def member(elf, path, in_archive=False):
    it = Member(path, in_archive)
    for name, is_undefined, is_weak, is_code in elf.symbols():
        name = name.partition("@")[0]
        if is_undefined:
            it.undefined.add(name)
            if name.startswith(VERSION):
                it.version = name
        else:
            it.defined[name] = (is_weak, is_code)
    return it


def archived(image, path):
    """The members of an archive. Those of a thin one are files beside it."""
    is_thin, names, at = image[:8] == THIN, b"", 8
    while at + HEAD <= len(image):
        name, size = image[at:at + 16].rstrip(b" "), int(image[at + 48:at + 58] or b"0")
        begin = at + HEAD
        is_table = name in (b"/", b"//", b"/SYM64/")
        if name == b"//":
            names = image[begin:begin + size]
        elif not is_table and not is_thin:
            yield member(Elf(image, begin), path, True)
        elif not is_table:
            place = int(name[1:]) if name[1:].isdigit() else None
            told = names[place:names.index(b"/\n", place)] if place is not None else name.rstrip(b"/")
            for it in members(os.path.join(os.path.dirname(path), os.fsdecode(told))):
                it.in_archive = True
                yield it
        at = begin + (size + size % 2 if is_table or not is_thin else 0)


def members(path):
    """The objects in a file: one, or those of an archive, in order; none where it is neither."""
    try:
        with mapped(path) as image:
            if image[:8] in (ARCHIVE, THIN):
                return list(archived(image, path))
            elf = Elf(image)
            return [member(elf, path)] if elf.sections else []
    except (OSError, ValueError, struct.error, IndexError):
        # (the linker says what is wrong with it)
        return []


def notes(program):
    """The rows of what is not seen that name a place, as FILE:LINE: WHAT."""
    with mapped(program) as image:
        elf = Elf(image)
        table = elf.section(NOTES)
        if not table:
            return []
        address, offset, size = table[3:6]

        def target(at):
            """The text to which the reference in the file at `at` leads."""
            far, = struct.unpack_from("<i", image, at)
            wanted = address + at - offset + far
            place = next((it for it in elf.sections if it[3] and it[3] <= wanted < it[3] + it[5]), None)
            return elf.text(place[4] + wanted - place[3]) if place else "?"

        told = set()
        for at in range(offset, offset + size - NOTE.size + 1, NOTE.size):
            file, _, line, _ = NOTE.unpack_from(image, at)
            if file:
                told.add(f"{target(at)}:{line}: {target(at + 4)}")
        return sorted(told)
