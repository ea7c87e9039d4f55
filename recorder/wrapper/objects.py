"""What the objects of a program define and call, and what of it is not seen inside."""
import os
import re
from dataclasses import dataclass, field

from . import names
from .compiler import NAMES

VERSION = "__cilkcheck_version_"
WRAPPED = "__cilkcheck_libc_"                               # before the names of libc whose accesses the runtime tells
VTABLE = "vtable for "
# what compilers and linkers make for themselves
MADE = re.compile(r"_ZT[TISH]|_ZGV|_GLOBAL_OFFSET_TABLE_|__start_|__stop_|__cilkcheck_|_ZN\d+__cilkcheck_")
MOST_TOLD = 12


@dataclass
class Member:
    """An object, or one of an archive. One that was compiled with the pass refers to a `version`."""
    file: str
    in_archive: bool = False
    version: str = None
    defined: dict = field(default_factory=dict)             # of each name: (is weak, is code)
    undefined: set = field(default_factory=set)

    @property
    def is_recorded(self):
        return self.version is not None


def linked(all_members, roots):
    """Those that the linker takes: all objects, and of archives what defines a name that is missing."""
    taken = [not it.in_archive for it in all_members]
    missing = set(roots).union(*(it.undefined for it, is_taken in zip(all_members, taken) if is_taken))
    missing -= set().union(*(it.defined.keys() for it, is_taken in zip(all_members, taken) if is_taken))
    has_grown = True
    while has_grown:
        has_grown = False
        for at, it in enumerate(all_members):
            # (a function of libc's may be one of the archive's)
            if not taken[at] and any(name in missing or WRAPPED + name in missing for name in it.defined):
                taken[at] = has_grown = True
                missing = (missing | it.undefined) - it.defined.keys() - {WRAPPED + name for name in it.defined}
    return [it for it, is_taken in zip(all_members, taken) if is_taken]


def definers(program):
    """The member whose definition of each name the linker takes: the first one that is not weak, else the first."""
    strong, weak = {}, {}
    for it in program:
        for name, (is_weak, _) in it.defined.items():
            (weak if is_weak else strong).setdefault(name, it)
    return weak | strong


def listed(*lists):
    """The names that stand first in the lines of these lists."""
    lines = [line for name in lists for line in (NAMES / name).read_text(encoding="utf-8").splitlines()]
    return {line.split()[0] for line in lines if line and not line.startswith("#")}


@dataclass
class Seen:
    """Of a program: the functions that are called and not seen inside, and those of libc's names that are its own."""
    unseen: list
    own: list


def defines_code(member, name):
    return member.defined[name][1] or name.startswith("_ZTV")


def look(program, runtime, is_partial=False):
    """`runtime`: the names that the runtime defines. A partial link says nothing of what is missing."""
    by_name, known = definers(program), runtime | listed("redirected", "harmless")
    called, own = set(), set()
    for it in program:
        if it.is_recorded:
            for name in it.undefined:
                plain = name.removeprefix(WRAPPED)
                if name != plain and plain in by_name and defines_code(by_name[plain], plain):
                    own.add(plain)
                called.add(plain)
    unseen = set()
    for name in called:
        it = by_name.get(name)
        if it is not None:
            if not it.is_recorded and defines_code(it, name):
                unseen.add(name)
        elif not is_partial and name not in known and not MADE.match(name):
            unseen.add(name)
    return Seen(sorted(unseen), sorted(own))


def told(unseen, demangle):
    """The text that names them."""
    plain = demangle(unseen)
    texts = []
    for name in unseen:
        it = plain[name]
        is_table = it.startswith(VTABLE)
        texts.append(f"virtual functions of {names.short(it[len(VTABLE):])}" if is_table else names.short(it))
    texts = sorted(set(texts))
    more = f", .. ({len(texts)} in all)" if len(texts) > MOST_TOLD else ""
    return ", ".join(texts[:MOST_TOLD]) + more


def other_versions(program, runtime):
    """The files that were compiled for another version of the runtime than the one that defines these names."""
    return sorted({os.path.basename(it.file) for it in program if it.version and it.version not in runtime})
