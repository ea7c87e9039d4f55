#!/usr/bin/env python3
"""The pass by itself: what it tells of each line of the files beside this one, as the comments there say.

    run.py [--clang clang-14] [--plugin FILE] [--expect N] [--show] [FILE ..]

A comment stands on the line of what it speaks of:

    /* told: read4 g_x; write4 p->y */   these accesses, in this order: read, write, load (atomic), bump (an atomic
                                         store or update) or either (a compare-exchange), the bytes (`?`: known when
                                         it runs) and the name, if it has one
    /* frame: x 4, y 16 */               a hooked function, with these locals; `frame: none`: hooked, with no local
    /* dynamic: v */                     an array whose length only the run knows
    /* object: 4 */                      a global or static object of so many bytes
    /* note: inline assembly */          what is not seen
    /* told nowhere: write4 g_x */       told, without a line

A line without one tells nothing, leaves no note, and is of no hooked function. `at: O0` or `at: O2` before a comment
limits it to one level.
"""
import argparse
import os
import re
import subprocess
import sys
import tempfile
from pathlib import Path

HERE = Path(__file__).resolve().parent
SIZED = (1, 2, 4, 8, 16)
KINDS = {"0": "read", "1": "load", "2": "bump", "3": "write"}
COMMENT = re.compile(r"(?:at: (O\d) )?\b(told nowhere|told|frame|dynamic|object|note): "
                     r"([^*]*(?:\*(?!/)[^*]*)*?)\s*(?=$|\*/|\bat: O\d)")


def split(text):
    """The parts of TEXT between commas that stand in no bracket."""
    parts, depth, last = [], 0, 0
    for at, c in enumerate(text):
        depth += (c in "([{<") - (c in ")]}>")
        if c == "," and depth == 0:
            parts.append(text[last:at].strip())
            last = at + 1
    return parts + [text[last:].strip()]


class Module:
    """What is told in a file of LLVM's text."""

    def __init__(self, text):
        self.texts, self.tables, self.names = {}, {}, {}
        self.told, self.frames, self.dynamics, self.notes, self.objects = [], [], [], [], []
        lines = text.splitlines()
        for line in lines:
            if m := re.match(r'@(cilkcheck\.text[.\d]*) = .* c"(.*)\\00"', line):
                self.texts[m[1]] = re.sub(r"\\([0-9A-F]{2})", lambda it: chr(int(it[1], 16)), m[2])
        for line in lines:
            if m := re.match(r'@(\w+[.\d]*) = .*?\bconstant \[\d+ x (\{.*?\})\] \[(.*)\], section "cilkcheck_(\w+)"',
                             line):
                self.tables[m[1]] = [self.row(row[len(m[2]):].strip()) for row in split(m[3])]
                if m[4] == "notes":
                    self.notes += [(row[2], row[1]) for row in self.tables[m[1]]]
                if m[4] == "objects":
                    self.objects += [(row[4], row[1], row[2]) for row in self.tables[m[1]]]
        function = None
        for line in lines:
            if m := re.match(r'define .*?@"?([\w.$]+)"?\(', line):
                function = m[1]
            elif m := re.search(r"call void @__cilkcheck_(read|write|access|dynamic|enter)(\d*)\((.*)\)", line):
                self.hook(function, m[1], m[2], split(m[3]))

    def row(self, text):
        """A row's fields: texts and numbers."""
        fields = []
        for field in split(text.strip("{} ")):
            if m := re.search(r"@(cilkcheck\.text[.\d]*)", field):
                fields.append(self.texts[m[1]])
            elif m := re.search(r"ptrtoint \(.*?@(\w+[.\d]*) to", field):
                fields.append("@" + m[1])
            else:
                fields.append(int(field.split()[-1]) if re.search(r"\d$", field) else 0)
        return fields

    def reference(self, text):
        """The row that an operand leads to."""
        if m := re.fullmatch(r".*@(\w+[.\d]*)(?: to \w+\*?\))?", text):
            return self.tables[m[1]][0]
        if m := re.search(r"\(i8, (?:i8\*|ptr) (?:bitcast \()?.*@(\w+[.\d]*).*, i64 (\d+)\)", text):
            return self.tables[m[1]][int(m[2]) // 32]
        m = re.search(r"@(\w+[.\d]*), i64 0, i64 (\d+)", text)
        return self.tables[m[1]][int(m[2])] if m else None

    def hook(self, function, what, size, operands):
        if what == "enter":
            row = self.reference(operands[2])
            rows = self.tables[row[2][1:]] if row[2] else []
            self.frames.append((row[3], [(it[0] or "-", it[2]) for it in rows]))
            return
        row = self.reference(operands[-1])
        line, name, home = (row[4], row[2] or "", row[1]) if row else (0, "?", "?")
        if what == "dynamic":
            self.dynamics.append((line, name))
            return
        if what == "access":
            bytes_ = operands[1].split()[-1]
            kind = KINDS.get(operands[2].split()[-1], "either")
            size = bytes_ if bytes_.isdigit() else "?"
            if kind in ("read", "write") and size.isdigit() and int(size) in SIZED:
                kind = "access-" + kind
        else:
            kind = what
        self.told.append((line, f"{kind}{size} {name}".strip(), home, function))


def expected(path, level):
    """By line: each kind of comment and what it says."""
    found = {}
    for number, line in enumerate(path.read_text().splitlines(), 1):
        for comment in re.findall(r"/\*.*?\*/|//.*", line):
            for m in COMMENT.finditer(comment):
                if m[1] in (None, level) and m[2] == "told nowhere":
                    found.setdefault("told", {})[0] = m[3].strip()
                elif m[1] in (None, level):
                    found.setdefault(m[2], {})[number] = m[3].strip()
    return found


def rows_of(text):
    """The locals that a comment lists."""
    return [] if text == "none" else [(it.split()[0], int(it.split()[1])) for it in text.split(",")]


def is_of(home, function):
    """Whether HOME is the name in the source of a function of the module."""
    if home == "operator()":
        return "cl" in function
    return home.lstrip("~") in function and (home[0] != "~" or re.search("D[0-2]", function))


def compare(path, level, module):
    """What is otherwise than the comments say, and how many comments were looked at."""
    wanted, wrong = expected(path, level), []

    def check(kind, seen, form):
        lines = wanted.get(kind, {})
        for line in sorted(set(lines) | set(seen)):
            if line in lines and form(lines[line]) == seen.get(line):
                continue
            told = seen.get(line, "nothing"), lines.get(line, "nothing")
            wrong.append(f"{path.name}:{line}: -{level}: {kind}: {told[0]}, not {told[1]}")
        return len(lines)

    told, frames, dynamics, notes, objects = {}, {}, {}, {}, {}
    for line, what, home, function in module.told:
        if is_of(home, function):                           # else an inlined copy
            told.setdefault(line, []).append(what)
    for line, rows in module.frames:
        frames[line] = rows
    for line, name in module.dynamics:
        dynamics.setdefault(line, []).append(name)
    for line, text in module.notes:
        notes.setdefault(line, []).append(text)
    for line, bytes_, name in module.objects:
        if line:
            objects.setdefault(line, []).append(bytes_)
    listed = lambda text: [it.strip() for it in text.split(";")]
    count = check("told", told, listed)
    count += check("frame", frames, rows_of)
    count += check("dynamic", dynamics, listed)
    count += check("note", notes, listed)
    count += check("object", objects, lambda text: [int(it) for it in text.split(";")])
    return wrong, count


def main():
    options = argparse.ArgumentParser()
    options.add_argument("--clang", default="clang-14")
    options.add_argument("--plugin")
    options.add_argument("--expect", type=int)
    options.add_argument("--show", action="store_true")
    options.add_argument("files", nargs="*", type=Path)
    options = options.parse_args()
    version = subprocess.run([options.clang, "-dumpversion"], capture_output=True, text=True, check=True).stdout.strip()
    plugin = options.plugin or HERE.parent / "out" / version / "cilkcheck.so"
    environment = dict(os.environ, CILKCHECK_NAMES=str(HERE.parent.parent / "names"))
    count, wrong = 0, []
    with tempfile.TemporaryDirectory() as folder:
        for path in options.files or sorted([*HERE.glob("*.c"), *HERE.glob("*.cpp")]):
            if path.name == "printing.c":
                continue
            first = path.read_text().split("\n", 1)[0]
            flags = re.findall(r"flags: (.*?) *\*/", first)
            for level in ("O0", "O2"):
                out = Path(folder) / "out.ll"
                command = [options.clang, f"-{level}", "-g", "-w", "-fno-builtin", f"-fpass-plugin={plugin}",
                           *(flags[0].split() if flags else []), "-S", "-emit-llvm", str(path), "-o", str(out)]
                done = subprocess.run(command, env=environment, capture_output=True, text=True)
                if done.returncode:
                    wrong.append(f"{path.name}: -{level}: {done.stderr}")
                    continue
                module = Module(out.read_text())
                if options.show:
                    for line, what, home, function in module.told:
                        print(f"{path.name}:{line}: {level} {function}: {what} (of {home})")
                    for it in module.frames:
                        print("frame", it)
                bad, checks = compare(path, level, module)
                wrong += bad
                count += checks
    for it in wrong:
        print(it)
    print(f"{options.clang}: {count} comments, {len(wrong)} not as told")
    if options.expect is not None and count != options.expect:
        print(f"{options.expect} comments were expected")
        return 1
    return 1 if wrong else 0


if __name__ == "__main__":
    sys.exit(main())
