#!/usr/bin/env python3
"""Runs the commands of docs/GUIDE.md for C programs in an empty folder, and compares what they print.

    page.py [--cilkcheck PATH] [--wrappers FOLDER] [--expect N]

- A block ```c FILE is the example of that name, whole, and is put into the folder.
- A block ```sh-session has commands, each behind `$ `, and what they print on standard output and error. They find
  the wrappers and the judge on the PATH; `$?` is the status of the one before.
- A block ```diff has the lines that the mended example FILE_mended.c takes out of FILE and puts into it, which is then
  done in the folder.
- The blocks ```sh-session of README.md are run first, as soon as the example is in the folder.
- .ci/pages runs and compares the other kinds of blocks (OTHERS).
"""
import difflib
import os
import re
import shutil
import subprocess
import tempfile
from pathlib import Path

import harness

README, PAGE = (harness.RECORDER.parent / it for it in ("README.md", "docs/GUIDE.md"))
EXAMPLES = harness.RECORDER / "examples"
OTHERS = ("cilk", "console")


class Reader:
    """What a reader of the page has come to."""

    def __init__(self, given, room):
        self.room, self.page, self.status, self.source, self.checks, self.failures = Path(room), PAGE, 0, None, 0, []
        tools = self.room / "tools"
        tools.mkdir()
        (tools / "cilkcheck").symlink_to(given.cilkcheck.resolve())
        self.folder = self.room / "folder"
        self.folder.mkdir()
        self.env = {**harness.ENVIRONMENT, "PATH": f"{tools}:{given.wrappers.resolve()}:{harness.ENVIRONMENT['PATH']}"}

    def check(self, line, holds, said):
        self.checks += 1
        if not holds:
            self.failures += harness.shown([f"{self.page.name}:{line}: {said}"])

    def take_file(self, line, name, text):
        self.source = name
        self.check(line, (EXAMPLES / name).read_text() == text, f"the block is not recorder/examples/{name}")
        (self.folder / name).write_text(text)

    def mend(self, line, text):
        mended = EXAMPLES / f"{Path(self.source).stem}_mended.c"
        before, after = (self.folder / self.source).read_text().splitlines(), mended.read_text().splitlines()
        changed = [it for it in difflib.ndiff(before, after) if it[0] in "+-"]
        self.check(line, [it[0] + it[2:] for it in changed] == text.splitlines(), f"{mended.name} is changed by {changed}")
        shutil.copy(mended, self.folder / self.source)

    def run_readme(self):
        self.page = README
        for line, words, text in blocks(README.read_text()):
            if words[0] == "sh-session":
                self.run_block(line, text)
        self.page = PAGE

    def run_block(self, line, text):
        for it in commands(line, text):
            self.run(*it)

    def run(self, line, command, wanted):
        ran = subprocess.run(["bash", "-c", f"(exit {self.status})\n{command}"], cwd=self.folder, env=self.env, stdin=subprocess.DEVNULL, capture_output=True, text=True, timeout=harness.SECONDS)
        # (on a terminal what a program prints comes before what the recorder says at its end)
        printed, self.status = ran.stdout + ran.stderr, ran.returncode
        self.check(line, printed == wanted, f"{command}\nprints:\n{printed}and the page says:\n{wanted}")


def blocks(text):
    """The blocks of a page that have a kind: the number of their first line, the words behind the fence, their text."""
    for found in re.finditer(r"^```(\S.*)\n((?:.*\n)*?)```$", text, re.M):
        yield text.count("\n", 0, found.start()) + 2, found[1].split(), found[2]


def commands(first, text):
    """The commands of a block: the number of the line, the command, what it has to print."""
    found = []
    for number, line in enumerate(text.splitlines(), first):
        if line.startswith("$ "):
            found.append([number, line[2:], ""])
        else:
            found[-1][2] += line + "\n"
    return found


def main():
    given = harness.parser(__doc__).parse_args()
    with tempfile.TemporaryDirectory(prefix="cilkcheck-page-") as room:
        reader = Reader(given, room)
        for line, words, text in blocks(PAGE.read_text()):
            if words[0] == "c":
                reader.take_file(line, words[1], text)
                reader.run_readme()
            elif words[0] == "diff":
                reader.mend(line, text)
            elif words[0] == "sh-session":
                reader.run_block(line, text)
            elif words[0] not in OTHERS:
                reader.check(line, False, f"a block of another kind: {words}")
        kept = sorted(os.listdir(reader.folder))
    harness.finish("page", reader.checks, reader.failures + [it for it in kept if it not in ("words", "words.c", "words.trace")], given.expect)


if __name__ == "__main__":
    main()
