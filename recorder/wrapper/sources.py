"""Compiles one source: clang says what it has to say of the user's text, which is rewritten and compiled meanwhile."""
import os
import re
import subprocess
import sys
from pathlib import Path

from .compiler import RECORDER, REFUSED, environment, flags
from .processes import Failed

INCLUDE = RECORDER / "include"
OURS = ["-D__CILKCHECK__=1", "-isystem", str(INCLUDE)]
# a #pragma omp that nobody reads is worth a warning, and no error
OPENMP_UNREAD = ["-Wsource-uses-openmp", "-Wno-error=source-uses-openmp"]
# what is told of the rewritten text is one line
TERSE = ["-fno-crash-diagnostics", "-fno-color-diagnostics", "-fno-caret-diagnostics"]
# each object that was compiled with the pass refers to it
MARK = b"__cilkcheck_version_"
# clang 14 crashes on some untied tasks; to a serial run the clause means nothing
UNTIED = re.compile(r"^([ \t]*#[ \t]*pragma[ \t]+omp[ \t]+task(?:loop)?\b.*?)\buntied\b,?", re.M)
MESSAGE = re.compile(r"^(?P<place>[^\n:]+:\d+)(?::\d+)*: (?:fatal )?error: (?P<why>.*)$", re.M)
INTERNAL = re.compile(r"cilkcheck|__cxx|\.omp|\.ii?\b")


def elision():
    """What makes clang take a program as its serial elision. (The rewriter is imported while clang preprocesses.)"""
    from rewriter import ELISION
    return [*OURS, "-D__CILKCHECK_ELISION__=1", *ELISION]


def spool(source):
    """The source as bytes, where it can be read only once: standard input, a pipe, a device."""
    if source.name == "-":
        return sys.stdin.buffer.read()
    if os.path.exists(source.name) and not os.path.isfile(source.name):
        with open(source.name, "rb") as file:
            # (its lines are told by its name)
            return b'# 1 "%s"\n' % os.fsencode(source.name) + file.read()
    return None


class Source:
    """One source of a command line, and how it is compiled."""

    def __init__(self, session, commands, compiler, plugin, cxx, source):
        self.session, self.commands, self.plugin, self.source = session, commands, plugin, source
        self.driver = compiler.driver(cxx)
        self.openmp = ["-fopenmp"] if commands.openmp else []
        self.is_cxx = source.is_cxx
        self.text = spool(source)

    def input(self, language=None):
        """The arguments that name the source."""
        language = language or (self.source.language if self.source.given or self.text is not None else None)
        return [*(["-x", language] if language else []), "-" if self.text is not None else self.source.path]

    def start(self, words, given=None, **how):
        """Starts a process that reads what was spooled, where something was."""
        given = self.text if given is None else given
        if given is None:
            return self.session.start(words, stdin=subprocess.DEVNULL, **how)
        with os.fdopen(os.memfd_create("source"), "w+b") as file:
            file.write(given)
            file.flush()
            file.seek(0)
            return self.session.start(words, stdin=file, **how)

    def speaks(self):
        """clang on the user's text, without the keywords: its errors, its warnings, its list of dependencies."""
        unread = [] if self.commands.openmp else OPENMP_UNREAD
        is_preprocessed = "cpp-output" in self.source.language
        # (only what is preprocessed has its macros replaced)
        language = {"cpp-output": "c", "c++-cpp-output": "c++"}[self.source.language] if is_preprocessed else None
        undefined = ["-undef"] if is_preprocessed else []
        words = [*unread, *self.commands.for_syntax(), *self.openmp, *elision(), *undefined, "-fsyntax-only"]
        return self.start([*self.driver, *words, *self.input(language)])

    def preprocessing(self):
        """The preprocessor, where the text is not behind it already."""
        if "cpp-output" in self.source.language:
            return None
        words = [*self.driver, "-w", *self.commands.for_preprocessing(), *self.openmp, *OURS, "-U_FORTIFY_SOURCE", "-E"]
        return self.start([*words, *self.input()], stdout=subprocess.PIPE, stderr=subprocess.DEVNULL)

    def preprocessed(self, child):
        """The text behind the preprocessor, or None where there is none."""
        if child is None:
            try:
                return self.text if self.text is not None else Path(self.source.name).read_bytes()
            except OSError:
                return None
        text = child.stdout.read()
        child.stdout.close()
        return None if child.wait() else text

    def rewritten(self, text):
        from rewriter import rewrite
        text = rewrite(text.decode("utf-8", "surrogateescape"), self.is_cxx, self.commands.openmp)
        if self.commands.openmp:
            text = UNTIED.sub(r"\1", text)
        return text.encode("utf-8", "surrogateescape")

    def compiling(self, text, stage, target):
        """The compiler on the rewritten text."""
        openmp = ["-fopenmp"] if b"#pragma omp" in text or re.search(rb"#[ \t]*pragma[ \t]+omp\b", text) else []
        language = "c++-cpp-output" if self.is_cxx else "cpp-output"
        words = [*self.driver, *self.commands.for_compiling(), *openmp, "-w", *flags(self.plugin), *TERSE, stage]
        how = {"stdout": subprocess.DEVNULL, "stderr": subprocess.PIPE, "env": environment()}
        return self.start([*words, "-x", language, "-", "-o", target], text, **how)

    def compile(self, stage, target):
        """Compiles to the target. What clang has to say comes first; where it has errors, nothing else is said."""
        reader = self.preprocessing()
        speaker = self.speaks()
        from rewriter import Refused
        fault, child = None, None
        try:
            text = self.preprocessed(reader)
            if text is not None:
                child = self.compiling(self.rewritten(text), stage, target)
        except Refused as it:
            fault = Failed(REFUSED, f"refused: {it}")
        status = speaker.wait()
        if status:
            raise Failed(status if status > 0 else 1)
        if fault:
            raise fault
        if child is None:
            raise Failed(1, f"{self.source.name}: clang does not preprocess it")
        said = child.stderr.read().decode("utf-8", "replace")
        child.stderr.close()
        if child.wait():
            if child.returncode != REFUSED:
                self.compile_alone()
            raise self.unrecorded(said, child.returncode)
        if not is_marked(target):
            raise Failed(REFUSED, f"refused: {self.source.name}: an option keeps the compiler pass from running")

    def compile_alone(self):
        """Compiles the user's text without the pass: what its code generator refuses, as of inline assembly, clang says itself."""
        options = [*self.commands.for_preprocessing(), *self.commands.for_compiling(), *self.openmp, *elision(), "-w"]
        status = self.start([*self.driver, *options, "-c", *self.input(), "-o", os.devnull]).wait()
        if status:
            raise Failed(status if status > 0 else 1)

    def unrecorded(self, said, status):
        """Why the rewritten text was not compiled, though clang takes the user's."""
        found = MESSAGE.search(said)
        if found:
            # (the pass has its own words, clang names what the rewriter wrote)
            is_plain = status == REFUSED or not INTERNAL.search(found["why"])
            why = found["why"] if is_plain else "this statement cannot be recorded"
            return Failed(REFUSED, f"refused: {found['place'].removeprefix('./')}: {why}")
        lines = [it for it in said.splitlines() if "error:" in it] or said.splitlines() or ["no message"]
        if re.search(r"No space left|File too large|unable to open output|IO failure", said):
            return Failed(1, re.sub(r"^.*?error: (error in backend: )?", "", lines[0]))
        return Failed(REFUSED, f"refused: {self.source.name}: clang fails with the pass: {lines[0]}")


def is_marked(target):
    with open(target, "rb") as file:
        return MARK in file.read()
