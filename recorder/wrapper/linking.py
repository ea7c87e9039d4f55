"""Links a recorded program: with the runtime, with a note of what is not seen, and under its name when it is whole."""
import fcntl
import os
import shutil
import subprocess
import sys
from pathlib import Path

from . import elf, objects
from .command_line import RECORDED, Input
from .compiler import MAKES, RECORDER, REFUSED
from .processes import Failed, Output, say
from .sources import Source

RUNTIME = RECORDER / "runtime"
# a row of pass/rows.h without a file: the note is the text
NOTE = """\t.section cilkcheck_notes, "a", @progbits
\t.balign 4
1:\t.long 0
\t.long 2f - .
\t.long 0, 0
\t.section .rodata.cilkcheck, "a", @progbits
2:\t.string "{text}"
"""
# What the runtime calls of the library of C++ are weak symbols, for which the linker takes no library.
NEEDS_CXX = "\t.data\n\t.balign 8\n\t.quad __gxx_personality_v0\n"
END = '\t.section .note.GNU-stack, "", @progbits\n'
NO_CXX = {"-nostdlib", "-nodefaultlibs", "-nostdlib++"}


def runtime_object():
    """The runtime: installed, or built in the checkout on first use. Several makes may come here at once."""
    given = os.environ.get("CILKCHECK_RUNTIME")
    if given:
        return Path(given)
    installed, out = RUNTIME / "cilkcheck-runtime.o", RUNTIME / "out"
    if installed.exists():
        return installed
    built = out / "cilkcheck-runtime.o"
    if not os.access(RUNTIME, os.W_OK) and built.exists():
        return built
    try:
        out.mkdir(exist_ok=True)
        lock = open(out / "lock", "w", encoding="ascii")
    except OSError as fault:
        raise Failed(1, f"the runtime cannot be built: {fault.filename}: {fault.strerror}") from None
    with lock:
        fcntl.flock(lock, fcntl.LOCK_EX)
        by = "gcc" if shutil.which("gcc") else "clang"
        env = {name: value for name, value in os.environ.items() if name not in MAKES}
        words = ["make", "-s", "-C", str(RUNTIME), f"-j{os.cpu_count() or 1}", f"OUT={out}", f"CC={by}"]
        if subprocess.run(words, stdin=subprocess.DEVNULL, stdout=sys.stderr, env=env).returncode:
            raise Failed(1, "the runtime does not build")
    return built


class Link:
    """The link of a command line."""

    def __init__(self, session, commands, compiler, plugin, cxx):
        self.session, self.commands, self.compiler, self.plugin, self.cxx = session, commands, compiler, plugin, cxx
        self.folder = None

    def between(self, name):
        """A file between the steps."""
        self.folder = self.folder or self.session.folder()
        return str(self.folder / name)

    def compiled(self):
        """The inputs for the linker: what is compiled, by its object."""
        out = []
        for at, it in enumerate(self.commands.inputs):
            if not isinstance(it, Input):
                out.append(it)
            elif it.language:
                stem = os.path.splitext(os.path.basename(it.name))[0]
                target = self.between(f"{at}-{stem if it.name != '-' else 'stdin'}.o")
                if it.language in RECORDED:
                    Source(self.session, self.commands, self.compiler, self.plugin, self.cxx, it).compile("-c", target)
                else:
                    assemble(self.session, self.commands, self.compiler.driver(self.cxx), it, "-c", target)
                out.append(Input(target))
            else:
                out.append(it)
        return out

    def libraries(self, words):
        """The archive or the library of the user's own that -lLIBRARY means, where there is one in a folder of -L."""
        name = "".join(words)
        if not name.startswith("-l"):
            return []
        files = [name[3:]] if name.startswith("-l:") else [f"lib{name[2:]}.so", f"lib{name[2:]}.a"]
        paths = (os.path.join(folder, file) for folder in folders_of(self.commands.for_linking()) for file in files)
        return [it for it in paths if os.path.isfile(it)][:1]

    def look(self, inputs, runtime):
        """What of the inputs is not seen inside."""
        files = []
        for it in inputs:
            files += [it.path] if isinstance(it, Input) else self.libraries(it)
        program = [member for file in dict.fromkeys(files) for member in elf.members(file)]
        if any("--whole-archive" in word for it in inputs if not isinstance(it, Input) for word in it):
            for it in program:
                it.in_archive = False
        program = objects.linked(program, {"main"})
        defined = set().union(*(it.defined for it in elf.members(runtime)))
        others = objects.other_versions(program, defined)
        if others:
            why = "was compiled by another version of cilkcheck-cc: compile it again"
            raise Failed(REFUSED, f"refused: {others[0]} {why}")
        return objects.look(program, defined, "-r" in self.commands.for_linking())

    def renamed(self, inputs, own):
        """The inputs, in which the program's own functions with names of libc's have the names that the pass gave to
        their calls, so that the runtime's own calls come to libc."""
        names, out = Path(self.between("own")), []
        names.write_text("".join(f"{it} {objects.WRAPPED}{it}\n" for it in own), encoding="ascii")
        for at, it in enumerate(inputs):
            files = [it.path] if isinstance(it, Input) else self.libraries(it)
            if not files or ".so" in os.path.basename(files[0]) or not os.path.isfile(files[0]):
                out += [it.path] if isinstance(it, Input) else it
                continue
            copy = self.between(f"own-{at}-{os.path.basename(files[0])}")
            self.session.run(["objcopy", f"--redefine-syms={names}", files[0], copy], stdin=subprocess.DEVNULL)
            out.append(copy)
        return out

    def demangle(self, mangled):
        if not any(it.startswith("_Z") for it in mangled):
            return {it: it for it in mangled}
        lines = self.session.output_of(["c++filt"], "".join(f"{it}\n" for it in mangled)).splitlines()
        return dict(zip(mangled, lines)) if len(lines) == len(mangled) else {it: it for it in mangled}

    def note(self, seen, needs_cxx):
        """An object with what is not seen, or None."""
        parts = [NEEDS_CXX] if needs_cxx else []
        if seen.unseen:
            text = f"not seen inside: {objects.told(seen.unseen, self.demangle)}"
            say(text)
            parts.append(NOTE.format(text=text.replace("\\", "\\\\").replace('"', '\\"')))
        if not parts:
            return None
        source, target = self.between("notes.s"), self.between("notes.o")
        Path(source).write_text("".join([*parts, END]), encoding="utf-8", errors="surrogateescape")
        self.session.run(["as", source, "-o", target])
        return target

    def link(self):
        commands = self.commands
        if commands.shared:
            raise Failed(REFUSED, "refused: a shared library is not recorded: link its objects into the program")
        sources = [it for it in commands.files() if it.language]
        options = commands.for_linking()
        static = {"-static", "-static-pie", "--static"} & set(options)
        if static:
            why = "the recorder has its own malloc, which a static C library has too; link without it"
            raise Failed(REFUSED, f"refused: {static.pop()}: {why}")
        is_partial = "-r" in options
        output = Output(self.session, commands.output or "a.out")
        inputs = self.compiled()
        runtime = runtime_object()
        cxx = self.cxx or any(it.is_cxx for it in sources)
        words = [word for it in inputs for word in ([it.path] if isinstance(it, Input) else it)]
        needs_cxx = not is_partial and (cxx or bool({"-lstdc++", "-lc++"} & set(words))) and not NO_CXX & set(options)
        seen = self.look(inputs, runtime)
        if seen.own and not is_partial:
            words = self.renamed(inputs, seen.own)
        note = self.note(seen, needs_cxx)
        if note:
            words.insert(0, note)
        if not is_partial:
            words += [str(runtime), "-lm"]
        quiet = ["-Wno-unused-command-line-argument"] if sources else []
        linker = [*self.compiler.driver(cxx), *quiet, *options]
        self.session.run([*linker, *words, "-o", output.made], stdin=subprocess.DEVNULL)
        self.tell_places(output.made)
        output.done()

    def tell_places(self, program):
        """The first of the places that the program itself notes as not seen."""
        places = elf.notes(program)
        if places:
            more = f" (and {len(places) - 1} more)" if len(places) > 1 else ""
            say(f"not seen: {places[0]}{more}")


def assemble(session, commands, driver, source, stage, target):
    """What is compiled and not recorded: assembly, LLVM's own language, and languages that no Cilk is in."""
    words = [*commands.for_preprocessing(), *commands.arguments("warning", "debug", "dependencies")]
    words += ["-Wno-unused-command-line-argument", stage, "-x", source.language, source.path, "-o", target]
    session.run([*driver, *words], stdin=subprocess.DEVNULL)


def folders_of(options):
    """The folders of -L, and those that the environment names."""
    named = [options[at + 1] if it == "-L" else it[2:] for at, it in enumerate(options) if it.startswith("-L")]
    return [*named, *filter(None, os.environ.get("LIBRARY_PATH", "").split(":"))]
