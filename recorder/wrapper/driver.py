"""Compiles and links as the command line asks."""
import os
import sys

from . import command_line
from .command_line import Fault
from .processes import Failed, Session, say


def passed_on(commands):
    """The arguments as clang takes them, without what only compilers of Cilk take."""
    words = [word for _, it in commands.options for word in it]
    if commands.output:
        words += ["-o", commands.output]
    language = "none"
    for it in commands.inputs:
        if isinstance(it, list):
            words += it
            continue
        wanted = it.language if it.given else "none"
        if wanted != language:
            words += ["-x", wanted]
            language = wanted
        words.append(it.path)
    return words


def run_clang(commands, compiler, cxx, extra):
    """clang in place of this process: a mode in which nothing is recorded."""
    openmp = ["-fopenmp"] if commands.openmp else []
    words = [*compiler.driver(cxx), *extra, *openmp, *passed_on(commands)]
    sys.stdout.flush()
    try:
        os.execvp(words[0], words)
    except OSError as fault:
        raise Failed(127, f"{words[0]}: {fault.strerror}") from None


def target_of(commands, source):
    """What -c and -S call their output."""
    if commands.output:
        return commands.output
    stem = os.path.splitext(os.path.basename(source.name))[0] if source.name != "-" else "-"
    is_llvm = any(it[1] == ["-emit-llvm"] for it in commands.options)
    suffixes = {"-c": ".bc" if is_llvm else ".o", "-S": ".ll" if is_llvm else ".s"}
    return stem + suffixes[commands.mode]


def compile_each(session, commands, compiler, plugin, cxx):
    from .linking import assemble
    from .processes import Output
    from .sources import Source
    sources = [it for it in commands.files() if it.language]
    if commands.output and len(sources) > 1:
        raise Fault("cannot specify -o when generating multiple output files")
    if any(it.is_recorded for it in sources):
        words = [it if isinstance(it, list) else [] if it.language else [it.path] for it in commands.inputs]
        commands.unused = [word for it in words for word in it]
    status = 0
    for it in sources:
        try:
            output = Output(session, target_of(commands, it))
            if it.is_recorded:
                Source(session, commands, compiler, plugin, cxx, it).compile(commands.mode, output.made)
            else:
                assemble(session, commands, compiler.driver(cxx), it, commands.mode, output.made)
            output.done()
        except Failed as failed:
            # (as clang does: the others are compiled too)
            if failed.text:
                say(failed.text)
            status = status or failed.status
    if status:
        raise Failed(status)


def make_headers(session, commands, compiler, cxx):
    """A precompiled header is of the serial elision, for clang's own messages. What is recorded reads the header."""
    from .sources import elision
    openmp = ["-fopenmp"] if commands.openmp else []
    stage = [commands.mode] if commands.mode in ("-c", "-S") else []
    session.run([*compiler.driver(cxx), *openmp, *elision(), *stage, *passed_on(commands)])


def build(commands, cxx):
    """Does what the command line asks, in the mode that it names."""
    from .compiler import Pass, found
    from .sources import OPENMP_UNREAD, OURS, elision
    compiler = found()
    files, mode = commands.files(), commands.mode
    is_in_error = mode != "preprocess" and any(it.name == "-" and not it.language for it in files)
    compiles_nothing = mode in ("-c", "-S") and not any(it.language for it in files)
    if mode == "clang" or not files or is_in_error or compiles_nothing:
        run_clang(commands, compiler, cxx, [mode] if mode in ("-c", "-S") else [])
    if mode == "preprocess":
        compiler.supported()
        run_clang(commands, compiler, cxx, OURS)
    if mode == "syntax":
        compiler.supported()
        run_clang(commands, compiler, cxx, [*([] if commands.openmp else OPENMP_UNREAD), *elision()])
    with Session() as session:
        compiler, plugin = Pass(compiler, session).find()
        if any(it.is_header for it in files):
            make_headers(session, commands, compiler, cxx)
        elif mode == "link":
            from .linking import Link
            Link(session, commands, compiler, plugin, cxx).link()
        else:
            compile_each(session, commands, compiler, plugin, cxx)
    return 0


def main(arguments, cxx):
    try:
        arguments = command_line.expand(arguments)
        if "--help" in arguments or "--version" in arguments:
            from . import about
            return about.tell(arguments, cxx)
        commands = command_line.parse(arguments, cxx)
        if commands.refused:
            raise Failed(70, f"refused: {commands.refused}")
        return build(commands, cxx)
    except Fault as fault:
        say(f"error: {fault}")
        return 1
    except Failed as failed:
        if failed.text:
            say(failed.text)
        return failed.status
    except OSError as fault:
        place = f"{fault.filename}: " if fault.filename else ""
        say(f"{place}{fault.strerror or fault}")
        return 1
    except (BrokenPipeError, KeyboardInterrupt):
        return 1
