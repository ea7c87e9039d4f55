"""The command line of clang, as far as a wrapper has to understand it."""
import os
import re
from dataclasses import dataclass, field

# Options whose value is the next argument; of those in JOINED it may also follow at once, as in -Idir.
JOINED = (
    "-I", "-D", "-U", "-L", "-l", "-o", "-x", "-T", "-F", "-u", "-z", "-e", "-B", "-A", "-G", "-V", "-MF", "-MT", "-MQ",
    "-MJ", "-isystem", "-isystem-after", "-iquote", "-idirafter", "-include", "-imacros", "-iprefix", "-iwithprefix",
    "-iwithprefixbefore", "-isysroot", "-iframework", "-rpath", "-mthread-model",
)
SEPARATE = {
    *JOINED, "-include-pch", "-Xlinker", "-Xpreprocessor", "-Xassembler", "-Xclang", "-Xanalyzer", "-Xopenmp-target",
    "-mllvm", "--param", "-aux-info", "-dumpdir", "-target", "--sysroot", "-framework", "-arch", "-working-directory",
    "--config", "-gcc-toolchain", "-ivfsoverlay", "--serialize-diagnostics", "-serialize-diagnostics",
    "-main-file-name", "-stack-usage-file",
}
LONG = {
    "--compile": "-c", "--assemble": "-S", "--preprocess": "-E", "--dependencies": "-M", "--user-dependencies": "-MM",
    "--output": "-o", "--write-dependencies": "-MD", "--write-user-dependencies": "-MMD", "--language": "-x",
    "--define-macro": "-D", "--undefine-macro": "-U", "--include-directory": "-I", "--include": "-include",
    "--library-directory": "-L",
}
PREPROCESSOR = {
    "-I", "-D", "-U", "-F", "-A", "-include", "-imacros", "-include-pch", "-isystem", "-isystem-after", "-iquote",
    "-idirafter", "-iprefix", "-iwithprefix", "-iwithprefixbefore", "-iframework", "-Xpreprocessor",
}
DEPENDENCIES = {"-MD", "-MMD", "-MP", "-MG", "-MV", "-MF", "-MT", "-MQ", "-MJ"}
# in their place among the objects and archives
AMONG_INPUTS = {"-l", "-Xlinker", "-T", "-u", "-z", "-e", "-framework", "-rpath"}
LINKER = re.compile(
    r"-L|--?static|-no-?pie|-(static-)?pie|-rdynamic|-nostdlib(\+\+)?|-nostartfiles|-nodefaultlibs|-nolibc|-r|-s"
    r"|-static-lib.*|-shared-lib.*|-fuse-ld=.*|--ld-path=.*|-stdlib\+\+-isystem"
)
LANGUAGES = {
    ".c": "c", ".i": "cpp-output", ".ii": "c++-cpp-output", ".h": "c-header", ".s": "assembler",
    ".S": "assembler-with-cpp", ".asm": "assembler-with-cpp", ".ll": "ir", ".bc": "ir",
    ".m": "objective-c", ".mm": "objective-c++", ".M": "objective-c++",
    **dict.fromkeys((".C", ".cc", ".CC", ".cp", ".cpp", ".CPP", ".cxx", ".CXX", ".c++", ".C++"), "c++"),
    **dict.fromkeys((".H", ".hh", ".hp", ".hpp", ".HPP", ".hxx", ".h++"), "c++-header"),
}
AS_CXX = {"c": "c++", "cpp-output": "c++-cpp-output", "c-header": "c++-header"}
RECORDED = {"c", "c++", "cpp-output", "c++-cpp-output"}

# what the compilers of Cilk take and clang does not
CILK = re.compile(
    r"-f(no-)?(opencilk.*|cilkplus|cilk|detach|stripmine|csi|tapir|pedigrees)|-f(tapir|cilktool|csi)[-=].*"
    r"|--opencilk-.*|--cilk.*|-(shared|static)-lib(cilktool|opencilk)|-l(cilkrts|opencilk|cilksan|cilkscale).*"
)
# Instrumentation by other tools and optimization at link time do not go with a recording, our runtime stands for that
# of OpenMP, and another manager of passes would leave ours out.
DROPPED = re.compile(
    r"-f(no-)?sanitize.*|-f(no-)?lto.*|-f(no-)?(fat-lto-objects|whole-program-vtables|split-lto-unit)|-pg?"
    r"|-save-temps.*|-f(no-)?virtual-function-elimination|-f(no-)?(profile|coverage).*|--coverage|-ftest-coverage"
    r"|-f(no-)?(legacy|experimental-new)-pass-manager|-lomp|-lgomp|-liomp5|-f(no-)?openmp(-simd|=.*)?"
)
INFORMATION = re.compile(
    r"-dumpversion|-dumpfullversion|-dumpmachine|-dumpspecs|--?print-.*|--target-help|--autocomplete=.*|-cc1.*"
)
MODES = {
    "-c": "-c", "-S": "-S", "-###": "clang", **dict.fromkeys(("-E", "-M", "-MM"), "preprocess"),
    **dict.fromkeys(("-fsyntax-only", "--analyze", "-emit-ast", "--precompile", "-verify-pch"), "syntax"),
}
# where several are given, the first in this list counts
STRENGTH = ("clang", "preprocess", "syntax", "-S", "-c", "link")


class Fault(Exception):
    """A command line that clang would not take either."""


@dataclass(frozen=True)
class Input:
    """A file in the order of the command line; `language` of what is compiled, else None; `given`: -x told it."""
    name: str
    language: str = None
    given: bool = False

    @property
    def is_recorded(self):
        return self.language in RECORDED

    @property
    def is_header(self):
        return bool(self.language) and self.language.endswith("-header")

    @property
    def is_cxx(self):
        return bool(self.language) and self.language.startswith("c++")

    @property
    def path(self):
        """As an argument that is no option."""
        return f"./{self.name}" if self.name.startswith("-") and self.name != "-" else self.name


@dataclass
class Commands:
    """What the command line asks for."""
    mode: str = "link"
    output: str = None
    inputs: list = field(default_factory=list)              # Input, and lists of the linker's arguments
    options: list = field(default_factory=list)             # (stage, arguments), in order
    openmp: bool = False
    debug: bool = False
    shared: bool = False
    refused: str = None
    unused: list = field(default_factory=list)              # what clang calls unused where it does not link

    def files(self):
        return [it for it in self.inputs if isinstance(it, Input)]

    def arguments(self, *stages):
        return [word for stage, words in self.options if stage in stages for word in words]

    def for_preprocessing(self):
        return self.arguments("all", "preprocess")

    def for_syntax(self):
        """All of the user's that a compile takes, so that clang says what it would say."""
        linking = [] if self.mode == "link" else ["link"]
        words = self.arguments("all", "preprocess", "warning", "dependencies", "debug", *linking)
        # (-MD names its file and its target after the output)
        words += ["-o", self.output] if self.output else []
        unused, self.unused = self.unused, []
        return [*words, *unused] if linking else ["-Wno-unused-command-line-argument", *words]

    def for_compiling(self):
        """For text that is already preprocessed, and whose warnings were told."""
        words, out = self.arguments("all"), []
        words += [it for it in self.arguments("warning") if it.startswith("-Wno-")]
        at = 0
        while at < len(words):
            if words[at] == "-Xclang" and words[at + 1:at + 2] and words[at + 1] in ("-include-pch", "-include"):
                at += 4
            elif words[at] == "-Xclang" and words[at + 1:at + 2] in (["-emit-pch"], ["-disable-llvm-passes"]):
                at += 2
            elif re.match(r"-f(debug-prefix-map|debug-compilation-dir|file-prefix-map|diagnostics|modules)", words[at]):
                at += 1
            else:
                out.append(words[at])
                at += 1
        return out

    def for_linking(self):
        return self.arguments("all", "link", "debug")


QUOTED = re.compile(r"""\\(.)|"((?:\\.|[^"\\])*)"|'((?:\\.|[^'\\])*)'""", re.S)


def tokens(text):
    """The arguments in a response file, by the rules of GNU: quotes join, a backslash takes the next as it is."""
    found = re.findall(r"""(?:\\.|"(?:\\.|[^"\\])*"|'(?:\\.|[^'\\])*'|[^\s"'\\]|["'\\])+""", text, re.S)

    def plain(quoted):
        return quoted[1] or re.sub(r"\\(.)", r"\1", quoted[2] or quoted[3] or "", flags=re.S)

    return [QUOTED.sub(plain, word) for word in found]


def expand(arguments, within=()):
    """With the contents of @FILE in its place."""
    out = []
    for argument in arguments:
        path = argument[1:]
        if argument.startswith("@") and os.path.isfile(path):
            if any(os.path.samefile(path, it) for it in within):
                raise Fault(f"{argument}: the file names itself")
            with open(path, encoding="utf-8", errors="surrogateescape") as file:
                out += expand(tokens(file.read()), (*within, path))
        else:
            out.append(argument)
    return out


def split_value(argument):
    """An option and the value that is joined to it, as in -Idir."""
    if argument.startswith("--"):
        name, equals, value = argument.partition("=")
        return (LONG.get(name, name), value) if equals and name in LONG else (LONG.get(argument, argument), None)
    if argument in SEPARATE or argument in MODES or argument in DEPENDENCIES:
        return argument, None
    for option in sorted(JOINED, key=len, reverse=True):
        # (-emit-llvm is no -e, -rdynamic no -r, and so on)
        if argument.startswith(option) and (len(option) > 2 or option[1] in "IDULloxTFBuz"):
            if option == "-o" and argument.startswith("-objcmt") or argument in ("-undef", "-undefined"):
                break
            return option, argument[len(option):]
    return argument, None


class Reader:
    """Reads the arguments one by one."""

    def __init__(self, cxx):
        self.cxx, self.commands, self.language = cxx, Commands(), None

    def file(self, name):
        language = self.language or LANGUAGES.get(os.path.splitext(name)[1])
        if self.cxx and not self.language:
            language = AS_CXX.get(language, language)
        self.commands.inputs.append(Input(name, language, bool(self.language)))

    def stronger(self, mode):
        self.commands.mode = min(self.commands.mode, mode, key=STRENGTH.index)

    def option(self, argument, option, value, words):
        commands = self.commands
        if option == "-o":
            commands.output = value
        elif option == "-x":
            self.language = None if value == "none" else value
        elif option in MODES:
            self.stronger(MODES[option])
            if option not in ("-c", "-S"):
                commands.options.append(("mode", words))
        elif option in DEPENDENCIES or re.match(r"-Wp,-M", argument):
            commands.options.append(("dependencies", words))
        elif INFORMATION.fullmatch(argument):
            self.stronger("clang")
            commands.options.append(("mode", words))
        elif argument in ("-shared", "--shared"):
            commands.shared = True
            commands.options.append(("link", words))
        elif argument in ("-m32", "-mx32", "-m16"):
            commands.refused = f"{argument}: a program is recorded on the machine that runs it, with 64 bits"
        elif re.fullmatch(r"-fopenmp(=.*)?", argument):
            commands.openmp = True
        elif argument == "-fno-openmp":
            commands.openmp = False
        elif CILK.fullmatch(argument) or DROPPED.fullmatch(argument):
            pass
        elif option in AMONG_INPUTS or argument.startswith("-Wl,"):
            commands.inputs.append(words)
        elif option in PREPROCESSOR or re.match(r"-Wp,|-nostdinc|-undef$|-trigraphs$", argument):
            commands.options.append(("preprocess", words))
        elif option == "-L" or LINKER.fullmatch(argument):
            commands.options.append(("link", words))
        elif re.match(r"-W(?![al],)|-pedantic|-w$", argument):
            commands.options.append(("warning", words))
        elif re.match(r"-g(?!cc-)", argument):
            commands.debug = not re.fullmatch(r"-g0|-ggdb0", argument)
            commands.options.append(("debug", words))
        else:
            commands.options.append(("all", words))

    def read(self, arguments):
        at, only_files = 0, False
        while at < len(arguments):
            argument = arguments[at]
            at += 1
            if only_files or argument == "-" or not argument.startswith("-"):
                self.file(argument)
                continue
            if argument == "--":
                only_files = True
                continue
            if argument.startswith("--cilkcheck-"):
                raise Fault(f"unknown option {argument}")
            option, value = split_value(argument)
            words = [argument]
            if value is None and (option in SEPARATE or argument in LONG and option in JOINED):
                if at == len(arguments):
                    raise Fault(f"argument to '{argument}' is missing (expected 1 value)")
                value = arguments[at]
                words = [option, value]
                at += 1
            self.option(argument, option, value, words)
        return self.commands


def parse(arguments, cxx=False):
    return Reader(cxx).read(arguments)
