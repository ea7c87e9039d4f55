"""What --help and --version say."""
import os
import shutil

from .compiler import SUPPORTED, WANTED, Pass, found
from .processes import Failed

HELP = """\
Compiles and links {what} so that a run of the program is recorded for cilkcheck.

Usage: {name} [OPTION..] FILE..

The options are those of clang, which compiles the program. Options that only compilers
of Cilk take, as -fopencilk, are accepted and mean nothing more; -fsanitize, -flto and
-fprofile do not go with a recording and are left out.

Options of its own:
  --help       print this help
  --version    print the version of clang, and whether the compiler pass is built for it

Environment:
  CILKCHECK_CC    the compiler: a name as clang-16, or a path [default: clang]. Supported are clang {first} to {last}

Example:
  {name} -g -O2 -o sort sort.{suffix} && ./sort && cilkcheck explain sort.trace

clang --help lists the options of clang, man {name} says more of {name}.
"""


def tell(arguments, cxx):
    name = "cilkcheck-c++" if cxx else "cilkcheck-cc"
    if "--help" in arguments:
        what, suffix = ("C++", "cpp") if cxx else ("C", "c")
        print(HELP.format(what=what, name=name, suffix=suffix, first=SUPPORTED[0], last=SUPPORTED[-1]), end="")
        return 0
    try:
        compiler = found()
        asked = compiler.asked()
    except Failed as failed:
        print(f"{name}: {failed.text}")
        return failed.status
    if not asked.version or asked.major not in SUPPORTED:
        print(f"{name}: {asked.command} is {asked.title or 'no clang'}, and programs are recorded by {WANTED}")
        return 70
    known = Pass(asked).trusted()
    state = f"built, {known[2]}" if known else "not built yet: the first compile builds it"
    print(f"{name}: {asked.title}\ncompiler: {shutil.which(asked.command) or asked.command}\ncompiler pass: {state}")
    print(f"recorder: {os.path.dirname(os.path.dirname(os.path.abspath(__file__)))}")
    return 0
