"""What manners.py asks of the wrapper: compilers, messages, modes, what a link leaves, what is not seen inside."""
import os
import resource
import shutil
import signal
import stat
import subprocess
import sys
import time

import harness
import verdicts

RACY = """#include <cilk/cilk.h>
int x;
static void set(int i) { x = i; }
int main(void) {
  cilk_spawn set(1);
  set(2);
  cilk_sync;
  return x - 2;
}
"""
WRONG = """#include <cilk/cilk.h>
#include <stdio.h>
static int half(int n) { return n / 2; }
int main(void) {
  int unused;
  int x = cilk_spawn half(4)
  cilk_sync;
  printf("%s\\n", x);
  return y;
}
"""
WARNED = WRONG.replace("half(4)\n", "half(4);\n").replace("return y", "return 0")
PLAIN = "int main(void) { int unused; return y }\n"
# its spawn is refused by the rewriter
REFUSED = "#include <cilk/cilk.h>\nint f(int);\nint main(void) {\n  return f(cilk_spawn f(1));\n}\n"
OMP = "int x;\nint main(void) {\n#pragma omp parallel\n  x = 1;\n  return 0;\n}\n"
SLOW = """#include <iostream>
#include <map>
#include <regex>
int main() { std::regex r("a"); std::map<int, int> m; std::cout << m[1]; }
"""
# a compiler that says what it is asked and leaves out the pass
UNHOOKED = """#!/bin/sh
for word do
  shift
  case $word in -fpass-plugin=*) ;; *) set -- "$@" "$word" ;; esac
done
exec {clang} "$@"
"""
COUNTED = '#!/bin/sh\necho "$*" >> {log}\nexec {clang} "$@"\n'
CALLER = """#include <cilk/cilk.h>
#include <stdio.h>
#include <string.h>
extern int table[4];
int outer(int);
char text[8] = "abc";
static void change(void) { text[1] = 'x'; }
int main(void) {
  cilk_spawn change();
  printf("%d %d\\n", outer(table[1]), stpcpy(text + 4, "z") == 0);
  cilk_sync;
  return 0;
}
"""
OUTER = "int table[4] = {1, 2, 3};\nint outer(int x) { return x; }\n"
OWN = "char *stpcpy(char *to, const char *from) { (void)to; return from[0] == 'z' ? (char *)0 : to; }\n"
OWN_RACY = """extern char text[8];
char *stpcpy(char *to, const char *from) { (void)to; (void)from; text[1] = 'y'; return 0; }
"""


class Wrapping:
    """Checks of the wrapper. `room`, `given` and `check` are those of Manners."""

    def file(self, name, text):
        path = self.room / name
        path.write_text(text)
        return path

    def tool(self, *words, cxx=False, env=None, **how):
        name = "cilkcheck-c++" if cxx else "cilkcheck-cc"
        how = {"stdin": subprocess.DEVNULL, "capture_output": True, "text": True, "errors": "replace", **how}
        env = {**harness.ENVIRONMENT, **(env or {})}
        return subprocess.run([self.given.wrappers / name, *map(str, words)], cwd=self.room, env=env, **how)

    def said(self, *words):
        """What clang says of the serial elision."""
        include = ["-isystem", self.given.wrappers.parent / "include"]
        return harness.run(["clang", *words, *include, "-fsyntax-only"], self.room).errors

    def races_of(self, program, *words):
        """The pairs of lines that race in a run of the program."""
        ran = harness.run([self.room / program, *words], self.room)
        if ran.status not in (0, 1):
            raise OSError(f"{program} ends with {ran.status}: {ran.errors}")
        self.trace = verdicts.judged(verdicts.traces_of(self.room / program), self.given.cilkcheck)
        return sorted((it[0].earlier.line, it[0].later.line) for it in verdicts.races(self.trace).values())

    def notes(self):
        return "\n".join(note for it in self.trace for note in it.notes)

    def left(self, before):
        return sorted(set(os.listdir(self.room)) - before)

    # ---- compilers ----

    def script(self, name, text):
        path = self.file(name, text)
        path.chmod(0o755)
        return str(path)

    def compilers(self):
        self.file("racy.c", RACY)
        clang, cache = shutil.which("clang"), {"XDG_CACHE_HOME": str(self.room / "cache")}
        ran = self.tool("-c", "racy.c", env={"CILKCHECK_CC": "gcc"})
        self.check(
            "gcc is refused",
            ran.returncode == 70 and "clang 14 to 19" in ran.stderr and ran.stderr.count("\n") == 1,
            ran,
        )
        for version in ("13.0.1", "20.1.0"):
            other = self.script(f"clang-{version[:2]}", f"#!/bin/sh\necho clang version {version}\n")
            ran = self.tool("-c", "racy.c", env={"CILKCHECK_CC": other})
            self.check(
                f"clang {version} is refused with its version",
                ran.returncode == 70 and f"clang {version}:" in ran.stderr,
                ran,
            )
        other = self.script("clang-headless", "#!/bin/sh\necho clang version 15.0.99\n")
        # (without the llvm-config of a version that is installed)
        ran = self.tool("-c", "racy.c", env={"CILKCHECK_CC": other, "PATH": os.path.dirname(sys.executable), **cache})
        self.check(
            "headers that are missing are named by their package",
            ran.returncode == 1 and "llvm-15-dev" in ran.stderr,
            ran,
        )
        ran = self.tool("-c", "racy.c", env={"CILKCHECK_CC": "clang-nowhere"})
        self.check("no compiler is status 127", ran.returncode == 127 and "clang-nowhere" in ran.stderr, ran)
        other = self.script("clang-unhooked", UNHOOKED.format(clang=clang))
        before = set(os.listdir(self.room))
        ran = self.tool("-c", "racy.c", "-o", "unhooked.o", env={"CILKCHECK_CC": other})
        self.check("a compiler that does not tell each access is refused with its version",
                   ran.returncode == 70 and "does not tell each access" in ran.stderr and "clang 1" in ran.stderr, ran)
        self.check("and nothing is compiled by it", self.left(before) == [], self.left(before))
        log = self.room / "asked"
        other = self.script("clang-counted", COUNTED.format(log=log, clang=clang))
        ran = self.tool("-c", "racy.c", env={"CILKCHECK_CC": other})
        self.check("a compiler by a path is tried", ran.returncode == 0 and "canary.c" in log.read_text(), ran)
        log.write_text("")
        ran = self.tool("-c", "racy.c", env={"CILKCHECK_CC": other})
        self.check(
            "once, and asked for its version once",
            ran.returncode == 0 and len(log.read_text().splitlines()) == 3,
            log.read_text(),
        )
        ran = self.tool("--version")
        self.check(
            "--version is the wrapper's own",
            "clang version" in ran.stdout and "compiler pass: built" in ran.stdout and not ran.stderr,
            ran,
        )
        ran = self.tool("--help", cxx=True)
        self.check(
            "--help too",
            ran.returncode == 0 and "CILKCHECK_CC" in ran.stdout and "cilkcheck-c++ [OPTION..]" in ran.stdout,
            ran,
        )

    # ---- clang's voice ----

    def voice(self):
        for name, text in (
            ("wrong.c", WRONG), ("warned.c", WARNED), ("plain.c", PLAIN), ("refused.c", REFUSED), ("omp.c", OMP)
        ):
            self.file(name, text)
        ran = self.tool("-c", "plain.c")
        self.check(
            "errors are clang's, word for word",
            ran.returncode == 1 and ran.stderr == self.said("plain.c"),
            ran.stderr,
        )
        ran = self.tool("-Wall", "-Wextra", "-c", "warned.c")
        self.check(
            "warnings too, -Wformat among them",
            ran.returncode == 0 and "[-Wformat]" in ran.stderr and ran.stderr == self.said(
                "-Wall", "-Wextra", "warned.c"
            ),
            ran.stderr,
        )
        ran = self.tool("-Wall", "-c", "wrong.c", "-o", "w.o")
        self.check(
            "a missing ; is an error at its own place",
            "wrong.c:6:29: error: expected ';'" in ran.stderr and "int x = cilk_spawn half(4)\n" in ran.stderr,
            ran.stderr,
        )
        self.check(
            "errors are told once, without a name of ours",
            ran.returncode == 1 and "cilkcheck" not in ran.stderr and not (self.room / "w.o").exists(),
            ran.stderr,
        )
        ran = self.tool("-Werror", "-Wall", "-c", "warned.c", "-o", "w.o")
        self.check("-Werror makes no object", ran.returncode == 1 and not (self.room / "w.o").exists(), ran.stderr)
        ran = self.tool("-w", "-c", "warned.c", "-o", "w.o")
        self.check("-w is silent", ran.returncode == 0 and not ran.stderr, ran.stderr)
        ran = self.tool("-c", "racy.c", "-fno-such-option")
        self.check(
            "an unknown option is clang's error",
            ran.returncode == 1 and ran.stderr.startswith("clang: error: unknown argument: '-fno-such-option'"),
            ran.stderr,
        )
        ran = self.tool("-c", "refused.c", "-o", "refused.o")
        is_told = ran.stderr.startswith("cilkcheck: refused: refused.c:4: ") and ran.stderr.count("\n") == 1
        is_made = (self.room / "refused.o").exists()
        self.check("what is not recorded is refused in one line", ran.returncode == 70 and is_told and not is_made, ran)
        ran = self.tool("-c", "omp.c")
        self.check(
            "a #pragma omp that nobody reads is warned of",
            ran.returncode == 0 and "omp.c:3:9: warning:" in ran.stderr and "#pragma omp parallel\n" in ran.stderr,
            ran,
        )
        ran = self.tool("-Werror", "-c", "omp.c")
        self.check("as a warning even with -Werror", ran.returncode == 0 and "warning:" in ran.stderr, ran)
        for words in (["-fopenmp"], ["-Wno-source-uses-openmp"]):
            ran = self.tool(*words, "-c", "omp.c")
            self.check(f"not with {words[0]}", ran.returncode == 0 and not ran.stderr, ran)

    # ---- the command line ----

    def modes(self):
        for words in (["-E"], ["-M"], ["-MM"], ["-S", "-o", "-"], ["-c"], ["-fsyntax-only"]):
            ran = self.tool("-fopencilk", "-fsanitize=cilk", "-fcilktool=cilkscale", "-ftapir=serial", *words, "racy.c")
            self.check(
                f"what only compilers of Cilk take is left out with {words[0]}",
                ran.returncode == 0 and not ran.stderr,
                ran,
            )
        ran = self.tool("-E", "racy.c", "-o", "racy.i")
        self.check("-E keeps the keywords", "_Cilk_spawn set(1)" in (self.room / "racy.i").read_text(), ran)
        self.tool("-O2", "racy.i", "-o", "from-i")
        self.check("what is preprocessed is recorded", self.races_of("from-i") == [(3, 3)], self.trace)
        ran = self.tool("-MM", "racy.c")
        self.check("-MM lists the user's headers", ran.stdout == "racy.o: racy.c\n", ran)
        self.tool("-MMD", "-c", "racy.c", "-o", "listed.o")
        self.check(
            "-MMD writes the list beside the object", (self.room / "listed.d").read_text() == "listed.o: racy.c\n"
        )
        self.tool("-MD", "-MF", "deps", "-MT", "a target", "-c", "racy.c")
        text = (self.room / "deps").read_text()
        self.check("-MD, -MF and -MT too", text.startswith("a target: racy.c") and "cilk/cilk.h" in text, text)
        self.tool("-O2", "-S", "racy.c")
        self.tool("racy.s", "-o", "from-s")
        self.check("assembly that -S makes is recorded", self.races_of("from-s") == [(3, 3)], self.trace)
        self.tool("-S", "-emit-llvm", "racy.c")
        self.tool("racy.ll", "-o", "from-ll")
        self.check("and so is LLVM's language", self.races_of("from-ll") == [(3, 3)], self.trace)
        ran = self.tool("-x", "c", "-", "-o", "from-input", input=RACY, stdin=None)
        self.check("standard input is recorded", ran.returncode == 0 and self.races_of("from-input") == [(3, 3)], ran)
        ran = self.tool("-x", "c", "-c", "-", input=WRONG, stdin=None)
        self.check("and its errors told", "<stdin>:6:29: error: expected ';'" in ran.stderr, ran)
        os.mkfifo(self.room / "pipe.c")
        writer = subprocess.Popen(["sh", "-c", "cat racy.c > pipe.c"], cwd=self.room)
        ran = self.tool("pipe.c", "-o", "from-pipe")
        writer.wait()
        self.check(
            "a source that can be read once is read once",
            ran.returncode == 0 and self.races_of("from-pipe") == [(3, 3)],
            ran,
        )
        self.file("words", "-O2 'racy.c'\n-o \"from a file\"")
        ran = self.tool("@words")
        self.check("@file is read", ran.returncode == 0 and self.races_of("from a file") == [(3, 3)], ran)
        self.file("itself", "-c @itself racy.c")
        ran = self.tool("@itself")
        self.check(
            "one that names itself is an error",
            ran.returncode == 1 and ran.stderr == "cilkcheck: error: @itself: the file names itself\n",
            ran,
        )
        self.file("-racy.c", RACY)
        ran = self.tool("-c", "--", "-racy.c")
        ran = self.tool("-o", "from-dash", "--", "-racy.o")
        self.check(
            "names that begin with - stand behind --",
            ran.returncode == 0 and self.races_of("from-dash") == [(3, 3)],
            ran,
        )
        ran = self.tool("racy.c", "-static", "-o", "static")
        self.check(
            "-static says what to do",
            ran.returncode == 70 and "without it" in ran.stderr and not (self.room / "static").exists(),
            ran,
        )
        ran = self.tool("racy.c", "-shared", "-o", "shared.so")
        self.check("-shared too", ran.returncode == 70 and "link its objects" in ran.stderr, ran)
        ran = self.tool("-c", "racy.c", "omp.c", "-o", "two.o")
        self.check("-o for two objects is an error", ran.returncode == 1 and not (self.room / "two.o").exists(), ran)

    def precompiled(self):
        self.file(
            "pre.hpp",
            "#include <cilk/cilk.h>\n#include <vector>\nstatic int x;\nstatic inline void set(int i) { x = i; }\n",
        )
        self.file("use.cpp", "int main() {\n  cilk_spawn set(1);\n  set(2);\n  cilk_sync;\n  return x - 2;\n}\n")
        header = ["-x", "c++-header", "pre.hpp", "-o"]
        for make, use in (
            (["pre.hpp"], ["-include", "pre.hpp"]),
            ([*header, "a.pch"], ["-include-pch", "a.pch"]),
            ([*header, "b.pch", "-Xclang", "-emit-pch"], ["-Xclang", "-include-pch", "-Xclang", "b.pch"]),
        ):
            made = self.tool("-O2", *make, cxx=True)
            ran = self.tool("-O2", *use, "use.cpp", "-o", "pre", cxx=True)
            self.check(
                f"a precompiled header is made and used by {use[0]}",
                made.returncode + ran.returncode == 0 and not made.stderr + ran.stderr,
                (made, ran),
            )
            self.check("and recorded", self.races_of("pre") == [(4, 4)], self.trace)

    # ---- what a link leaves ----

    def linking(self):
        tmp = self.room / "tmp"
        tmp.mkdir()
        env = {"TMPDIR": str(tmp)}
        self.file("undefined.c", "int missing(void);\nint main(void) { return missing(); }\n")
        self.file("kept", "what was there")
        before = set(os.listdir(self.room))
        ran = self.tool("undefined.c", "-o", "kept", env=env)
        self.check(
            "a link that fails changes nothing",
            ran.returncode == 1 and (self.room / "kept").read_text() == "what was there" and self.left(before) == [],
            ran,
        )
        self.check("and leaves no folder", os.listdir(tmp) == [], os.listdir(tmp))
        for words in (["racy.c"], ["-c", "racy.c"], ["-S", "racy.c"]):
            ran = self.tool(*words, "-o", "/dev/null", env=env)
            self.check(
                f"a device stays one: {words}", ran.returncode == 0 and stat.S_ISCHR(os.stat("/dev/null").st_mode), ran
            )
        for words in (["racy.c"], ["-c", "racy.c"]):
            ran = self.tool(*words, "-o", "/dev/full", env=env)
            is_told = ran.stderr == "cilkcheck: /dev/full: No space left on device\n"
            is_there = os.path.exists("/dev/full")
            self.check("a full device is told in one line", ran.returncode == 1 and is_told and is_there, ran)
        ran = self.tool("-c", "racy.c", "-o", "nowhere/x.o", env=env)
        self.check(
            "a folder that is missing too",
            ran.returncode == 1 and ran.stderr.count("\n") == 1 and "nowhere/x.o" in ran.stderr,
            ran,
        )

        def small():
            resource.setrlimit(resource.RLIMIT_FSIZE, (20_000, 20_000))
        before = set(os.listdir(self.room))
        ran = self.tool("racy.c", "-o", "large", env=env, preexec_fn=small)
        self.check(
            "a program that does not fit leaves nothing",
            ran.returncode not in (0, 70) and "Traceback" not in ran.stderr and self.left(before) == [] == os.listdir(
                tmp
            ),
            ran,
        )
        self.file("slow.cpp", SLOW)
        before = set(os.listdir(self.room))
        for number, (sign, words, seconds) in enumerate(
            (
                (signal.SIGINT, ["-c"], 0.6),
                (signal.SIGTERM, [], 0.9),
                (signal.SIGHUP, ["-c"], 0.9),
                (signal.SIGTERM, [], 1.5),
            )
        ):
            command = [self.given.wrappers / "cilkcheck-c++", "-O2", *words, "slow.cpp", "-o", "slow"]
            how = {"env": {**harness.ENVIRONMENT, **env}, "stderr": subprocess.PIPE, "text": True}
            child = subprocess.Popen(command, cwd=self.room, **how)
            time.sleep(seconds)
            child.send_signal(sign)
            errors = child.communicate()[1]
            is_told = child.returncode == -sign and errors == f"cilkcheck: stopped by {sign.name}\n"
            self.check(
                f"{sign.name} leaves nothing and says one line ({number})",
                is_told and self.left(before) == [] == os.listdir(tmp),
                (child.returncode, errors, self.left(before)),
            )
        for words in (["-s"], ["-Wl,-s"], ["-Wl,--strip-all", "-Wl,--gc-sections"]):
            self.tool("-O2", "racy.c", *words, "-o", "stripped")
            self.check(
                f"{words[0]} keeps the tables",
                self.races_of("stripped") == [(3, 3)] and not harness.run(["nm", "stripped"], self.room).output,
                self.trace,
            )
        self.tool("racy.c", "-o", "stripped")
        harness.run(["strip", "stripped"], self.room)
        self.check("strip too", self.races_of("stripped") == [(3, 3)], self.trace)

    # ---- what is not seen inside ----

    def unseen(self):
        self.file("caller.c", CALLER)
        for name, text in (
            ("outer.c", OUTER),
            ("own.c", OWN),
            ("own_racy.c", OWN_RACY),
            ("idle.c", "int idle2(void);\nint idle(void) { return idle2(); }\n"),
        ):
            self.file(name, text)
        harness.run(["clang", "-fno-builtin", "-c", "outer.c", "own.c"], self.room)
        self.tool("-c", "-fno-builtin", "caller.c")
        for words in ([], ["-s"]):
            ran = self.tool("caller.o", "outer.o", *words, "-o", "partly")
            self.check(
                "what a plain object defines is told at the link",
                ran.stderr == "cilkcheck: not seen inside: outer\n",
                ran,
            )
            self.races_of("partly")
            self.check("and in the trace", "not seen inside: outer" in self.notes().splitlines(), self.notes())
        ran = self.tool("caller.o", "outer.o", "own.o", "-s", "-o", "named")
        self.check(
            "a plain function of a name of libc's is told",
            ran.stderr == "cilkcheck: not seen inside: outer, stpcpy\n",
            ran,
        )
        ran = harness.run([self.room / "named"], self.room)
        self.check("and reached", ran.output == "2 1\n", ran)
        harness.run(["ar", "rcs", "libown.a", "own.o"], self.room)
        ran = self.tool("caller.o", "outer.o", "-L.", "-lown", "-o", "named")
        self.check(
            "also out of a library",
            "stpcpy" in ran.stderr and harness.run([self.room / "named"], self.room).output == "2 1\n",
            ran,
        )
        ran = self.tool("-fno-builtin", "caller.c", "own_racy.c", "outer.o", "-o", "seen")
        self.check(
            "one that is recorded is seen inside",
            ran.stderr == "cilkcheck: not seen inside: outer\n" and self.races_of("seen") == [(7, 2)],
            self.trace,
        )
        self.tool("-c", "outer.c", "-o", "recorded.o")
        self.tool("-c", "idle.c")
        harness.run(["ar", "rcs", "libparts.a", "recorded.o", "idle.o"], self.room)
        ran = self.tool("caller.o", "libparts.a", "-o", "parts")
        self.check("what an archive holds and nobody calls is not told", ran.returncode == 0 and not ran.stderr, ran)
        self.tool("-r", "caller.o", "outer.o", "-o", "joined.o")
        ran = self.tool("joined.o", "-o", "joined")
        self.races_of("joined")
        self.check("a partial link keeps the note", "not seen inside: outer" in self.notes(), self.notes())
        self.file("jumps.c", "#include <setjmp.h>\njmp_buf back;\nint main(void) { return setjmp(back); }\n")
        ran = self.tool("jumps.c", "-o", "jumps")
        self.check("setjmp writes to memory", "not seen inside: _setjmp" in ran.stderr, ran)
        self.file("other.s", ".globl f\nf: ret\n.data\n.quad __cilkcheck_version_9\n")
        harness.run(["clang", "-c", "other.s"], self.room)
        ran = self.tool("caller.o", "outer.o", "other.o", "-o", "other")
        self.check(
            "an object of another version is refused by its name",
            ran.returncode == 70 and "other.o was compiled by another version" in ran.stderr,
            ran,
        )
        self.file("shape.hpp", "struct shape { virtual int area(); virtual ~shape() {} };\n")
        self.file("shape.cpp", '#include "shape.hpp"\nint shape::area() { return 2; }\n')
        self.file("shapes.cpp", '#include "shape.hpp"\nint main() { shape s; return s.area() - 2; }\n')
        harness.run(["clang++", "-c", "shape.cpp"], self.room)
        ran = self.tool("shapes.cpp", "shape.o", "-o", "shapes", cxx=True)
        self.check("virtual functions of a plain object are told", "virtual functions of shape" in ran.stderr, ran)

    PARTS = compilers, voice, modes, precompiled, linking, unseen
