#!/usr/bin/env python3
"""What a recorded program and the wrappers do beside the verdict: output and status, names of traces, what is left when a run is cut off; and what
the wrappers say, take and leave (wrapping.py).

    manners.py [--cilkcheck PATH] [--expect N]
"""
import os
import shutil
import signal
import subprocess
import tempfile
import time
from pathlib import Path

import harness
import verdicts
from wrapping import Wrapping

SOURCE = r"""#include <cilk/cilk.h>
#include <stdio.h>
#include <stdlib.h>
#include <string.h>
#include <unistd.h>
static int x[40];
static void set(int i) { x[i % 40] = i; }
int main(int argc, char **argv) {
  char word[80] = "";
  for (int i = 0; i < 40; i++)
    cilk_spawn set(i);
#ifndef RACE
  cilk_sync;
#endif
  set(3);
  if (argc > 1 && !strcmp(argv[1], "wait")) {
    puts("waiting");
    fflush(stdout);
    sleep(60);
  }
  if (argc > 1 && !strcmp(argv[1], "abort"))
    abort();
  if (argc > 1 && !strcmp(argv[1], "many"))
    for (int i = 0; i < 300000; i++) {
      cilk_spawn set(i);
      cilk_spawn set(i + 1);
    }
  if (fgets(word, sizeof word, stdin))
    printf("read %s", word);
  fprintf(stderr, "to standard error\n");
  printf("%d words\n", argc);
  return argc > 1 ? atoi(argv[1]) : 0;
}
"""


class Manners(Wrapping):
    """Checks of a program's runs, and of the wrapper."""

    def __init__(self, given, room):
        self.given, self.room, self.checks, self.failures = given, Path(room), 0, []
        (self.room / "program.c").write_text(SOURCE)

    def check(self, what, holds, said=""):
        self.checks += 1
        if not holds:
            self.failures += harness.shown([f"manners: not so: {what} {str(said)[-300:]}"])

    def cc(self, *words, env=None):
        return harness.run([self.given.wrappers / "cilkcheck-cc", *words], self.room, env)

    def run(self, *words, env=None, text="", cwd=None):
        return subprocess.run(["./program", *words], cwd=cwd or self.room, env={**harness.ENVIRONMENT, **(env or {})}, input=text, capture_output=True, text=True)

    def traces(self, folder=None):
        return sorted(it.name for it in Path(folder or self.room).iterdir() if "trace" in it.name)

    def compiling(self):
        # (the first compile may build the pass and the runtime)
        self.cc("program.c", "-o", "program")
        ran = self.cc("program.c", "-o", "program")
        self.check("it compiles in silence", not ran.status and not ran.errors, ran.errors)
        ran = self.cc("-c", "program.c")
        self.check("-c makes program.o", not ran.status and (self.room / "program.o").exists(), ran.errors)
        ran = self.cc("-c", "-o", "x.o", "program.c")
        self.check("-c -o x.o makes x.o", not ran.status and (self.room / "x.o").exists(), ran.errors)
        ran = self.cc("x.o", "-o", "linked")
        self.check("an object is linked", not ran.status and harness.run(["./linked"], self.room).status == 0, ran.errors)
        self.check("its trace is named after it", self.traces() == ["linked.trace"], self.traces())
        (self.room / "linked.trace").unlink()
        (self.room / "wrong.c").write_text("#include <cilk/cilk.h>\nint main(void) { return y; }\n")
        ran = self.cc("wrong.c", "-o", "wrong")
        self.check("the compiler's errors and status come through", ran.status == 1 and "wrong.c:2" in ran.errors and not (self.room / "wrong").exists(), ran)
        ran = self.cc("-E", "program.c")
        self.check("-E preprocesses", not ran.status and "main" in ran.output, ran.errors)
        ran = self.cc("-Wall", "-Wextra", "-Werror", "-c", "program.c")
        self.check("no warning comes from what is rewritten", not ran.status, ran.errors)

    def running(self):
        ran = self.run("7", text="a line\n")
        self.check("output, input and status are the program's", (ran.returncode, ran.stdout) == (7, "read a line\n2 words\n"), ran)
        lines = ran.stderr.splitlines()
        self.check("one line is said on standard error, the last", lines[0] == "to standard error" and len(lines) == 2 and lines[1].startswith("cilkcheck: recorded ") and lines[1].endswith("program.trace"), lines)
        self.check("one trace is left", self.traces() == ["program.trace"], self.traces())
        trace = verdicts.judge(self.room / "program.trace", self.given.cilkcheck)
        self.check("it is clean", not trace.status and any("./program 7" in it for it in trace.notes), trace.notes)
        os.mkdir(self.room / "elsewhere")
        for to, left in (("elsewhere/other.trace", "other.trace"), ("elsewhere/named", "named.trace")):
            self.run(env={"CILKCHECK_TRACE": to})
            self.check(f"CILKCHECK_TRACE={to} names the place", left in self.traces(self.room / "elsewhere"), self.traces(self.room / "elsewhere"))
        ran = self.run(env={"CILKCHECK_TRACE": "nowhere/x.trace"})
        self.check("a place that cannot be written is told", "nowhere" in ran.stderr and "recorded" not in ran.stderr, ran.stderr)
        before = (self.room / "program.trace").read_text()
        self.run(env={"CILKCHECK_TRACE": "elsewhere/again"})
        self.check("another run's trace stays", (self.room / "program.trace").read_text() == before)

    def ending(self):
        ran = self.run("abort")
        self.check("abort is abort, and leaves no trace", ran.returncode == -signal.SIGABRT and self.traces() == [], (ran.returncode, self.traces()))
        self.run()
        child = subprocess.Popen(["./program", "wait"], cwd=self.room, env=harness.ENVIRONMENT, stdout=subprocess.PIPE, stderr=subprocess.PIPE)
        child.stdout.readline()
        self.check("an old trace is removed when the program starts", self.traces() == [], self.traces())
        child.kill()
        child.wait()
        time.sleep(0.1)
        self.check("what was cut off leaves nothing that could be judged", not any(it.endswith(".trace") for it in self.traces()), self.traces())

    def large(self):
        ran = self.run("many", env={"CILKCHECK_EPOCHS": "no", "CILKCHECK_LIMIT": "20"})
        paths = verdicts.traces_of(self.room / "program")
        self.check("what does not fit into one trace comes into several", len(paths) > 1 and [it.name for it in paths] == [f"program.{k}.trace" for k in range(1, len(paths) + 1)], (ran.stderr, self.traces()))
        found = verdicts.races(verdicts.judged(paths, self.given.cilkcheck))
        self.check("and their races are found", found and all(it.stat().st_size <= 64 << 20 for it in paths), found)
        self.run()
        self.check("a smaller run removes them", self.traces() == ["program.trace"], self.traces())

    def moving(self):
        folder = self.room / "moved"
        os.mkdir(folder)
        self.cc("-DRACE", "program.c", "-o", "racy")
        shutil.move(self.room / "racy", folder / "program")
        (self.room / "program.c").unlink()
        ran = self.run(cwd=folder, env={"PATH": "/nowhere"})
        found = verdicts.races(verdicts.judged(verdicts.traces_of(folder / "program"), self.given.cilkcheck))
        one = next(iter(found.values()))[0] if found else None
        self.check("a program that was moved runs by itself and names its lines", bool(one) and one.later.line == 7 and "x[i % 40]" in one.later.code, (ran.stderr, found))

    def all(self):
        own = Manners.compiling, Manners.running, Manners.ending, Manners.large, Manners.moving
        for part in (*own, *self.PARTS):
            try:
                part(self)
            except (verdicts.Fault, OSError, IndexError) as fault:
                self.check(f"{part.__name__} comes to its end", False, fault)


def main():
    given = harness.parser(__doc__).parse_args()
    with tempfile.TemporaryDirectory(prefix="cilkcheck-manners-") as room:
        manners = Manners(given, room)
        manners.all()
    harness.finish("manners", manners.checks, manners.failures, given.expect)


if __name__ == "__main__":
    main()
