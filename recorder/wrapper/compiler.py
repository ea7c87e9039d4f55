"""The compiler, and the pass that is built for its version and tried once with it."""
import fcntl
import hashlib
import os
import re
import shutil
import subprocess
import sys
from contextlib import contextmanager, suppress
from dataclasses import dataclass
from pathlib import Path

from .processes import Failed, say

RECORDER = Path(__file__).resolve().parent.parent
PASS = RECORDER / "pass"
NAMES = RECORDER / "names"
SUPPORTED = range(14, 20)
WANTED = f"clang {SUPPORTED[0]} to {SUPPORTED[-1]} (CILKCHECK_CC names one)"
REFUSED = 70                                                # the status where a program or a compiler is refused
# what a make that runs the wrapper says to the makes that it runs
MAKES = ("MAKEFLAGS", "MFLAGS", "MAKELEVEL", "CC", "CFLAGS", "CXX", "CXXFLAGS", "LDFLAGS")
PLUGIN, TRUSTED = "cilkcheck.so", "trusted"
VERSION = re.compile(r"\bclang version (\d+)(?:\.\d+)*")


@dataclass(frozen=True)
class Compiler:
    """A clang: what is called, the file behind it, its version and the first line of `--version`."""
    command: str
    file: str
    version: str = None
    title: str = None

    @property
    def major(self):
        return int(self.version.partition(".")[0])

    def driver(self, cxx):
        return [self.command, "--driver-mode=g++"] if cxx else [self.command]

    @property
    def identity(self):
        """What changes when another compiler is installed there."""
        st = os.stat(self.file)
        return f"{st.st_mtime_ns} {st.st_size} {self.file}"

    def asked(self):
        """The same, with the version that it tells."""
        with suppress(OSError, subprocess.SubprocessError):
            how = {"stdin": subprocess.DEVNULL, "capture_output": True, "text": True, "errors": "replace"}
            told = subprocess.run([self.command, "--version"], **how).stdout
            if it := VERSION.search(told):
                return Compiler(self.command, self.file, it[0].rpartition(" ")[2], told.splitlines()[0].strip())
        return self

    def supported(self):
        """The same, with its version, or a refusal."""
        it = self if self.version else self.asked()
        if not it.version:
            raise Failed(REFUSED, f"{self.command} is no clang: programs are recorded by {WANTED}")
        if it.major not in SUPPORTED:
            raise Failed(REFUSED, f"{self.command} is clang {it.version}: programs are recorded by {WANTED}")
        return it


def found():
    """The compiler of CILKCHECK_CC, else `clang`, else the latest clang that has its version in its name."""
    given = os.environ.get("CILKCHECK_CC")
    for name in [given] if given else ["clang", *(f"clang-{it}" for it in reversed(SUPPORTED))]:
        path = shutil.which(name)
        if path:
            return Compiler(path, os.path.realpath(path))
    raise Failed(127, f"no compiler {given or 'clang'}" + ("" if given else " (Debian, Ubuntu: apt-get install clang)"))


def sum_of(*files):
    total = hashlib.sha256()
    for it in files:
        total.update(it.read_bytes() + b"\0")
    return total.hexdigest()[:16]


def sources():
    """The checksums of what the pass is built of, and of that with its canary."""
    parts = sorted(it for it in PASS.iterdir() if it.suffix in (".cpp", ".h", ".c") or it.name == "Makefile")
    return sum_of(*(it for it in parts if not it.name.startswith("canary"))), sum_of(*parts)


def is_writable(folder):
    """Whether files can be made there, or in the first folder above it that is there."""
    while not folder.exists():
        folder = folder.parent
    return os.access(folder, os.W_OK | os.X_OK)


def cache():
    """A folder of the user's own, where that of the recorder cannot be written to."""
    home = os.environ.get("XDG_CACHE_HOME") or os.path.expanduser("~/.cache")
    return Path(home) / "cilkcheck" / "pass"


@contextmanager
def locked(folder):
    try:
        folder.mkdir(parents=True, exist_ok=True)
        lock = open(folder / "lock", "w", encoding="ascii")
    except OSError as fault:
        raise Failed(1, f"the compiler pass cannot be built: {fault.filename}: {fault.strerror}") from None
    with lock:
        fcntl.flock(lock, fcntl.LOCK_EX)
        yield


class Pass:
    """The pass for a compiler. A line of the file `trusted` says: of these sources this plugin was built, and by this
    compiler, which is of this version, it tells each kind of access. The canary is a program that has them all."""

    def __init__(self, compiler, session=None, places=None):
        self.compiler, self.session = compiler, session
        self.sources, self.tests = sources()
        self.places = places or [PASS / "out", cache()]

    def trusted(self):
        """(version, the title of the compiler, the plugin) of a compiler that was tried before, or None."""
        identity = self.compiler.identity
        for place in self.places:
            with suppress(OSError):
                for line in (place / TRUSTED).read_text(encoding="utf-8").splitlines():
                    of, plugin, version, told, title = line.split("\t")
                    if (of, told) == (self.tests, identity):
                        for at in self.places:
                            built = at / version / PLUGIN
                            if built.exists() and sum_of(built) == plugin:
                                return version, title, built
        return None

    def find(self):
        """The compiler with its version, and its plugin, which is built and tried where that was not done before."""
        known = self.trusted()
        if not known:
            self.compiler = self.compiler.supported()
            place = next((it for it in self.places if is_writable(it)), self.places[-1])
            with locked(place):
                known = self.trusted() or self.prepared(place)
        version, title, built = known
        self.compiler = Compiler(self.compiler.command, self.compiler.file, version, title)
        return self.compiler.supported(), built

    def built(self):
        """The plugin of these sources for the compiler's version, where there is one."""
        for place in self.places:
            folder = place / self.compiler.version
            with suppress(OSError):
                if (folder / "sources").read_text(encoding="ascii") == self.sources and (folder / PLUGIN).exists():
                    return folder / PLUGIN
        return None

    def prepared(self, place):
        compiler = self.compiler
        plugin = self.built() or self.build(place / compiler.version)
        self.tried(plugin, place)
        line = "\t".join((self.tests, sum_of(plugin), compiler.version, compiler.identity, compiler.title))
        told = place / TRUSTED
        lines = told.read_text(encoding="utf-8").splitlines() if told.exists() else []
        old = [it for it in lines if it.startswith(self.tests)]
        new = place / f"{TRUSTED}.{os.getpid()}"
        new.write_text("".join(f"{it}\n" for it in [*old, line]), encoding="utf-8")
        new.replace(told)
        return compiler.version, compiler.title, plugin

    def headers(self):
        """The folder of LLVM's headers for the compiler."""
        beside = Path(self.compiler.file).parent.parent / "include"
        if (beside / "llvm/Passes/PassPlugin.h").exists():
            return str(beside)
        config = shutil.which(f"llvm-config-{self.compiler.major}")
        if config:
            how = {"stdin": subprocess.DEVNULL, "capture_output": True, "text": True}
            told = subprocess.run([config, "--includedir"], **how).stdout.strip()
            if told and os.path.exists(f"{told}/llvm/Passes/PassPlugin.h"):
                return told
        package = f"llvm-{self.compiler.major}-dev"
        why = f"the compiler pass needs the headers of LLVM {self.compiler.major}"
        raise Failed(1, f"{why}: install {package} (Debian, Ubuntu: apt-get install {package})")

    def build(self, folder):
        headers = self.headers()
        by = shutil.which("g++") or shutil.which(self.compiler.command.replace("clang", "clang++")) or "c++"
        say(f"building the compiler pass for clang {self.compiler.version}, this once: 10 to 20 s")
        env = {name: value for name, value in os.environ.items() if name not in MAKES}
        words = ["make", "-s", "-C", PASS, f"-j{os.cpu_count() or 1}", f"OUT={folder}", f"INCLUDE={headers}"]
        log = folder / "log"
        try:
            folder.mkdir(parents=True, exist_ok=True)
            with open(log, "w", encoding="utf-8") as out:
                words += [f"CXX={by}", f"CLANG={self.compiler.file}"]
                status = self.session.start(words, stdin=subprocess.DEVNULL, stdout=out, stderr=out, env=env).wait()
            if status or not (folder / PLUGIN).exists():
                last = log.read_text(errors="replace").splitlines()[-15:]
                sys.stderr.write("".join(f"{it}\n" for it in last))
                raise Failed(1, f"the compiler pass does not build; all that was said is in {log}")
            (folder / "sources").write_text(self.sources, encoding="ascii")
        except OSError as fault:
            raise Failed(1, f"the compiler pass cannot be built: {fault.filename}: {fault.strerror}") from None
        return folder / PLUGIN

    def tried(self, plugin, place):
        """Compiles and runs the canary, which ends with status 0 where all of its accesses are told."""
        name = f"clang {self.compiler.version} ({self.compiler.file})"
        folder = self.session.name(place / f"canary-{os.getpid()}")
        try:
            folder.mkdir()
            for level in ("-O0", "-O2"):
                program = folder / "canary"
                clang = [self.compiler.command, "-w", level, *flags(plugin)]
                made, said = self.tells([*clang, PASS / "canary.c", "-o", program], folder / "said")
                if made:
                    raise Failed(REFUSED, f"{name} does not compile the canary of the pass at {level}: {said}")
                missed, said = self.tells([program], folder / "said")
                if missed:
                    raise Failed(REFUSED, f"{name} does not tell each access with the pass at {level}: {said}")
        except subprocess.TimeoutExpired:
            raise Failed(REFUSED, f"{name} does not compile and run the canary of the pass in 120 s") from None

    def tells(self, words, log):
        """The status of a command, and the first line that it says."""
        with open(log, "w+", encoding="utf-8", errors="replace") as out:
            child = self.session.start(words, stdin=subprocess.DEVNULL, stdout=out, stderr=out, env=environment())
            status = child.wait(120)
            out.seek(0)
            return status, next((it.strip() for it in out if it.strip()), f"status {status}")


def flags(plugin):
    """How clang is called so that the pass tells what it compiles: with lines and names, and calls of libraries stay
    calls. (Assembly of DWARF 5 has checksums of the files, which the rewritten text does not.)"""
    return ["-g", "-gdwarf-4", f"-fpass-plugin={plugin}", "-fno-builtin"]


def environment():
    """What the pass reads; and a compiler that crashes leaves no files of its symbolizer."""
    return {**os.environ, "CILKCHECK_NAMES": str(NAMES), "LLVM_DISABLE_SYMBOLIZATION": "1"}


if __name__ == "__main__":                                  # tools/install: builds and tries the pass in a folder
    from .processes import Session
    try:
        with Session() as at_work:
            Pass(found(), at_work, [Path(sys.argv[1])]).find()
    except Failed as failed:
        say(failed.text)
        sys.exit(failed.status)
