"""The processes and files that a call makes: none of them outlives it, whatever ends it."""
import contextlib
import os
import shutil
import signal
import stat
import subprocess
import sys
import tempfile
import time
from pathlib import Path

SIGNALS = (signal.SIGINT, signal.SIGTERM, signal.SIGHUP)
# Seconds until a process that was told to end is killed.
PATIENCE = 5


class Failed(Exception):
    """The call ends with this status; what is to be said was said, or is the text."""

    def __init__(self, status, text=None):
        super().__init__(status)
        self.status, self.text = status, text


def say(text):
    # (a reader who has left is no reason to stop)
    with contextlib.suppress(OSError):
        print(f"cilkcheck: {text}", file=sys.stderr, flush=True)


class Session:
    """What has to end with this call. A signal ends it, and then this process by the same signal."""

    def __init__(self):
        self.children, self.paths, self.is_starting, self.pending = [], [], False, None

    def __enter__(self):
        for it in SIGNALS:
            # (what a caller ignores, as nohup does, stays ignored)
            if signal.getsignal(it) != signal.SIG_IGN:
                signal.signal(it, self.on_signal)
        return self

    def __exit__(self, kind, *_):
        self.end()

    def on_signal(self, number, _):
        if self.is_starting:
            self.pending = number
            return
        for it in SIGNALS:
            signal.signal(it, signal.SIG_IGN)
        self.end()
        say(f"stopped by {signal.Signals(number).name}")
        signal.signal(number, signal.SIG_DFL)
        os.kill(os.getpid(), number)

    def end(self):
        for it in self.children:
            self.stop(it)
        for it in self.paths:
            if os.path.isdir(it) and not os.path.islink(it):
                shutil.rmtree(it, ignore_errors=True)
            else:
                with contextlib.suppress(OSError):
                    os.unlink(it)
        self.children, self.paths = [], []

    @staticmethod
    def stop(child):
        """Ends a process and what it has started: a linker does not end with the compiler that runs it."""
        if child.poll() is not None:
            return
        for sign in (signal.SIGTERM, signal.SIGKILL):
            with contextlib.suppress(ProcessLookupError, PermissionError):
                os.killpg(child.pid, sign)
            end = time.monotonic() + PATIENCE
            while child.poll() is None and time.monotonic() < end:
                time.sleep(0.01)
            if child.poll() is not None:
                return

    def start(self, command, **how):
        """A process in a group of its own."""
        self.is_starting = True
        try:
            child = subprocess.Popen([str(it) for it in command], process_group=0, **how)
            self.children.append(child)
        except FileNotFoundError:
            raise Failed(127, f"{command[0]}: not found") from None
        except OSError as fault:
            raise Failed(1, f"{command[0]}: {fault.strerror}") from None
        finally:
            self.is_starting = False
            if self.pending:
                self.on_signal(self.pending, None)
        return child

    def run(self, command, **how):
        """Runs a command, whose messages come through; where it fails, its status is that of the call."""
        status = self.start(command, **how).wait()
        if status:
            raise Failed(status if status > 0 else 1)

    def output_of(self, command, given=None):
        """What a command prints."""
        how = {"stdout": subprocess.PIPE, "stderr": subprocess.DEVNULL, "text": True, "errors": "surrogateescape"}
        child = self.start(command, stdin=subprocess.DEVNULL if given is None else subprocess.PIPE, **how)
        return child.communicate(given)[0]

    def name(self, path):
        """Has the path removed at the end, if it is there then."""
        self.paths.append(str(path))
        return path

    def folder(self):
        """A folder for what lies between the steps."""
        name = Path(tempfile.gettempdir()) / f"cilkcheck-{os.getpid()}-{os.urandom(4).hex()}"
        self.name(name)
        try:
            name.mkdir(mode=0o700)
        except OSError as fault:
            raise Failed(1, f"{name}: {fault.strerror}") from None
        return name

    def keep(self, path):
        self.paths.remove(str(path))


class Output:
    """A file that is made under another name beside it, and renamed when it is whole. A device is written in place."""

    def __init__(self, session, path):
        self.session, self.path = session, path
        self.in_place = path == "-"
        with contextlib.suppress(OSError):
            self.in_place |= not stat.S_ISREG(os.stat(path).st_mode)
        folder, name = os.path.split(path)
        if self.in_place:
            if os.path.isdir(path):
                raise self.unopened("Is a directory")
            self.made = str(session.folder() / (name or "output"))
        else:
            if not os.path.isdir(folder or "."):
                raise self.unopened("Not a directory" if os.path.exists(folder) else "No such file or directory")
            if not os.access(folder or ".", os.W_OK | os.X_OK):
                raise self.unopened("Permission denied")
            # (the ending says to the linker and to clang what it is)
            self.made = os.path.join(folder, f".cilkcheck-{os.getpid()}-{name[-150:]}")
            session.name(self.made)

    def unopened(self, why):
        return Failed(1, f"unable to open output file '{self.path}': {why}")

    def done(self):
        """Puts what was made into its place."""
        try:
            if not self.in_place:
                os.replace(self.made, self.path)
                self.session.keep(self.made)
                return
            with open(self.made, "rb") as made:
                if self.path == "-":
                    shutil.copyfileobj(made, sys.stdout.buffer)
                    sys.stdout.buffer.flush()
                    return
                # (opened without O_TRUNC and O_CREAT: it is there)
                with os.fdopen(os.open(self.path, os.O_WRONLY), "wb") as place:
                    shutil.copyfileobj(made, place)
        except OSError as fault:
            raise Failed(1, f"{self.path}: {fault.strerror}") from None
