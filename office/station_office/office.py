"""An office: STATE, its folder, and docker commands on both."""
import collections
import contextlib
import functools
import hashlib
import math
import os
import pathlib
import shutil
import signal
import stat
import subprocess

import dockers

from . import packing
from .extracts import extracts_in
from .faults import Fault

# How many bytes a command writes for each byte of STATE: the packed copy, and the draft of the new STATE.
ROOM = 1.25
# How many bytes a command writes in any case, and about how many bytes unpacking gives for each byte of a packed file.
LEAST, UNPACKED = 16384, 10


def size_text(size):
    """A number of bytes as people read it."""
    return f"{size / 1e6:.0f} MB" if size >= 10e6 else f"{size / 1e6:.1f} MB" if size >= 1e6 else f"{math.ceil(size / 1e3)} KB"


def digest_of(path):
    """A text that changes whenever a file's content does."""
    return digest_once(path, dockers.identity(path))


@functools.cache
def digest_once(path, _):
    """The digest of a file's content. A file that is asked for several times is read once, unless another one takes its place."""
    with open(path, "rb") as file:
        return hashlib.file_digest(file, "blake2b").hexdigest()[:32]


def size_of(path):
    """The size of a file in bytes; 0 if there is no file."""
    try:
        return os.stat(path).st_size
    except OSError:
        return 0


class Office:
    """STATE and its folder. `status` is the greatest status of everything that was done, and `troubles` has the number of troubles of each kind, with the status of
    the kind."""

    def __init__(self, state, settings):
        self.state = pathlib.Path(state)
        self.folder = self.state.parent
        self.settings = settings
        self.program, _ = dockers.programs()
        self.work = self.folder / f".{self.state.name}.work"
        self.status = 0
        self.troubles = collections.Counter()
        self.reported = set()
        # The desk that changes STATE, and the greatest numbers of what STATE had in this run.
        self.desk, self.counted = None, None
        # A file that is being packed ahead, and steps of other work to do while STATE is packed.
        self.packing, self.meanwhile = None, ()
        # What was found to differ from the permanent timetable.
        self.differences = None
        # Whether a copy of STATE was kept in this run.
        self.is_copied = False

    def beside(self, ending):
        """The hidden file of this office beside STATE that has this ending."""
        return self.folder / f".{self.state.name}.{ending}"

    def say(self, subject, line):
        dockers.say(f"{subject}: {line}")

    def report(self, fault):
        """Prints a fault, and counts it. A fault that several parts of a run meet is printed and counted once."""
        if (text := (str(fault.subject), *fault.lines)) in self.reported:
            return
        self.reported.add(text)
        for line in fault.lines:
            self.say(fault.subject, line)
        self.counts(fault.status, fault.kind)

    def counts(self, status, kind, number=None):
        """Counts a trouble of a kind. If a number is given, there are as many troubles of this kind in all."""
        self.status = max(self.status, status)
        self.troubles[status, kind] = self.troubles[status, kind] + 1 if number is None else number

    def sums_up(self):
        """Prints how many troubles of each kind there were, if there were any. The greatest status doesn't hide the others here."""
        if self.troubles:
            found = [f"{number} {kind} (status {status})" for (status, kind), number in sorted(self.troubles.items())]
            self.say(self.state, f"status {self.status}: {', '.join(found)}")

    @contextlib.contextmanager
    def reporting(self):
        """Reports a fault of the statements inside the block. The statements after the block are carried out all the same."""
        try:
            yield
        except Fault as fault:
            self.report(fault)
        except OSError as error:
            self.report(self.device_fault(error))

    @contextlib.contextmanager
    def closing(self):
        """Ends the desk that changed STATE after the statements inside the block."""
        try:
            yield
        finally:
            self.ends_desk()

    def ends_desk(self):
        """Ends the desk that changed STATE, if there is one."""
        if self.desk is not None:
            self.desk.close()
            self.desk = None

    def device_fault(self, error):
        """The fault of a device that failed in this script."""
        return Fault(4, error.filename2 or error.filename or self.folder, error.strerror or str(error), *self.shortage(self.needed()))

    def needed(self, *paths):
        """About how many bytes a command writes: the new STATE, its copy, and what these files add."""
        return int(ROOM * size_of(self.state)) + sum(map(size_of, paths)) + LEAST

    def shortage(self, needs, folder=None):
        """How much room the disk lacks for a command that needs this number of bytes."""
        found = os.statvfs(folder or self.folder)
        free = found.f_bavail * found.f_frsize
        return [f"the disk is full: {size_text(free)} are free, and about {size_text(needs)} are needed"] if free < needs else []

    def docker(self, subject, *words, needs=0):
        """Runs a docker command, and returns its output. Paths among its words are made absolute. NEEDS is about how many bytes it writes."""
        before = dockers.identity(self.state)
        whole = [os.path.abspath(word) if isinstance(word, pathlib.Path) else word for word in words]
        ended = subprocess.run([self.program, *whole], stdin=subprocess.DEVNULL, capture_output=True, check=False)
        if ended.returncode != 0:
            raise self.docker_fault(subject, ended, before, needs)
        return ended.stdout

    def docker_fault(self, subject, ended, before, needs):
        """The fault of a docker command: its line, and what to do."""
        if ended.returncode < 0:
            why = ", as where the system has no memory left" if ended.returncode == -signal.SIGKILL else ""
            return Fault(4, subject, f"docker was ended by signal {-ended.returncode}{why}")
        return self.fault_of(subject, ended.returncode, ended.stderr, before, needs)

    def fault_of(self, subject, status, text, before=None, needs=0):
        """The fault that a program of docker reported with this status and line: the line, and what to do. BEFORE says which file STATE was."""
        line = text.decode("utf-8", "replace").strip()
        reasons = self.reasons(before, needs) if status == 4 else []
        return Fault(min(status, 4), subject, line, *(reasons or filter(None, [dockers.advice(line)])))

    def reasons(self, before, needs):
        """Reasons that can be found if docker says only that a device failed."""
        if before is not None and dockers.identity(self.state) != before:
            return ["another command wrote STATE meanwhile, so this one changed nothing: do it again"]
        if not os.access(self.folder, os.W_OK):
            return [f"{self.folder} may not be written"]
        return self.shortage(needs)

    def files(self):
        """The extracts that count in STATE, from the newest full extract on."""
        return self.files_of(self.state, self.state)

    def files_of(self, subject, state):
        """The extracts that count in a state. If its file has no state's head, docker says what is wrong with it."""
        known = dockers.knowledge(state)
        return extracts_in(known) if known else dockers.extracts_of(self.docker(subject, "files", state))

    def unpacked(self, path):
        """A file with the unpacked content of another file: that file itself if it isn't packed. A pipe is read into a file first."""
        packed, plain = path, self.work / "plain"
        try:
            if not stat.S_ISREG(os.stat(path).st_mode):
                packed = self.work / "piped"
                with open(path, "rb") as pipe, open(packed, "wb") as file:
                    shutil.copyfileobj(pipe, file, 1 << 20)
            if packing.packing_of(packed) is None:
                return packed
            with packing.stream_of(packed) as stream, open(plain, "wb") as file:
                shutil.copyfileobj(stream, file, 1 << 20)
        except Fault as fault:
            fault.subject = path
            raise
        except OSError as error:
            lines = ["there is no such file"] if isinstance(error, FileNotFoundError) else [error.strerror or str(error), *self.shortage(UNPACKED * size_of(packed))]
            raise Fault(4, path, *lines) from None
        return plain

    def stays(self, path):
        """Another name for STATE's present file, so that it can be compared with the new STATE."""
        path.unlink(missing_ok=True)
        try:
            os.link(self.state, path)
        except OSError:
            shutil.copyfile(self.state, path)
        return path
