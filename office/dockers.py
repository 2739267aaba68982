"""Asks for dockers of one STATE, and for the files that STATE is made of. There are two ways to ask, with the same interface.

If there is a program `desk`, one process of it answers every request. It loads STATE once, and renews it after STATE's file has changed. Otherwise each
request is a `docker` command, which reads STATE again; for a national state that takes about a second and at most 60 MB of memory. Its answer is kept as long
as STATE's file is the same. Both ways give the same bytes.

DOCKER names the program `docker`, and DESK the program `desk`. Without them, the programs that ./install has put here are used. If there are none, the
programs of the sources around this file are used, and then those that ./install has put elsewhere on the PATH."""
import collections
import contextlib
import datetime
import fcntl
import itertools
import os
import pathlib
import re
import select
import shutil
import subprocess
import sys
import threading
import time
from typing import NamedTuple, Optional

HERE = pathlib.Path(__file__).resolve().parent
NO_PROGRAM = "there is no program docker: build it by `./docker` or install it by `./install` of its sources, or name it in DOCKER"

# A TIPLOC as docker reads it: one to seven bytes from 0x21 to 0x7E, of which the first isn't a hyphen.
TIPLOC = re.compile(r"[!-,.-~][!-~]{0,6}")
# A UID as `desk` reads it: six bytes from 0x21 to 0x7E.
UID = re.compile(r"[!-~]{6}")
# A train identity as `desk` reads it.
IDENTITY = re.compile(r"[!-~]{4}")
# The first and the last column of each field in a line of `files`, and in the heading of a docker.
# The fields have the names that docs/FORMATS.md gives them. docs/check compares the columns with
# that page.
FILE = {
    "date of extract": (1, 10), "time of extract": (12, 15), "current file reference": (17, 23), "update indicator": (25, 25), "last file reference": (27, 33),
}
HEADING = {"description of the TIPLOC": (27, 52)}
# The columns of a name in a line of `known`, and the first column of its value.
NAME = (1, 12)
VALUE = 14
# The most bytes of answers that are kept between commands.
KEPT = 64 << 20
# The number of seconds after which a process that gives no answer is ended.
PATIENCE = 300
# The status of an answer if the request needs a program `desk` that isn't available. No program has
# this status.
UNKNOWN = 5
# The status with which a desk refuses a line that it doesn't know.
NO_REQUEST = 2
# If the words of a request are good, these statuses of its answer say that the request isn't known.
LACKING = (UNKNOWN, NO_REQUEST)
# The lists that are requested only once as long as STATE doesn't change. If a desk doesn't know
# one of the newer requests, this fact is remembered too.
LISTS = (("files",), ("known",), ("places",))
NEWER = ("permanent", "detail", "permanent-detail")
# The most bytes of requests that are sent together. Every pipe holds 4096, which is enough for these and for the requests that were sent ahead.
TOGETHER = 3072
# How many times many requests are sent, if the process ends.
TRIES = 2
# How many of the next dockers a process is asked for before one is read, and how many bytes of answers its pipe then holds, if the system allows that.
AHEAD, ROOM = 8, 1 << 20
# The most bytes that are read at once from a process.
AT_ONCE = 1 << 20


class Answer(NamedTuple):
    """An answer of docker: with status 0 what it writes to standard output, otherwise its line on standard error."""
    status: int
    text: bytes


class Extract(NamedTuple):
    """A file that counts in STATE, from its line in `files`."""
    date: str
    time: str
    reference: str
    indicator: str
    last: str

    @property
    def name(self):
        return f"{'full extract' if self.indicator == 'F' else 'update'} {self.reference} of {self.date} {self.time[:2]}:{self.time[2:]}"


class Coverage(NamedTuple):
    """The days that STATE covers, from `known`: the horizon, the day of the newest full extract, and the last day of the schedules that have an end. Each is
    None if there is none. `schedules` is the number of schedules."""
    horizon: Optional[str]
    full: Optional[str]
    last: Optional[str]
    schedules: int


def is_tiploc(word):
    return TIPLOC.fullmatch(word) is not None


def is_date(word):
    """Whether docker reads a word as a day."""
    try:
        return re.fullmatch(r"\d{4}-\d\d-\d\d", word, re.ASCII) is not None and 1960 <= datetime.date.fromisoformat(word).year <= 2059
    except ValueError:
        return False


def fields(line, columns):
    return [line[first - 1:last].strip() for first, last in columns.values()]


def extracts_of(text):
    """The files in an answer to `files`."""
    lines = text.decode("ascii").split("\n")[:-1]
    return [Extract(*fields(line, FILE)) for line in lines]


def coverage_of(text):
    """The days in an answer to `known`."""
    found = {line[NAME[0] - 1:NAME[1]].strip(): line[VALUE - 1:] for line in text.decode("ascii").splitlines()}
    horizon, full = found.get("HORIZON", "NONE"), found.get("FULL")
    return Coverage(None if horizon == "NONE" else horizon, full and full[:10], found.get("LAST"), int(found["SCHEDULES"]))


def missing(extracts):
    """The updates that don't follow the file before them, each with the reference of the file that is missing before it."""
    before = [None, *(extract.reference for extract in extracts)]
    return [(extract.last, extract) for extract, last in zip(extracts, before) if extract.indicator == "U" and extract.last != last]


def description_of(docker):
    """The description of the place in a docker's heading; empty if nobody knows the code."""
    return fields(docker.decode("ascii"), HEADING)[0]


def advice(line):
    """What a fault's line means and what to do, from the table of causes, whose lines have no numbers. Empty if the table has no such fault. In the table N stands
    for the number of the record, and C for the column."""
    fault = re.sub(r"^usage: .*", "usage", re.sub(r"^docker: |: (record|offset) \d+| \d+$", "", line.strip()))
    numbers = {"N": re.search(r": record (\d+)", line), "C": re.search(r" (\d+)$", line.strip())}
    causes = (HERE / "causes").read_text(encoding="utf-8").splitlines()
    told = next((f"{means}. {what}" for name, means, what in (cause.split("\t") for cause in causes) if name == fault), "")
    return re.sub(r"\b[NC]\b", lambda found: numbers[found[0]][1] if numbers[found[0]] else found[0], told)


def wrong_place(word):
    """The refusal of a word that isn't a place; None if it is one."""
    return None if is_tiploc(word) else Answer(2, f"{word!r} is no place: a code has one to seven characters\n".encode())


def wrong_day(word):
    """The refusal of a word that isn't a day; None if it is one."""
    return None if is_date(word) else Answer(2, f"{word!r} is no day: write YYYY-MM-DD, from 1960 to 2059\n".encode())


def wrong_train(uid, date):
    """The refusal of words that don't name a train and a day; None if they do."""
    return wrong_day(date) if UID.fullmatch(uid) else Answer(2, f"{uid!r} is no UID: it has six characters\n".encode())


def identity(path):
    """The identity of the file at a path. A file that takes its place has another identity."""
    try:
        found = os.stat(path)
    except OSError:
        return None
    return found.st_dev, found.st_ino, found.st_size, found.st_mtime_ns


class Reader:
    """The part that both ways of asking share: words are checked before they are sent, and only one request is asked at a time."""

    # Whether single trains can be asked for.
    has_trains = False

    def __init__(self, program, state):
        self.program = program
        self.state = os.path.abspath(state)
        self.turn = threading.Lock()

    def print_docker(self, tiploc, date):
        """The docker of a place on a day."""
        return wrong_place(tiploc) or wrong_day(date) or self.ask(("print", tiploc, date))

    def permanent(self, tiploc, date):
        """The docker of a place on a day without the short-term plan. Like `places`, only `desk` knows it."""
        if not self.has_trains:
            return Answer(UNKNOWN, b"what is permanent needs the program desk\n")
        return wrong_place(tiploc) or wrong_day(date) or self.ask(("permanent", tiploc, date))

    def detailed(self, tiploc, date, is_permanent=False):
        """A docker, or the permanent docker, in which each line is followed by the records that it was made from. Only `desk` knows it; a desk of an older version
        refuses with NO_REQUEST."""
        if not self.has_trains:
            return Answer(UNKNOWN, b"what a docker was made from needs the program desk\n")
        return wrong_place(tiploc) or wrong_day(date) or self.ask(("permanent-detail" if is_permanent else "detail", tiploc, date))

    def dockers(self, wanted, command="print"):
        """The dockers of many places, each on its day, in this order; or what `permanent` gives. They are asked for one by one, as far as they are read."""
        return (self.print_docker(*one) if command == "print" else self.permanent(*one) for one in wanted)

    def files(self):
        """The list of the files that STATE is made of."""
        return self.ask(("files",))

    def places(self):
        """The list of places. Only `desk` knows it; a desk of an older version refuses with NO_REQUEST."""
        return self.ask(("places",)) if self.has_trains else Answer(UNKNOWN, b"names need the program desk\n")

    def known(self):
        """What STATE covers. Like `places`, only `desk` knows it."""
        return self.ask(("known",)) if self.has_trains else Answer(UNKNOWN, b"the days that are covered need the program desk\n")

    def train(self, uid, date):
        """The schedule of a UID on a day. Only `desk` knows it."""
        if not self.has_trains:
            return wrong_train(uid, date) or Answer(UNKNOWN, b"a train by itself needs the program desk\n")
        return wrong_train(uid, date) or self.ask(("train", uid, date))

    def listed(self, identity, date):
        """The trains that have a train identity and start on a day. Only `desk` knows them; a desk of an older version refuses with NO_REQUEST."""
        if not self.has_trains:
            return Answer(UNKNOWN, b"trains by their identity need the program desk\n")
        if not IDENTITY.fullmatch(identity):
            return Answer(2, f"{identity!r} is no train identity: it has four characters\n".encode())
        return wrong_day(date) or self.ask(("trains", identity, date))

    def trains(self, wanted):
        """The schedules of many UIDs, each on its day. They are asked for together."""
        if not self.has_trains:
            return [self.train(*one) for one in wanted]
        refused = [wrong_train(*one) for one in wanted]
        answers = iter(self.ask_all([("train", *one) for one, fault in zip(wanted, refused) if fault is None]))
        return [fault or next(answers) for fault in refused]

    def close(self):
        """Ends the process that was started."""


class Commands(Reader):
    """Asks with one `docker` command for each request."""

    def __init__(self, program, state):
        super().__init__(program, state)
        self.seen = None
        self.kept = collections.OrderedDict()

    def ask(self, request):
        with self.turn:
            now = identity(self.state)
            if now != self.seen:
                self.kept.clear()
                self.seen = now
            if request not in self.kept:
                answer = self.run(request)
                # An answer isn't kept if the file may have changed in the meantime, or if another try may give a better answer.
                if now is None or identity(self.state) != now or answer.status > 1:
                    return answer
                self.kept[request] = answer
                while sum(len(kept.text) for kept in self.kept.values()) > KEPT:
                    self.kept.popitem(last=False)
            return self.kept[request]

    def at_hand(self, tiploc, date):
        """The docker of a place, if it can be had without reading STATE."""
        with self.turn:
            return self.kept.get(("print", tiploc, date)) if identity(self.state) == self.seen else None

    def run(self, request):
        command, *words = request
        try:
            ended = subprocess.run([self.program, command, self.state, *words], stdin=subprocess.DEVNULL, capture_output=True, timeout=PATIENCE, check=False)
        except subprocess.TimeoutExpired:
            return Answer(4, b"docker: no answer\n")
        if ended.returncode == 0:
            return Answer(0, ended.stdout)
        # A process that a signal ended says nothing. Most often the system ended it because memory ran out.
        return Answer(ended.returncode, ended.stderr) if 1 <= ended.returncode <= 4 else Answer(3, b"docker: ended by the system\n")


class Ended(Exception):
    """The process of `desk` has ended, or what it wrote isn't an answer."""


def line_of(request):
    """A request as a line for `desk`."""
    return " ".join(request).encode("ascii") + b"\n"


def together(requests):
    """Divides requests into parts. An empty pipe has room for a whole part, so sending it never waits for a reader."""
    part, size = [], 0
    for request in requests:
        length = len(line_of(request))
        if size + length > TOGETHER:
            yield part
            part, size = [], 0
        part.append(request)
        size += length
    if part:
        yield part


class Desk(Reader):
    """Asks one process of `desk`, without --write, so that no request changes STATE. The process is started at the first request, and again if it has
    ended."""

    has_trains = True

    def __init__(self, program, state):
        super().__init__(program, state)
        self.process = None
        # How many times the process has ended by itself.
        self.ends = 0
        self.seen = None
        self.knowledge = None
        self.lists = {}
        # What the process has written and nobody has read yet.
        self.came = bytearray()
        # The requests whose answers nobody has read yet, in their order, and the answers that were read and that nobody wanted yet.
        self.sent, self.early = collections.deque(), {}

    def ask(self, request):
        answer, fault = self.tried(lambda: self.kept(request) or self.answered(request))
        return answer or fault

    def ask_all(self, requests):
        """The answers to many requests. All are sent before the first answer is read."""
        answers, fault = self.tried(lambda: [answer for part in together(requests) for answer in self.exchange(part)])
        return [fault] * len(requests) if fault else answers

    def dockers(self, wanted, command="print"):
        """The dockers of many places, as above, all of the STATE that the first one is of. The process makes the next ones while one is read. If it ends twice, all that
        are left have the fault."""
        refused = [wrong_place(tiploc) or wrong_day(date) for tiploc, date in wanted]
        left = collections.deque((command, *one) for one, wrong in zip(wanted, refused) if not wrong)
        most, renews, fault = self.ends + TRIES, True, None
        for wrong in refused:
            if not wrong and not fault:
                request, ahead = left.popleft(), tuple(itertools.islice(left, AHEAD))
                answer, fault = self.tried(lambda: self.kept(request) or self.answered(request, ahead), most, renews)
                renews = False
            yield wrong or fault or answer

    def tried(self, asks, most=None, renews=True):
        """What `asks` returns, and no fault. If the process ends, it is asked again, until it has ended twice, or this number of times since it was first started. Then the
        fault is returned, and nothing else."""
        with self.turn:
            most = most or self.ends + TRIES
            while self.ends < most:
                try:
                    fault = self.renewed() if renews or self.process is None else None
                    if fault is None:
                        return asks(), None
                except Ended:
                    self.ends += 1
                    fault = self.end()
                if fault is not None:
                    return None, fault
            return None, Answer(4, b"desk: ended twice without an answer\n")

    def begins(self):
        """Starts the process, so that it reads STATE before it is asked. If it can't be started, the first request fails."""
        with self.turn, contextlib.suppress(OSError):
            self.renewed()

    def is_running(self):
        """Whether the process was started and hasn't ended."""
        return self.process is not None and self.process.poll() is None

    def at_hand(self, tiploc, date):
        """The docker of a place, if it can be had without reading STATE; here it always can."""
        return self.print_docker(tiploc, date)

    def kept(self, request):
        """The list that this request asks for, if it was read since STATE changed; or the answer that the process doesn't know the request."""
        return self.lists.get(request) or self.lists.get(request[:1])

    def forgets(self):
        """Forgets the answers, since STATE has changed."""
        self.lists.clear()
        self.early.clear()

    def answered(self, request, ahead=()):
        """The answer of the process, which is asked for other answers ahead. A list is kept until STATE changes, and so is the answer that there is none."""
        self.sends([one for one in (request, *ahead) if one not in self.early and one not in self.sent and not self.kept(one)])
        answer = self.reads(request)
        if request in LISTS and answer.status in (0, NO_REQUEST) or request[0] in NEWER and answer.status == NO_REQUEST:
            self.lists[request[:1]] = answer
        return answer

    def renewed(self):
        """Makes sure that the process knows exactly what STATE's file has now. Returns the fault if that fails."""
        now, known = identity(self.state), knowledge(self.state)
        if self.process is None:
            self.forgets()
            self.start()
        elif now != self.seen:
            if grew(self.knowledge, known):
                answer = self.exchange([("renew",)])[0]
                self.forgets()
                if answer.status != 0:
                    return answer
            else:
                # Another state took STATE's place. The process would join it with the state in memory.
                self.end()
                self.forgets()
                self.start()
        self.seen, self.knowledge = now, known
        return None

    def start(self):
        self.runs([self.program, self.state])

    def runs(self, words, folder=None):
        """Starts the process, with room for the dockers that it makes ahead."""
        self.process = subprocess.Popen(words, cwd=folder, stdin=subprocess.PIPE, stdout=subprocess.PIPE, stderr=subprocess.PIPE)
        with contextlib.suppress(OSError):
            fcntl.fcntl(self.process.stdout, fcntl.F_SETPIPE_SZ, ROOM)

    def exchange(self, requests):
        """Sends requests, and reads their answers."""
        self.sends(requests)
        return [self.reads(request) for request in requests]

    def sends(self, requests):
        """Sends requests, one per line."""
        try:
            self.process.stdin.write(b"".join(map(line_of, requests)))
            self.process.stdin.flush()
        except OSError as error:
            raise Ended from error
        self.sent.extend(requests)

    def reads(self, request):
        """The answer to a request that was sent. The answers before it are kept until they are wanted. A process that takes too long is ended."""
        end = time.monotonic() + PATIENCE
        while request not in self.early:
            answer = self.read(end)
            self.early[self.sent.popleft()] = answer
        return self.early.pop(request)

    def read(self, end):
        """Reads an answer: a header `STATUS LINES BYTES`, and then this number of bytes. Waits for it up to this time."""
        while b"\n" not in self.came and len(self.came) < 64:
            self.receives(end)
        found = re.match(rb"([0-4]) (\d+) (\d+)\n", self.came)
        if found is None:
            raise Ended
        first, (status, lines, length) = found.end(), (int(number) for number in found.groups())
        while len(self.came) < first + length:
            self.receives(end)
        text = bytes(self.came[first:first + length])
        del self.came[:first + length]
        if text.count(b"\n") != lines:
            raise Ended
        return Answer(status, text)

    def receives(self, end):
        """Reads what the process has written."""
        output = self.process.stdout.fileno()
        if not select.select([output], [], [], max(end - time.monotonic(), 0))[0]:
            self.process.kill()
            raise Ended
        piece = os.read(output, AT_ONCE)
        if not piece:
            raise Ended
        self.came += piece

    def end(self):
        """Ends the process. If it had ended by itself with a line on standard error, for example because STATE is refused, that line is the fault."""
        process, self.process = self.process, None
        for unread in (self.came, self.sent, self.early):
            unread.clear()
        if process is None:
            return None
        try:
            process.stdin.close()
        except OSError:
            pass
        # The process may still write answers. If nobody could read them, it would end with a fault.
        try:
            process.wait(timeout=1)
        except subprocess.TimeoutExpired:
            process.kill()
            process.wait()
        process.stdout.close()
        told = process.stderr.read()
        process.stderr.close()
        return Answer(process.returncode, told) if 1 <= process.returncode <= 4 and told else None

    def close(self):
        with self.turn:
            self.end()


class Knowledge(NamedTuple):
    """The head of a state's text: its horizon and its ledger items."""
    horizon: int
    items: tuple


def knowledge(path):
    """What a state knows, from the head of its text; None if the file isn't a state."""
    try:
        with open(path, "rb") as text:
            head = text.read(14)
            count = int.from_bytes(head[6:14], "big")
            if len(head) < 14 or head[:4] != b"DKS2" or 14 + 19 * count > os.fstat(text.fileno()).st_size:
                return None
            return Knowledge(int.from_bytes(head[4:6], "big"), tuple(text.read(19) for _ in range(count)))
    except OSError:
        return None


def grew(before, after):
    """Whether the second state has all that the first had, so that joining both gives the second: its horizon is no lower, and it has each file that still
    counts. If either can't be read, the answer is yes, and `desk` reports what is wrong."""
    if before is None or after is None:
        return True
    floor = next((item[:11] for item in after.items if item[11:12] == b"F"), b"")
    return before.horizon <= after.horizon and all(item in after.items for item in before.items if item[:11] >= floor)


def candidates():
    """The pairs of programs `docker` and `desk` that may be used, the best first."""
    if named := os.environ.get("DOCKER"):
        yield named, f"{named}-desk"
        return
    yield HERE / "docker", HERE / "desk"
    built = HERE.parent / "crates"
    yield built / "docker" / "out" / "docker", built / "desk" / "out" / "desk"
    for folder in os.get_exec_path():
        installed = pathlib.Path(folder).parent / "share" / "station-office"
        yield installed / "docker", installed / "desk"
    yield "station-docker", "station-docker-desk"


def programs():
    """The paths of the programs `docker` and `desk`. Each is None if there is none."""
    for docker, desk in candidates():
        if found := shutil.which(docker):
            return found, shutil.which(os.environ.get("DESK") or desk)
    return None, None


def reader_of(state, docker: Optional[str] = None, desk: Optional[str] = None):
    """The best way of asking on this machine: `desk` if there is one, otherwise `docker`."""
    found = programs()
    docker, desk = docker or found[0], desk or found[1]
    if docker is None and desk is None:
        say(NO_PROGRAM)
        sys.exit(4)
    return Desk(desk, state) if desk is not None else Commands(docker, state)


def version():
    """The version that is installed."""
    path = HERE / "version"
    return path.read_text(encoding="utf-8").strip() if path.exists() else "of a checkout"


def say(text):
    print(f"station-office: {text}", file=sys.stderr)


def say_fault(subject, answer):
    """Prints a fault's line, and what to do."""
    line = answer.text.decode().rstrip()
    say(f"{subject}: {line}")
    if told := advice(line):
        say(f"{subject}: {told}")
