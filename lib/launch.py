"""Proves and builds a program, if it isn't built from its sources as they are now, and then runs it: `python3 lib/launch.py PROGRAM [WORD..]`.

Progress goes to standard error, and the report on each crate to crates/PROGRAM/out/proving/CRATE.log. Status 70 says that the program couldn't be built."""
import contextlib
import hashlib
import os
import pathlib
import re
import shutil
import signal
import subprocess
import sys
import time
import typing

ROOT = pathlib.Path(__file__).resolve().parent.parent
# How many kilobytes of memory the check of one crate may need, and each job of a check.
MEMORY_OF_A_CHECK, MEMORY_OF_A_JOB = 5 * 1024 * 1024, 3 * 1024 * 1024
# A check that started less than this many seconds ago hasn't allocated all its memory yet.
YOUNG = 60
# With this many functions or more, a crate is proved by several jobs. In smaller crates, more jobs were slower.
MANY_FUNCTIONS = 100
NOT_BUILT = 70
# The clock of a file system ticks at least this often, in seconds.
TICK = 0.01
# The folders of a crate on which its proof depends.
PARTS = ("src", "specs", "proofs")


class NotBuilt(Exception):
    """Why the program can't be built."""


class Stopped(Exception):
    """A signal that ends the launcher. It has the signal's number."""


def say(text):
    print(f"{sys.argv[1]}: {text}", file=sys.stderr, flush=True)


def processors():
    return len(os.sched_getaffinity(0))


def rt(word):
    """What `rt` prints for this word."""
    return subprocess.run(["rt", word], check=True, capture_output=True, text=True).stdout


def free_memory():
    """How many kilobytes are free."""
    return int(re.search(r"^MemAvailable:\s*(\d+)", pathlib.Path("/proc/meminfo").read_text(encoding="ascii"), re.M)[1])


# ---- The crates and their sources


def plan(program):
    """The crates from which a program is built, including its own, each with the crates of this repository that it cites. The crate with the longest chain of crates up to
    the program comes first, so each crate comes after the crates that it cites."""
    lines = [re.split("[: ]+", line) for line in (ROOT / "crates.txt").read_text(encoding="utf-8").splitlines()]
    ours = {words[0] for words in lines}
    cited = {words[0]: [it for it in words[1:] if it in ours] for words in lines}
    chain = {program: 1}
    for crate in reversed(cited):
        for it in cited[crate] if crate in chain else ():
            chain[it] = max(chain.get(it, 0), chain[crate] + 1)
    return {crate: cited[crate] for crate in sorted((it for it in cited if it in chain), key=lambda it: -chain[it])}


def sources(crate):
    """The sources, definitions and proofs of a crate."""
    found = (path for part in PARTS for path in (ROOT / "crates" / crate / part).rglob("*"))
    return [path for path in found if path.suffix in (".rt", ".antt")]


def out(crate, *names):
    """The folder of what is built of a crate, or something in it."""
    return ROOT.joinpath("crates", crate, "out", *names)


def watched(program):
    """What lib/launch.sh compares with the program: its sources with their folders, crates.txt, and the files by which the kit is known."""
    yield ROOT / "crates.txt"
    for crate in plan(program):
        folders = [ROOT / "crates" / crate / part for part in PARTS]
        if not all(path.is_dir() for path in folders):
            yield ROOT / "crates" / crate
        yield from (path for folder in folders if folder.is_dir() for path in (folder, *(it for it in folder.rglob("*") if it.is_dir())))
        yield from sources(crate)
    if command := shutil.which("rt"):
        kit = pathlib.Path(command).resolve().parent
        yield from {pathlib.Path(command), *(it for it in (kit / "rt", kit / "rattle", kit.parent / "KIT-ID") if it.exists())}


def text_of(path):
    """The text of a file, or nothing if there is no file."""
    return path.read_text(encoding="utf-8") if path.is_file() else ""


def puts(path, text):
    """Writes a file as a whole, because another launcher may read it at the same time."""
    new = path.with_name(f"{path.name}.{os.getpid()}")
    new.write_text(text, encoding="utf-8")
    os.replace(new, path)


class Record:
    """What is recorded of a program when it is built: the checksum of all from which it was built, its own checksum, and the version of the kit."""

    def __init__(self, program):
        self.program, self.path = program, out(program, f"{program}.built")
        self.sum, self.own, self.kit = (text_of(self.path).split("\n", 2) + ["", "", ""])[:3]

    def own_now(self):
        return hashlib.sha256(out(self.program, self.program).read_bytes()).hexdigest()

    def is_built(self, wanted):
        """Whether the program was built from what has this checksum. A program that `rt` built isn't the one that is recorded. It may not be older than one of its
        sources. If there is no record, it may be in a copy of a checkout, in which only the times of writing are kept."""
        built = out(self.program, self.program)
        if not os.access(built, os.X_OK):
            return False
        if self.own == self.own_now():
            return self.sum == wanted
        found = (path.stat() for path in (ROOT / "crates.txt", *(path for crate in plan(self.program) for path in sources(crate))))
        return all((it.st_ctime_ns if self.own else it.st_mtime_ns) <= built.stat().st_mtime_ns for it in found)

    def keeps(self, wanted, kit, began):
        """Records the program, and lists what lib/launch.sh compares with it. The program gets the time at which its sources were first read. So what changes later is
        newer than the program."""
        names = (path.relative_to(ROOT) if path.is_relative_to(ROOT) else path for path in watched(self.program))
        puts(out(self.program, f"{self.program}.sources"), "".join(f"{name}\0" for name in names))
        puts(self.path, f"{wanted}\n{self.own_now()}\n{kit}")
        os.utime(out(self.program, self.program), ns=(began, began))


def checksums(kit, cites):
    """A checksum for each crate, of everything on which its proof depends. These are the kit, the crate's line in crates.txt, its sources and proofs, and the checksums of
    the crates that it cites."""
    sums, lines = {}, (ROOT / "crates.txt").read_text(encoding="utf-8").splitlines()
    for crate, cited in cites.items():
        made = hashlib.sha256(repr((kit, [line for line in lines if line.startswith(f"{crate}:")], [(it, sums[it]) for it in cited])).encode())
        for path in sorted(sources(crate)):
            made.update(f"{path.relative_to(ROOT)} {hashlib.sha256(path.read_bytes()).hexdigest()}\n".encode())
        sums[crate] = made.hexdigest()
    return sums


# ---- The checks


class Check(typing.NamedTuple):
    """A check that is running: its crate, its lane, its process, and when it began."""

    crate: str
    lane: int
    process: subprocess.Popen
    began: float


class Proving:
    """The proof of a program's crates, in lanes. A lane is a folder in which one check runs at a time. The first lane is the checkout. While `rt` checks a crate, it locks
    the folders of this crate and of all crates below it. So the other lanes are copies."""

    def __init__(self, program, sums):
        self.program, self.logs, self.began = program, out(program, "proving"), time.monotonic()
        self.lanes, self.running, self.proved_in = [ROOT], [], {}
        self.cites, self.sums = plan(program), sums
        # What an earlier launch has proved as it is now.
        self.proved = {crate for crate in self.cites if text_of(out(crate, "proved")).strip() == sums[crate]}
        self.waiting = [crate for crate in self.cites if crate not in self.proved]

    def shares_work(self):
        """Whether a check in a copy begins with what checks in the checkout have proved. `rt` shares this work among the copies through a folder next to the kit."""
        shared = pathlib.Path(rt("doc").strip()).parent.parent / "rattle-kept"
        try:
            shared.mkdir(mode=0o700, exist_ok=True)
            return shared.stat().st_uid == os.getuid()
        except OSError:
            return False

    def makes_lanes(self):
        """There is a lane for every two processors, and there are at least two. There is only one if the copies would have to prove everything themselves. A launch that
        was killed may have left old copies."""
        for old in self.logs.glob("lane-*"):
            shutil.rmtree(old)
        if len(self.waiting) < 2 or not self.shares_work():
            return
        for number in range(1, max(2, processors() // 2)):
            lane = self.logs / f"lane-{number}"
            self.lanes.append(lane)
            shutil.copytree(ROOT / "crates", lane / "crates", ignore=shutil.ignore_patterns("out"))
            shutil.copy2(ROOT / "crates.txt", lane)

    def removes_copies(self):
        """Moves to the checkout what `rt` keeps of the crates that were proved in copies, and removes the copies."""
        for crate, lane in self.proved_in.items():
            kept = lane / "crates" / crate / "out" / "incremental"
            if kept.is_dir():
                shutil.rmtree(out(crate, "incremental"), ignore_errors=True)
                shutil.move(kept, out(crate))
        for lane in self.lanes[1:]:
            shutil.rmtree(lane, ignore_errors=True)
        self.lanes, self.proved_in = [ROOT], {}

    def begins(self, crate, lane, *words, given=subprocess.DEVNULL):
        """Runs `rt` with these words for a crate. It gets a session of its own, so that it can be stopped together with everything that it started."""
        with open(self.logs / f"{crate}.log", "wb") as log:
            process = subprocess.Popen(["rt", *words], cwd=self.lanes[lane] / "crates" / crate, stdin=given, stdout=log, stderr=subprocess.STDOUT, start_new_session=True)
        self.running.append(Check(crate, lane, process, time.monotonic()))

    def next_crate(self):
        """The first crate that waits for no other crate."""
        return next((crate for crate in self.waiting if self.proved.issuperset(self.cites[crate])), None)

    def words_for(self, crate):
        """The words for the check of a crate while no other check runs. A crate with many functions gets a job for every processor, if memory allows. `rt` chooses one job
        if many crates are below, since it expects a job to take more memory than was measured."""
        functions = sum(len(re.findall(r"^.*\bfn ", path.read_text(encoding="utf-8"), re.M)) for path in (ROOT / "crates" / crate / "src").rglob("*.rt"))
        jobs = min(free_memory() // MEMORY_OF_A_JOB, processors())
        return ["--jobs", str(jobs)] if functions >= MANY_FUNCTIONS and jobs >= 2 else []

    def begins_more(self):
        """Starts checks until the lanes are full, memory is short or no crate can start. If no check is running, it starts one in any case."""
        while free := sorted(set(range(len(self.lanes))) - {it.lane for it in self.running}):
            crate, young = self.next_crate(), sum(time.monotonic() - it.began < YOUNG for it in self.running)
            if crate is None or self.running and free_memory() < (1 + young) * MEMORY_OF_A_CHECK:
                return
            self.waiting.remove(crate)
            words = [] if self.running or self.next_crate() else self.words_for(crate)
            self.begins(crate, free[0], "check", *words)

    def waits(self):
        """Waits until a check has ended, and returns it. While crates wait for memory, it looks every ten seconds whether there is some."""
        until = time.monotonic() + 10
        while time.monotonic() < until:
            for it in self.running:
                if it.process.poll() is not None:
                    self.running.remove(it)
                    return it
            time.sleep(0.02)
        return None

    def proves(self):
        """Proves the crates. A crate starts when the crates that it cites are proved. After a failure no other crate starts, and the running checks are completed."""
        self.makes_lanes()
        total, is_failed = len(self.cites), False
        say(f"proving {len(self.waiting)} crates of {total} and building the program: the first time up to an hour on four processors, later only what changed")
        while True:
            if not is_failed:
                self.begins_more()
            if not self.running:
                break
            if (it := self.waits()) is None:
                continue
            if it.process.returncode == 0:
                self.keeps(it)
                now = time.monotonic()
                so_far = f"{now - self.began:.0f} s" if now - self.began < 60 else f"{(now - self.began) // 60:.0f} min"
                say(f"{it.crate} is proved ({len(self.proved)} of {total}, {now - it.began:.0f} s; {so_far} so far)")
                continue
            is_failed = True
            say(f"{it.crate} isn't proved: see {self.logs}/{it.crate}.log")
            if self.running:
                say(f"no other crate begins; still under way: {' '.join(other.crate for other in self.running)}")
        self.removes_copies()
        if is_failed:
            sys.exit(NOT_BUILT)

    def keeps(self, check):
        """Records that a crate is proved as it was when the launch started."""
        self.proved.add(check.crate)
        if check.lane:
            self.proved_in[check.crate] = self.lanes[check.lane]
        out(check.crate).mkdir(exist_ok=True)
        out(check.crate, "proved").write_text(self.sums[check.crate] + "\n", encoding="utf-8")

    def generates(self):
        """Generates machine code, by a first run of the program with the words in its `args`. A word that names a file in its `data` becomes its path."""
        folder = ROOT / "crates" / self.program
        given = folder / "stdin"
        words = [f"data/{word}" if (folder / "data" / word).is_file() else word for word in map(str.strip, text_of(folder / "args").splitlines())]
        with open(given if given.is_file() else os.devnull, "rb") as text:
            self.begins(self.program, 0, "run", "--", *words, given=text)
        if self.running.pop().process.wait():
            raise NotBuilt(f"the program isn't built: see {self.logs}/{self.program}.log")

    def stops(self):
        """Stops all running checks, with everything that they started."""
        for it in self.running:
            os.killpg(it.process.pid, signal.SIGTERM)
        for it in self.running:
            it.process.wait()
        self.removes_copies()
        say("stopped; what is proved is kept")


def raises(number, _):
    raise Stopped(number)


def builds(program, sums):
    """Proves and builds a program from sources with these checksums."""
    if shutil.which("rt") is None:
        raise NotBuilt("the program isn't built, and the kit's command rt isn't on the PATH to prove and build it")
    proving = Proving(program, sums)
    # A signal that was ignored when the launcher began stays so.
    signals = [it for it in (signal.SIGINT, signal.SIGTERM, signal.SIGHUP) if signal.getsignal(it) != signal.SIG_IGN]
    for it in signals:
        signal.signal(it, raises)
    try:
        proving.proves()
        proving.generates()
    except Stopped as found:
        for it in signals:
            signal.signal(it, signal.SIG_IGN)
        proving.stops()
        sys.exit(128 + found.args[0])


def time_now(program):
    """The time by the clock of the file system. What changes after this has a later time. A user who may not write there gets the time of the program."""
    began = out(program, "proving", "began")
    with contextlib.suppress(PermissionError):
        for folder in (*map(out, plan(program)), began.parent):
            folder.mkdir(parents=True, exist_ok=True)
        began.write_bytes(b"")
        time.sleep(TICK)
        return began.stat().st_mtime_ns
    built = out(program, program)
    return built.stat().st_mtime_ns if built.is_file() else 0


def main():
    program = sys.argv[1]
    record, began = Record(program), time_now(program)
    # Without a kit, its version is the one with which the program was built.
    kit = rt("version") if shutil.which("rt") else record.kit
    sums = checksums(kit, plan(program))
    try:
        if not record.is_built(sums[program]):
            builds(program, sums)
    except NotBuilt as found:
        say(str(found))
        sys.exit(NOT_BUILT)
    # A user who may not write here runs the program all the same.
    with contextlib.suppress(PermissionError):
        record.keeps(sums[program], kit, began)
    # Python ignores these, and the program would too.
    for it in (signal.SIGPIPE, signal.SIGXFSZ):
        signal.signal(it, signal.SIG_DFL)
    os.execv(out(program, program), [out(program, program), *sys.argv[2:]])


main()
