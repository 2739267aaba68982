"""Runs the two programs: with limits, on given streams, and with a preloaded library."""
import itertools
import os
import pathlib
import subprocess
import sys
import tempfile
import typing

import checks
from checks import Unlike

ROOT = pathlib.Path(__file__).resolve().parents[3]
DOCKER = os.environ.get("DOCKER") or str(ROOT / "crates/docker/out/docker")
DESK = os.environ.get("DESK") or str(ROOT / "crates/desk/out/desk")
# The program that makes calls of the crates.
CALLS = os.environ.get("HOSTILE_TESTS") or str(ROOT / "crates/hostile_tests/out/hostile_tests")

FORMATS = (ROOT / "docs/FORMATS.md").read_text(encoding="utf-8")
# Lines from docs/FORMATS.md.
DEVICE_LINE = b"docker: device failed\n"
MEMORY_LINE = b"docker: want of memory\n"
DAY_LINE = b"docker: day refused: before horizon plus three days\n"


class Ended(typing.NamedTuple):
    """How a program ended, and what it wrote."""

    status: int
    output: bytes
    errors: bytes


def run(command, given=b"", **options):
    """Runs a program to its end. `given` is its standard input, unless the options have another."""
    source = {} if "stdin" in options else {"input": given}
    sinks = {"stdout": subprocess.PIPE, "stderr": subprocess.PIPE} | source | options
    try:
        ended = subprocess.run(command, timeout=6 * checks.PATIENCE, check=False, **sinks)
    except subprocess.TimeoutExpired as late:
        raise Unlike(f"it hangs: {command}") from late
    return Ended(ended.returncode, ended.stdout, ended.stderr)


def docker(*words, before=(), **options):
    """Runs a command of `docker`. Its input is empty, unless the options have another. The words in
    `before` come first, and limit the program or preload a library."""
    return run([*before, DOCKER, *words], **options)


def piped(line, *words, **options):
    """Runs a command of `docker` whose standard input is a pipe from this line of the shell."""
    with subprocess.Popen(["setsid", "sh", "-c", line], stdout=subprocess.PIPE) as source:
        try:
            return docker(*words, stdin=source.stdout, **options)
        finally:
            source.stdout.close()
            source.terminate()


def in_memory(kilobytes):
    """The words that run the program with at most this much memory."""
    return ("prlimit", f"--as={kilobytes * 1024}")


def in_seconds(seconds):
    """The words that kill the program once it has used this many seconds of processor time."""
    return ("prlimit", f"--cpu={seconds}", "--core=0")


def on_disk(kilobytes):
    """The words that let a file grow only to this size. A write beyond it fails."""
    return ("env", "--ignore-signal=XFSZ", "prlimit", f"--fsize={kilobytes * 1024}")


def ended_on_disk(kilobytes):
    """The words that let a file grow only to this size. A write beyond it kills the program."""
    return ("env", "--default-signal=XFSZ", "prlimit", f"--fsize={kilobytes * 1024}", "--core=0")


def redirected(text):
    """The words that run the program with these redirections of the shell, such as `<&-`."""
    return ("sh", "-c", f'exec "$@" {text}', "sh")


# Redirections by which a program starts with one of its standard streams closed, or several.
CLOSED = ["<&-", ">&-", "2>&-", "<&- >&-", "<&- 2>&-", ">&- 2>&-", "<&- >&- 2>&-"]


def preloading(library, **settings):
    """The words that run the program with this library and these settings for it."""
    return ("env", f"LD_PRELOAD={library}", *(f"{name}={value}" for name, value in settings.items()))


def as_nobody():
    """The words that run the program as a user that may not write anywhere, if this user may do so."""
    return () if os.getuid() else ("setpriv", "--reuid=65534", "--regid=65534", "--clear-groups")


def builds():
    """Has the launchers build the programs if needed, by making and reading a first state."""
    with tempfile.TemporaryDirectory() as work:
        for name, words in (("docker", ["new", f"{work}/state"]), ("desk", [f"{work}/state"])):
            if not os.environ.get(name.upper()) and (status := subprocess.run([ROOT / name, *words], stdin=subprocess.DEVNULL, check=False).returncode):
                sys.exit(status)


def build_library(source, target):
    """Builds a library that is preloaded, from a source in tests/."""
    flags = ["-shared", "-fPIC", "-O2", "-o", str(target), str(ROOT / "tests" / source), "-ldl"]
    subprocess.run(["cc", *flags], check=True)
    return str(target)


def in_turn(trial, told="met"):
    """Calls `trial` with 1, 2, 3 and so on, the number of the call or the growth that a preloaded library meets. Yields the number, what `trial` returns, and the text
    of the file in which the library says what it met. The last text is None, because that run ended before the library met anything."""
    for number in itertools.count(1):
        pathlib.Path(told).unlink(missing_ok=True)
        found, met = trial(number), None
        if os.path.exists(told):
            met = held(told).decode()
        yield number, found, met
        if met is None:
            return


def names_in(kind, path):
    """The names that a program imports, or that a library defines."""
    listed = subprocess.run(["nm", "-D", f"--{kind}-only", path], check=True, capture_output=True)
    return {line.split()[-1].split("@")[0] for line in listed.stdout.decode().splitlines()}


def untried(program, library):
    """The calls that a program imports, and that the library neither wraps nor lists as left out."""
    lines = (ROOT / "tests/device/untried").read_text(encoding="ascii").splitlines()
    known = {line.split()[0] for line in lines if not line.startswith("#")}
    return sorted(names_in("undefined", program) - names_in("defined", library) - known)


# Files in the folder in which a case runs.


def give(text, name="STATE"):
    """Makes a file with this text."""
    pathlib.Path(name).write_bytes(text)
    return text


def renames(text, name="STATE"):
    """A new file with this text takes the place of a file."""
    give(text, "renamed")
    os.replace("renamed", name)


def held(name="STATE"):
    return pathlib.Path(name).read_bytes()
