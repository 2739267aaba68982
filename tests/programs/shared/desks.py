"""The answers of a desk, and a desk that is asked line by line."""
import contextlib
import os
import re
import select
import subprocess
import typing

import checks
from checks import Unlike, holds, same
from programs import DAY_LINE, DESK, DEVICE_LINE, DOCKER, FORMATS, MEMORY_LINE, Ended, run

# The texts that docs/FORMATS.md shows: what --help and --version print, and the answer to a line that isn't a request.
HELP, VERSION, USAGE = (text.encode() for text in re.findall(r"^```\n(desk: (?:.*\n)+?)```$", FORMATS, re.M))
NOT_SAVED = b"desk: changes not saved\n"
# The form of an answer's header, and the most bytes of a header.
HEADER = re.compile(rb"(0|[1-9][0-9]*) (0|[1-9][0-9]*) (0|[1-9][0-9]*)\n")
LONGEST_HEADER = 64


class Answer(typing.NamedTuple):
    """The status and the text of an answer."""

    status: int
    text: bytes

    def written(self):
        return b"%d %d %d\n" % (self.status, self.text.count(b"\n"), len(self.text)) + self.text


DONE = Answer(0, b"")
NOTHING = Answer(2, USAGE)
DEVICE = Answer(4, DEVICE_LINE)
MEMORY = Answer(3, MEMORY_LINE)
DAY_REFUSED = Answer(1, DAY_LINE)


def written(answers):
    return b"".join(answer.written() for answer in answers)


def first_of(text):
    """The answer with which a text begins, and the rest of the text; None if the answer isn't complete."""
    if not (header := HEADER.match(text)):
        holds(f"no header: {text[:80]!r}", len(text) < LONGEST_HEADER)
        return None
    status, lines, size = map(int, header.groups())
    answer, rest = Answer(status, text[header.end():header.end() + size]), text[header.end() + size:]
    if len(answer.text) < size:
        return None
    same("lines of an answer", answer.text.count(b"\n"), lines)
    return answer, rest


def answers_in(output):
    """The answers in an output."""
    answers = []
    while output:
        holds(f"no whole answer: {output[:80]!r}", found := first_of(output))
        answer, output = found
        answers.append(answer)
    return answers


def docker(*words):
    """The answer that a command of `docker` amounts to: its output, or its fault's line if it fails."""
    ended = run([DOCKER, *words], stdin=subprocess.DEVNULL)
    return Answer(ended.status, ended.errors if ended.status else ended.output)


def desk(*words, given=b"", **options):
    """Runs a desk with all these lines as its input."""
    return run([DESK, *words], given, **options)


class Desk(contextlib.AbstractContextManager):
    """A desk that is asked line by line."""

    def __init__(self, *words, program=(), **options):
        pipes = {"stdin": subprocess.PIPE, "stdout": subprocess.PIPE, "stderr": subprocess.PIPE}
        self.process = subprocess.Popen([*program, DESK, *words], bufsize=0, **(pipes | options))
        self.held = b""

    def __exit__(self, *_):
        self.process.kill()
        self.process.wait()
        for pipe in (self.process.stdin, self.process.stdout, self.process.stderr):
            if pipe and not pipe.closed:
                pipe.close()

    def say(self, text):
        while text:
            text = text[self.process.stdin.write(text):]

    def more(self, limit=65536):
        """Reads once from the desk's standard output. Returns whether any bytes came."""
        ready, _, _ = select.select([self.process.stdout], [], [], checks.PATIENCE)
        holds("no answer", ready)
        piece = os.read(self.process.stdout.fileno(), limit)
        self.held += piece
        return bool(piece)

    def answer(self):
        """The next answer."""
        while not (found := first_of(self.held)):
            holds(f"it ended after {self.held[:80]!r}", self.more())
        answer, self.held = found
        return answer

    def ask(self, line):
        self.say(line.encode() + b"\n")
        return self.answer()

    def gives(self, wanted, *lines):
        """Asks these lines. Each has to get this answer."""
        for line in lines:
            same(f"the answer to {line}", self.ask(line), wanted)

    def does(self, *lines):
        self.gives(DONE, *lines)

    def loses_its_reader(self):
        """The only reader of the desk's answers goes away."""
        self.process.stdout.close()
        self.process.stdout = None

    def ended(self):
        """How the desk ends by itself, and what it wrote after its last answer. Its input stays open."""
        source, self.process.stdin = self.process.stdin, None
        try:
            output, errors = self.process.communicate(timeout=checks.PATIENCE)
        except subprocess.TimeoutExpired as late:
            raise Unlike("it hangs") from late
        finally:
            self.process.stdin = source
        return Ended(self.process.returncode, self.held + (output or b""), errors or b"")

    def closed(self):
        """How the desk ends when its input is closed."""
        self.process.stdin.close()
        self.process.stdin = None
        return self.ended()


def ends_well(asked, status=0, errors=b""):
    """Closes the input, and checks how the desk ends."""
    same("the end", asked.closed(), Ended(status, b"", errors))
