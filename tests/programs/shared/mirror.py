"""The answers that a desk has to give, worked out by commands of `docker` on state files."""
import contextlib
import datetime
import functools
import pathlib

import desk_extracts as extracts
import lists
from checks import same
from desks import DAY_REFUSED, DEVICE, DONE, NOT_SAVED, NOTHING, Answer, Desk, docker, ends_well
from programs import give, held
from records import extract, header

# The given states: the files that each knows, and its horizon.
STATES = {
    "monday.state": (("monday", "night"), ""),
    "second.state": (("second",), "2024-06-03"),
    "empty.state": ((), ""),
    "all.state": (tuple(extracts.GOOD), ""),
}
# The requests that a desk accepts only if it may write.
WRITING = ("take", "merge", "horizon", "save")
# A line for each request in `WRITING`.
WRITING_LINES = ("take monday", "merge monday.state", "horizon 2024-06-12", "save")
# The folder of the given files and states, and the folder of the states that commands change.
GIVEN = pathlib.Path("/nonexistent")
CHANGED = pathlib.Path("/nonexistent")


def given(name):
    return str(GIVEN / name)


def ran(text, command, *words):
    """Runs a command of `docker` on a state of this text. Returns its answer, and the state's text after it."""
    give(text, CHANGED / "held")
    return docker(command, str(CHANGED / "held"), *words), held(CHANGED / "held")


@functools.cache
def by_docker(text, command, *words):
    """Like `ran`, but remembers the result. So the words may only name files that no command changes."""
    return ran(text, command, *words)


@functools.cache
def joined(text, other):
    """Merges a state of another text, and returns what `ran` returns."""
    give(other, CHANGED / "other")
    return ran(text, "merge", str(CHANGED / "other"))


@functools.cache
def empty():
    same("docker new", docker("new", str(CHANGED / "new")), DONE)
    return held(CHANGED / "new")


@functools.cache
def state_of(*names, horizon=""):
    """The text of the state that knows these good files and a horizon."""
    text = empty()
    for words in [("take", given(name)) for name in names] + ([("horizon", horizon)] if horizon else []):
        answer, text = by_docker(text, *words)
        same(f"docker {words}", answer, DONE)
    return text


def give_taken(*texts, state="STATE", file="{state}{number}"):
    """Makes files with these texts, and a state that takes them."""
    give(state_of(), state)
    for number, text in enumerate(texts):
        name = file.format(state=state, number=number)
        give(text.encode(), name)
        assert docker("take", state, name) == DONE


def give_large(count):
    """Makes a file with this number of schedules, and a STATE that knows it."""
    give_taken(extract(header("240612"), *(extracts.trip(f"L{n:05}", "1L00") for n in range(count))), file="large")


class Mirror:
    """What a desk keeps in memory, and its STATE, both worked out by commands on state files.

    The desk starts on a STATE that knows these good files and this horizon."""

    def __init__(self, *names, horizon="", may_write=True):
        self.text = self.stored = state_of(*names, horizon=horizon)
        self.known = self.stored_known = set(names), horizon
        self.may_write, self.is_seen, self.is_unsaved = may_write, True, False
        # The texts that STATE has held, from the first on, and what was known in each.
        self.past = [(self.stored, self.stored_known)]

    def answer(self, verb, *words):
        """Does a request, and returns its answer. The verb `nothing` stands for a line that isn't a request."""
        if verb == "nothing" or (verb in WRITING and not self.may_write):
            return NOTHING
        match verb:
            case "print" | "files":
                return by_docker(self.text, verb, *words)[0]
            case "train" | "places" | "known":
                return self.listed(verb, *words)
            case "take" | "merge" | "horizon":
                return self.change(verb, words[0])
            case "renew" | "save":
                return getattr(self, verb)()

    def agrees(self, asked, *lines):
        """Asks a desk these lines, and compares its answers."""
        for line in lines:
            same(f"the answer to {line}", asked.ask(line), self.answer(*line.split()))

    def listed(self, verb, *words):
        names, horizon = self.known
        files = tuple(sorted(extracts.GOOD[name] for name in names))
        if verb == "train":
            return DAY_REFUSED if words[1] < horizon else Answer(0, lists.train_text(files, *words))
        day = datetime.date.fromisoformat(horizon) if horizon else lists.FIRST_DAY
        return Answer(0, {"places": lists.places_text, "known": lists.known_text}[verb](files, day))

    def learn(self, names, horizon):
        self.known = self.known[0] | set(names), max(self.known[1], horizon)

    def change(self, verb, word):
        path = word if verb == "horizon" else given(word)
        answer, text = by_docker(self.text, verb, path)
        if answer == DONE:
            self.text, self.is_unsaved = text, True
            self.learn(*{"take": ([word], ""), "merge": STATES.get(word), "horizon": ([], word)}[verb])
        return answer

    def renew(self):
        answer, self.text = joined(self.text, self.stored)
        if answer == DONE:
            self.is_seen = True
            self.is_unsaved = self.may_write and self.text != self.stored
            self.learn(*self.stored_known)
        return answer

    def save(self):
        if not self.is_seen:
            return DEVICE
        self.stored, self.stored_known, self.is_unsaved = self.text, self.known, False
        self.past.append((self.stored, self.stored_known))
        return DONE

    def take_beside(self, name):
        """Another `docker take` puts a file into STATE."""
        _, stored = by_docker(self.stored, "take", given(name))
        self.past.append((stored, (self.stored_known[0] | {name}, self.stored_known[1])))
        self.put_back(-1)

    def put_back(self, number):
        """Another program puts back a text that STATE held before."""
        self.stored, self.stored_known = self.past[number]
        self.is_seen = False

    def end(self):
        """The status at the end of the input, and the text on standard error."""
        return (1, NOT_SAVED) if self.is_unsaved else (0, b"")


# Desks over a STATE that knows these good files and this horizon.


@contextlib.contextmanager
def reading(*names, horizon="", words=("STATE",), **options):
    """A desk with these words, which only reads if there are no other words. It has to end well."""
    give(state_of(*names, horizon=horizon))
    with Desk(*words, **options) as asked:
        yield asked
        ends_well(asked)


# A desk that may write. It has to end well, with nothing unsaved.
writing = functools.partial(reading, words=("--write", "STATE"))


@contextlib.contextmanager
def mirrored(*names, horizon="", **options):
    """A desk that may write, and its mirror. It has to end as the mirror does."""
    mirror = Mirror(*names, horizon=horizon)
    give(mirror.stored)
    with Desk("--write", "STATE", **options) as asked:
        yield asked, mirror
        ends_well(asked, *mirror.end())
