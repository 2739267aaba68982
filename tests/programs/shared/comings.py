"""What another program may do to STATE, or to the name of a draft, just before one of a program's calls of the file system (meetings.py). Each of these acts is
tried at each call.

What the other program does before the program's first look is what the program finds. What it does after this look, and before the program's draft is in
place, refuses the program. What it does later stays. So no text is lost that the other program stores after the look."""
import collections
import contextlib
import fcntl
import os
import pathlib
import signal
import stat
import typing

from checks import named
from given import ENTRY, FIRST, ONE, REVISION, SECOND, STATE_OF_BOTH, STATE_OF_ONE, STATE_OF_REVISED
from meetings import all_that_is_there, calls_of, met
from outcomes import DEVICE, DONE
from programs import DOCKER, Ended, give, held, run
from records import extract, header, place
from states import File, description, state, tiploc

# What doesn't hold, and why. There are no other exceptions. *When other programs write STATE* in docs/PROOF.md lists them for users.
EXCEPTIONS = {
    "an unseen text": "it comes after the last look at STATE, and before the rename over STATE. The system can't rename a file over another one only if that one is"
    " still the same",
    "an unseen draft": "it gets the draft's name after a look at this name, and before the call that renames, links or removes what has the name. The system can't"
    " do so by an open file",
    "a locked draft": "another program locks the draft before the command does. It may be about to remove the draft. So the command leaves the draft, which the"
    " next command removes",
    "a pipe to read": "the pipe comes before STATE is read. The program waits until another program writes to the pipe, as it does if STATE was a pipe from the"
    " beginning",
}
# The texts of STATE before, of the state with which the other program comes, and of a state elsewhere. The first two have the same length.
TEXTS = (STATE_OF_ONE, STATE_OF_REVISED, STATE_OF_BOTH)
# A file that names a place, and the states that know this file too.
THIRD = File("2024-06-11", "DFROC1C", last="DFROC1B")
NAMED = place("TI", "ASHFELD", "ASHFIELD CENTRAL")
PLACED = THIRD.put(tiploc("ASHFELD"), description(NAMED))
WITH_THIRD = {
    STATE_OF_ONE: state([FIRST, THIRD], [PLACED, ENTRY]),
    STATE_OF_REVISED: state([SECOND, THIRD], [PLACED, REVISION]),
    STATE_OF_BOTH: state([FIRST, SECOND, THIRD], [PLACED, REVISION]),
}
LEFT_OVER = b"DKS2 left"
# A time long ago, in nanoseconds.
THEN = 1718010000_500000000


class Act(typing.NamedTuple):
    """What another program does: a line of the shell, and what the line changes. In the line, `at` is a name of STATE, and `draft` is the name of the draft."""

    line: str
    changes: str = "STATE"


TWO_COMMANDS = Act(f'({DOCKER} new "$at" && {DOCKER} take "$at" ../one) </dev/null >/dev/null')
TO_STATE = {
    "mv": Act('mv -f came "$at"'),
    "cp": Act('cp came "$at"'),
    "writing in place": Act('cat came 1<>"$at"'),
    "appending": Act('cat came >>"$at"'),
    "removing": Act('rm "$at"'),
    "docker new and docker take": TWO_COMMANDS,
    "a link": Act('ln -fns elsewhere "$at"'),
    "a link to nothing": Act('ln -fns nowhere "$at"'),
    "a folder": Act('rm "$at" && mkdir "$at"'),
    "a pipe": Act('mv -f pipe "$at"', "a pipe"),
    "a link to a pipe": Act('ln -fns pipe "$at"', "a pipe"),
}
TO_DRAFT = {
    "a lock on the draft": Act('exec 9<"$draft" && flock -n 9 || exit 1; sleep 60 </dev/null >/dev/null & echo $! >../holder', "the lock"),
    "a pipe for the draft": Act('rm -f "$draft"; mkfifo "$draft" && chmod 1644 "$draft"', "the draft"),
    "a pipe without a mark for the draft": Act('rm -f "$draft"; mkfifo "$draft"', "the draft"),
    "a folder for the draft": Act('rm -f "$draft"; mkdir "$draft" && chmod 1755 "$draft"', "the draft"),
    "a folder without a mark for the draft": Act('rm -f "$draft"; mkdir "$draft"', "the draft"),
    "a text for the draft": Act('mv -f came "$draft"', "the draft"),
    "a link for the draft": Act('ln -fs elsewhere "$draft"', "the draft"),
    "a link to a pipe for the draft": Act('ln -fs pipe "$draft"', "the draft"),
    "a link to nothing for the draft": Act('ln -fs nowhere "$draft"', "the draft"),
}


class Subject(typing.NamedTuple):
    """A program that stores a text in STATE, and what it finds.

    `name` is the name that the program gets for STATE, `file` is where this name leads by these links, and the acts are done to `at`. `texts` are the text
    of STATE, or None, the text with which the other program comes, and the text elsewhere. `stores` has the text that the program stores, by the text that
    it finds. A desk may read STATE a second time. Then `renews` has the text that it stores, by the text that it finds at the second reading. `leaves` says
    whether a killed command has left a draft. `told` is the part of an end that is compared."""

    command: list
    texts: tuple
    stores: dict
    name: str = "office"
    file: str = "office"
    at: str = "office"
    links: dict = {}
    renews: dict = {}
    reads: bool = True
    leaves: bool = False
    given: bytes = b""
    done: Ended = DONE
    refused: Ended = DEVICE
    told: typing.Callable = staticmethod(lambda ended: ended)

    @property
    def draft(self):
        return f"{self.file}.new"

    @property
    def placing(self):
        """The call that puts the draft in the place of STATE."""
        return f"{'rename' if self.texts[0] else 'link'} {self.draft} {self.file}"

    def line(self, act):
        return f"exec 2>/dev/null; at={self.at}; draft={self.draft}; {act.line}"

    def make(self, text):
        """Makes what the program finds in its folder, with this text of STATE."""
        for path in pathlib.Path().iterdir():
            path.rmdir() if path.is_dir() and not path.is_symlink() else path.unlink()
        _, came, elsewhere = self.texts
        for name, there in ((self.file, text), ("came", came), ("elsewhere", elsewhere)):
            if there is not None:
                give(there, name)
                os.utime(name, ns=(THEN, THEN))
        for link, to in self.links.items():
            os.symlink(to, link)
        os.mkfifo("pipe")
        if self.leaves:
            give(LEFT_OVER, self.draft)
            os.chmod(self.draft, 0o1640)

    def there(self):
        """The content of the folder, by name, without a left-over draft."""
        return {name: what for name, what in all_that_is_there().items() if what != LEFT_OVER}

    def left_by(self, act, text):
        """The content of the folder if only the act is done, the name to which STATE's name then leads, and whether that is still the same file."""
        self.make(text)
        before = number_of(self.name)
        os.system(self.line(act))
        return self.there(), os.path.relpath(os.path.realpath(self.name)), number_of(self.name) == before


def make_room():
    """Makes an empty folder and goes there. The files that the programs take are in the folder around it."""
    give(ONE.encode(), "one")
    give(extract(header("240611", "DFROC1C", last="DFROC1B"), NAMED).encode(), "third")
    give(state([THIRD], [PLACED]), "state_of_third")
    os.mkdir("room")
    os.chdir("room")


def number_of(name):
    """The number that the file system gives to a file, or None if there is no file."""
    return os.stat(name).st_ino if os.path.exists(name) else None


@contextlib.contextmanager
def open_pipe(name="pipe"):
    """Holds both ends of a pipe, so that no program waits for them."""
    pipe = os.open(name, os.O_RDWR | os.O_NONBLOCK)
    try:
        yield pipe
    finally:
        os.close(pipe)


def taken_from(pipe):
    """What a non-blocking pipe has to read."""
    try:
        return os.read(pipe, 65536)
    except BlockingIOError:
        return b""


class Coming:
    """One act of another program, done to one subject. `alone` is the content of the folder if only
    the act is done, and `last` is the content if the act comes after the program."""

    def __init__(self, device, subject, act):
        self.device, self.subject, self.act = device, subject, act
        self.stored = subject.stores[subject.texts[0]]
        self.alone, self.leads_to, self.is_in_place = subject.left_by(act, subject.texts[0])
        # The text to which STATE's name leads if only the act is done; None if there is no text.
        text = self.alone.get(self.leads_to)
        self.text = text if isinstance(text, bytes) else None
        self.last, _, _ = subject.left_by(act, self.stored)
        subject.make(subject.texts[0])
        self.undisturbed = subject.there() | {subject.file: self.stored}
        self.calls = calls_of(device, subject.command, subject.given)
        assert subject.there() == self.undisturbed

    def numbers(self):
        """The numbers of the calls at which the act is tried: all, unless the act makes a pipe, for which the program would wait if it read STATE later."""
        is_read = self.act.changes == "a pipe" and self.subject.reads
        read = [at + 1 for at, call in enumerate(self.calls) if call == f"open {self.subject.name}" and is_read]
        return range(max(read, default=0) + 1, len(self.calls) + 1)

    def at(self, number):
        """Runs the program, and does the act at this call. Returns which rule the outcome follows, or which exception."""
        subject = self.subject
        subject.make(subject.texts[0])
        with open_pipe() as pipe:
            try:
                found = met(self.device, number, subject.line(self.act), subject.command, subject.given)
            finally:
                # Ends the process that holds a lock, if there is one.
                if os.path.exists("../holder"):
                    os.kill(int(held("../holder")), signal.SIGKILL)
                    os.remove("../holder")
            self.is_in_pipe = taken_from(pipe)
        assert found is not None, "there is no such call"
        return {"the lock": self.draft_locked, "the draft": self.draft_changed}.get(self.act.changes, self.state_changed)(found)

    def ends(self, found, ended, there, rule, in_pipe=b""):
        """The program has ended in this way, and has left this in its folder."""
        now = self.subject.there()
        what = f"{rule}: {found.ended}, before {found.after[:3]}"
        assert self.subject.told(found.ended) == self.subject.told(ended), what
        assert now == there, f"{what}: {sorted(now.items() ^ there.items(), key=str)}"
        assert self.is_in_pipe == in_pipe, f"{what}: the pipe got something"
        return rule

    def state_changed(self, found):
        subject = self.subject
        if found.status:
            return self.ends(found, subject.done, self.undisturbed, "the act fails")
        if not found.looks(subject.name):
            return self.came_first(found)
        if found.has_placed(subject.draft):
            return self.ends(found, subject.done, self.last, "last")
        wanted = (f"statx {self.changed()}", subject.placing)
        uses = [call for call in found.after if call in wanted]
        if uses and uses[0].startswith("rename ") and not self.is_folder(subject.file):
            return self.ends(found, subject.done, self.alone | {subject.file: self.stored}, "an unseen text")
        if subject.texts[0] is None:
            return self.came_where_nothing_was(found)
        if subject.reads and not self.has_read(found):
            return self.came_before_reading(found)
        return self.came_after_reading(found)

    def is_folder(self, name):
        """Whether the act leaves a folder of this name. No file can be renamed over it."""
        there = self.alone.get(name)
        return isinstance(there, int) and stat.S_ISDIR(there)

    def has_read(self, found):
        """Whether the program has read what was there before. Once it has opened a file, it reads only that file, even if another file takes its place."""
        opening = f"open {self.subject.name}"
        if opening not in found.before:
            return False
        # A folder may get the number of the file in whose place it comes.
        is_same = self.is_in_place and self.text is not None
        return not is_same or "read" in found.before[found.before.index(opening):]

    def came_before_reading(self, found):
        """The program reads what the other program has left."""
        subject, text = self.subject, self.text
        if text is None:
            return self.ends(found, DEVICE, self.alone, "refused")
        if text in subject.renews:
            return self.ends(found, subject.done, self.alone | {self.leads_to: subject.stores[text]}, "read again")
        return self.came_after_reading(found)

    def came_after_reading(self, found):
        """The program is refused, unless it is a desk that then renews."""
        subject, text = self.subject, self.text
        if text in subject.renews and found.looks(subject.name) == 1:
            return self.ends(found, subject.done, self.alone | {self.leads_to: subject.renews[text]}, "read again")
        # The program may have read a text that is no state.
        is_bad = text is not None and text not in subject.stores and found.ended.status == 1
        return self.ends(found, found.ended if is_bad else subject.refused, self.alone, "refused")

    def came_where_nothing_was(self, found):
        """The draft gets the name to which STATE's name leads, if nothing has this name. A link that comes or changes later isn't followed."""
        links = [call for call in found.before + found.after if call.startswith("link ")]
        to = links[-1].split()[-1] if links else None
        is_late = found.after[0].startswith("link ")
        if to and to not in self.alone and (is_late or self.leads_to not in self.alone):
            return self.ends(found, self.subject.done, self.alone | {to: self.stored}, "led elsewhere")
        return self.ends(found, self.subject.refused, self.alone, "refused")

    def came_first(self, found):
        """The program found what the other program had done."""
        subject, text = self.subject, self.text
        if self.act.changes == "a pipe":
            return self.ends(found, subject.done, self.alone, "first", self.stored)
        if subject.reads and text not in subject.stores or self.is_folder(self.leads_to):
            self.came_before_reading(found)
            return "first"
        return self.ends(found, subject.done, self.alone | {self.leads_to: subject.stores.get(text, self.stored)}, "first")

    def draft_locked(self, found):
        subject = self.subject
        if found.status:
            return self.ends(found, subject.done, self.undisturbed, "the act fails")
        before = {name: text for name, text in (self.undisturbed | {subject.file: subject.texts[0]}).items() if text is not None}
        if f"create {subject.draft}" not in found.before:
            return self.ends(found, subject.refused, before, "refused")
        self.ends(found, subject.refused, before | {subject.draft: b""}, "a locked draft")
        self.is_removed_by_the_next()
        return "a locked draft"

    def is_removed_by_the_next(self):
        """The next command removes the draft, once it isn't locked any more."""
        with open(self.subject.draft, "rb") as draft:
            fcntl.flock(draft, fcntl.LOCK_EX)
        ended = run(self.subject.command, self.subject.given)
        assert self.subject.told(ended) == self.subject.told(self.subject.done), ended
        assert self.subject.there() == self.undisturbed

    def draft_changed(self, found):
        subject = self.subject
        uses = [call for call in found.after if call.split()[1:2] == [subject.draft]]
        if uses and uses[0].startswith(("rename ", "link ", "unlink ")):
            now = self.subject.there().get(subject.file)
            assert now in (subject.texts[0], self.stored, self.alone[subject.draft]), f"neither text, before {found.after[:3]}"
            assert subject.told(found.ended) in map(subject.told, (subject.done, subject.refused)), found.ended
            return "an unseen draft"
        if found.has_placed(subject.draft):
            return self.ends(found, subject.done, self.last, "last")
        return self.ends(found, subject.refused, self.alone, "refused")

    def changed(self):
        """The name that the act changes: it may follow the link, or put something in its place."""
        is_followed = self.alone.get(self.subject.at) == self.subject.file
        return self.subject.file if is_followed else self.subject.at

    def exceptions(self):
        """How many calls there are before which the program can't notice the act, by exception."""
        subject, is_over = self.subject, self.subject.texts[0] is not None
        if self.act.changes == "the lock":
            return {"a locked draft": 1}
        if self.act.changes == "the draft":
            return {"an unseen draft": 3 + subject.leaves}
        if is_over and self.act is not TWO_COMMANDS and not self.is_folder(subject.file):
            return {"an unseen text": 1 if self.changed() == subject.file else 2}
        return {}

    def is_as_promised(self):
        """Does the act at each call, counts the outcomes that follow each rule or exception, and checks that no other exceptions occur."""
        found = collections.Counter()
        for number in self.numbers():
            with named(f"at call {number}"):
                found[self.at(number)] += 1
        assert {name: found[name] for name in EXCEPTIONS if found[name]} == self.exceptions(), found
        assert len(found) > 1, found
        # While a draft is there, another command is refused.
        assert self.act is not TWO_COMMANDS or found["the act fails"], found
