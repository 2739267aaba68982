"""Changes STATE. The program desk makes each change in memory first. It is judged there by what it leaves, and saved or dropped."""
import contextlib
import os
import pathlib

import dockers

from . import copying, judging

# A link with this name leads the desk to a file. A request has at most 255 bytes of ASCII, and a path may have more.
GIVEN = "given"


class Writer(dockers.Desk):
    """A desk that may write STATE. What it takes or merges stays in memory until `save`."""

    def __init__(self, program, state, folder):
        super().__init__(program, state)
        self.folder = folder
        self.is_unsaved = False

    def start(self):
        """Starts the process. The folder is there as long as this station-office holds the lock. After that the desk may only read."""
        words, folder = (["--write"], self.folder) if self.folder.exists() else ([], None)
        self.runs([self.program, *words, self.state], folder)

    def renewed(self):
        """As for any desk, if everything is saved. A process that ended with unsaved changes isn't started again, since it would answer without them."""
        if not self.is_unsaved:
            return super().renewed()
        return None if self.process else dockers.Answer(4, b"desk: ended before its changes were saved\n")

    def ask_all(self, requests):
        """The answers to many requests. They are kept until something changes, since a morning prints the dockers whose lines it has counted."""
        answers = super().ask_all(requests)
        self.lists.update((request, answer) for request, answer in zip(requests, answers) if answer.status == 0)
        return answers

    def carries_out(self, *request):
        """Carries out a request that changes what is in memory, or saves it. Such a request isn't sent twice."""
        with self.turn:
            try:
                answer = self.renewed() or self.exchange([request])[0]
            except dockers.Ended:
                answer = self.end() or dockers.Answer(4, b"desk: ended without an answer\n")
            if request != ("save",):
                self.forgets()
            if answer.status == 0:
                self.is_unsaved = request != ("save",)
            return answer

    def saves(self):
        """Saves what is in memory, and notes which file STATE is now."""
        answer = self.carries_out("save")
        if answer.status == 0:
            self.seen, self.knowledge = dockers.identity(self.state), dockers.knowledge(self.state)
        return answer

    def drops(self):
        """Drops what isn't saved."""
        with self.turn:
            self.end()
            self.is_unsaved = False


def writer_of(office):
    """The desk that changes STATE. One process serves a whole run."""
    office.desk = office.desk or Writer(judging.desk_program(), office.state, office.work)
    return office.desk


def begins(office):
    """Has the desk read STATE while files are looked at. If there is no desk, that is said when one is needed."""
    if dockers.programs()[1]:
        writer_of(office).begins()


@contextlib.contextmanager
def changing(office, subject, verb, word):
    """Has the desk make a change in memory, and gives what STATE has before and after it. If the block ends without a fault, STATE is saved; otherwise it stays as
    it is. `word` is a day, or a file to take or to merge."""
    desk, before = writer_of(office), dockers.identity(office.state)
    office.counted = office.counted or judging.counts(office, desk)
    try:
        carries_out(office, subject, desk, verb, word, before)
        after = judging.counts(office, desk)
        yield office.counted, after
        copying.keeps_copy(office)
        saves(office, subject, desk, before)
    except BaseException:
        desk.drops()
        raise
    office.counted = after if office.settings.is_forced else office.counted.greatest(after)


def given(office, word):
    """A word of a request: a day, or a name by which the desk finds a file."""
    if not isinstance(word, pathlib.Path):
        return word
    link = office.work / GIVEN
    link.unlink(missing_ok=True)
    link.symlink_to(os.path.abspath(word))
    return GIVEN


def carries_out(office, subject, desk, verb, word, before=None):
    """Has a desk make a change in memory. `before` says which file STATE was, if no other program may write it meanwhile."""
    answer = desk.carries_out(verb, given(office, word))
    if answer.status != 0:
        raise office.fault_of(subject, answer.status, answer.text, before, office.needed())


def saves(office, subject, desk, before=None):
    """Has a desk save what is in memory."""
    answer = desk.saves()
    if answer.status != 0:
        raise office.fault_of(subject, answer.status, answer.text, before, office.needed())
