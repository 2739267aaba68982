"""Tests how the launchers prove the crates (lib/launch.py), on a tree of empty crates and with an `rt` that only waits. Each crate has to start after the crates
that it cites, two at once if memory allows and copies of the checkout share what they prove. A failure and an interrupt have to end cleanly."""
import collections
import os
import pathlib
import re
import shutil
import signal
import subprocess
import time

import pytest

ROOT = pathlib.Path(__file__).resolve().parent.parent.parent
CITED = {line.split(":")[0].split()[0]: line.partition(":")[2].split() for line in (ROOT / "crates.txt").read_text(encoding="utf-8").splitlines()}
# In the test, the machine has four processors, and as much free memory in kilobytes as a file says.
MACHINE = 'def processors():\n    return 4\n\n\ndef free_memory():\n    return int((ROOT / "memory").read_text())\n'
MUCH, LITTLE = 99999999, 9000000
RT = r"""#!/usr/bin/env bash
crate=${PWD##*/}
[ "$1" != version ] || { echo "$KIT" && exit; }
[ "$1" != doc ] || { echo "$WORK/kit/START-HERE.md" && exit; }
# Like the real rt, it waits for any other that works on the same files.
exec 9<../../crates.txt && flock 9
if [ "$1" = run ]; then
  { printf '<%s>' "$@" && cat; } >"$WORK/first"
  printf '#!/bin/sh\necho "$@"\n' >"out/$crate" && chmod +x "out/$crate" && exit
fi
echo "begin $crate" >>"$WORK/events"
echo "$*" >"$WORK/words-$crate"
cmp -s src/lib.rt "$WORK/crates/$crate/src/lib.rt" || echo "old $crate" >>"$WORK/events"
echo $$ >>"$WORK/processes"
[ "$crate" != "${FAILING:-}" ] || exit 1
[ "$crate" != "${CHANGING:-}" ] || echo '// changed' >>src/lib.rt
sleep "${TAKES:-0.1}"
mkdir -p out/incremental && echo "$crate" >out/incremental/kept
echo "end $crate" >>"$WORK/events"
"""


def below(crate):
    """A crate and all crates of the repository below it."""
    found = {crate}
    for it in CITED[crate]:
        found |= below(it) if it in CITED else set()
    return found


def above(crate):
    """A crate and all crates above it that desk needs."""
    return {it for it in below("desk") if crate in below(it)}


class Tree:
    """A checkout with the launchers and with crates that have hardly any source."""

    def __init__(self, folder):
        self.folder = folder
        for name in ("docker", "desk", "crates.txt"):
            shutil.copy(ROOT / name, folder)
        shutil.copytree(ROOT / "lib", folder / "lib")
        script = folder / "lib" / "launch.py"
        text, end = script.read_text(encoding="utf-8"), "\n\nmain()\n"
        script.write_text(text.removesuffix(end) + f"\n\n{MACHINE}{end}", encoding="utf-8")
        for crate in CITED:
            self.source(crate).parent.mkdir(parents=True)
            self.source(crate).write_text(f"// {crate}\n", encoding="utf-8")
        # One of the crates has many functions.
        self.changes("docker_desk", "".join(f"fn f{number}() {{}}\n" for number in range(100)))
        # The words and the input for the first run of desk.
        desk = folder / "crates" / "desk"
        (desk / "data").mkdir()
        (desk / "data" / "a state").touch()
        (desk / "args").write_text("--write\na state\nno file\n", encoding="utf-8")
        (desk / "stdin").write_text("files\n", encoding="utf-8")
        (folder / "bin").mkdir()
        for name, text in (("rt", RT), ("rattle", "")):
            (folder / "bin" / name).write_text(text, encoding="utf-8")
            (folder / "bin" / name).chmod(0o755)
        self.has_memory(MUCH)

    def source(self, crate):
        return self.folder / "crates" / crate / "src" / "lib.rt"

    def changes(self, crate, text="// changed\n"):
        with open(self.source(crate), "a", encoding="utf-8") as source:
            source.write(text)

    def has_memory(self, kilobytes):
        (self.folder / "memory").write_text(f"{kilobytes}\n", encoding="utf-8")

    def environment(self, **more):
        return {**os.environ, "WORK": str(self.folder), "KIT": "a kit", "PATH": f"{self.folder}/bin:{os.environ['PATH']}", **more}

    def program(self, crate):
        return self.folder / "crates" / crate / "out" / crate

    def launch(self, program="docker", status=0, **environment):
        """Runs a launcher with the words `day x`. Returns what it says on standard error."""
        (self.folder / "events").write_bytes(b"")
        ended = subprocess.run([self.folder / program, "day", "x"], env=self.environment(**environment), stdin=subprocess.DEVNULL, capture_output=True, text=True, check=False)
        assert (ended.returncode, ended.stdout) == (status, "" if status else "day x\n"), ended.stderr
        return ended.stderr

    def runs_at_once(self, program, **environment):
        """The next launch runs the program without lib/launch.py."""
        aside = (self.folder / "lib" / "launch.py").rename(self.folder / "aside")
        self.launch(program, **environment)
        aside.rename(self.folder / "lib" / "launch.py")

    def events(self):
        """The pairs of a word, `begin`, `end` or `old`, and a crate."""
        return [tuple(line.split()) for line in (self.folder / "events").read_text(encoding="utf-8").splitlines()]

    def crates(self, word):
        return {crate for it, crate in self.events() if it == word}

    def most_at_once(self):
        """The most crates that were under way at once. Each has to begin after those that it cites, and to be checked as it is."""
        ended, now, most = set(), 0, 0
        for word, crate in self.events():
            assert word != "old", f"{crate} isn't checked as it is"
            if word == "begin":
                assert not (early := {it for it in CITED[crate] if it in CITED} - ended), f"{crate} begins before {early}"
                now += 1
                most = max(most, now)
            else:
                now -= 1
                ended.add(crate)
        return most

    def words(self, *crates):
        """The words with which `rt` was called for these crates."""
        return [(self.folder / f"words-{crate}").read_text(encoding="utf-8").strip() for crate in crates]

    def copies(self):
        return list(self.folder.glob("crates/*/out/proving/lane-*"))


@pytest.fixture
def tree(tmp_path):
    return Tree(tmp_path)


@pytest.mark.parametrize("program, first", [("docker", "<run><-->"), ("desk", "<run><--><--write><data/a state><no file>files\n")])
def test_two_crates_at_once_each_after_those_that_it_cites(tree, program, first):
    """The first run of a program has its words and its input."""
    told, count = tree.launch(program), len(below(program))
    assert (tree.crates("end"), tree.most_at_once()) == (below(program), 2)
    assert {"docker", "docker_desk"} & tree.crates("begin") == {"docker" if program == "docker" else "docker_desk"}
    assert re.search(rf"^{program}: {program} is proved \({count} of {count}, \d+ s; \d+ (?:s|min) so far\)$", told, re.M)
    assert (tree.folder / "first").read_text(encoding="utf-8") == first


def test_what_is_proved_already_is_not_asked_again(tree):
    tree.launch("docker")
    tree.launch("desk")
    assert tree.crates("begin") == below("desk") - below("docker")
    tree.launch("desk")
    assert tree.events() == []
    assert tree.words("desk", "docker_desk", "docker_train") == ["check", "check --jobs 4", "check"]


def test_only_what_changed_is_asked(tree):
    tree.launch("desk")
    tree.changes("docker_train")
    tree.program("desk").unlink()
    tree.has_memory(LITTLE)
    tree.launch("desk")
    assert tree.crates("begin") == above("docker_train")
    assert tree.words("docker_desk") == ["check --jobs 2"]


def test_after_a_failure_what_failed_is_asked_again(tree):
    tree.launch("desk")
    tree.changes("docker_train")
    tree.launch("desk", status=70, FAILING="docker_train")
    tree.launch("desk")
    assert tree.crates("begin") == above("docker_train")


def test_a_source_that_changes_during_the_build(tree):
    tree.launch("desk")
    tree.program("desk").unlink()
    tree.changes("desk")
    tree.launch("desk", CHANGING="desk")
    tree.launch("desk")
    assert tree.crates("begin") == {"desk"}
    tree.launch("desk")
    assert tree.events() == []


# Ways in which what a program is built from changes. Each has a line of the shell in the folder of a crate, in which `src/old.rt` is a file with a time long ago.
CHANGES = {
    "a source is written": "echo '// changed' >>src/lib.rt",
    "a source is written, and gets its old time back": "touch -r src/lib.rt at; echo '// changed' >>src/lib.rt; touch -r at src/lib.rt; rm at",
    "another source with its time takes its place": "cp -p src/lib.rt new; echo '// changed' >>new; touch -r src/lib.rt new; mv new src/lib.rt",
    "a source is removed": "rm src/old.rt",
    "a source gets another name": "mv src/old.rt src/new.rt",
    "a source with an old time is put there": "cp -p src/old.rt new && mv new src/new.rt",
    "a source in a new folder is put there": "cp -p src/old.rt new && mkdir src/part && mv new src/part/new.rt",
    "a definition is written": "echo '-- changed' >>specs/Deep/Lib.antt",
    "a proof with an old time is put there": "touch -r src/old.rt new.antt && mv new.antt proofs/",
    "a first proof is put there, where there was no folder": "mkdir ../desk/proofs && touch -r src/old.rt ../desk/proofs/Lib.antt",
}


@pytest.mark.parametrize("line", CHANGES.values(), ids=CHANGES)
def test_what_changes_is_noticed(tree, line):
    """The crate and those above it are asked, and then no more. Long before, nothing else changes."""
    folder = tree.folder / "crates" / "docker_train"
    for name in ("src/old.rt", "specs/Deep/Lib.antt", "proofs/Lib.antt"):
        (folder / name).parent.mkdir(parents=True, exist_ok=True)
        (folder / name).touch()
    for path in (folder / "src").iterdir():
        os.utime(path, (1, 1))
    tree.launch("desk")
    tree.runs_at_once("desk")
    subprocess.run(["sh", "-ec", line], cwd=folder, check=True)
    tree.launch("desk")
    assert tree.crates("begin") == (above("docker_train") if "desk" not in line else {"desk"})
    tree.runs_at_once("desk")


def test_a_list_of_crates_that_changes_is_noticed(tree):
    tree.launch("desk")
    listed = tree.folder / "crates.txt"
    text = listed.read_text(encoding="utf-8")
    listed.write_text(re.sub(r"^(docker_train:.*)$", r"\1 another", text, flags=re.M), encoding="utf-8")
    tree.launch("desk")
    assert tree.crates("begin") == above("docker_train")
    tree.runs_at_once("desk")


@pytest.mark.parametrize("name", ["rt", "rattle"])
def test_with_another_kit_all_is_asked(tree, name):
    tree.launch("desk")
    (tree.folder / "bin" / name).touch()
    tree.launch("desk", KIT="another kit")
    assert tree.crates("begin") == below("desk")
    tree.runs_at_once("desk")


def test_what_is_as_it_was_is_not_asked_again(tree):
    """A source that is written with the same text, or another copy of the checkout. The program runs at once the next time."""
    tree.launch("desk")
    os.utime(tree.source("docker_train"))
    tree.launch("desk")
    assert tree.events() == []
    tree.runs_at_once("desk")
    shutil.copytree(tree.folder / "crates", tree.folder / "copy")
    shutil.rmtree(tree.folder / "crates")
    (tree.folder / "copy").rename(tree.folder / "crates")
    tree.launch("desk")
    assert tree.events() == []
    tree.runs_at_once("desk")


def test_without_a_kit_what_is_built_runs(tree):
    tree.launch("desk")
    (tree.folder / "bin" / "rt").unlink()
    bare = {"PATH": "/usr/bin:/bin"}
    tree.launch("desk", **bare)
    tree.runs_at_once("desk", **bare)
    tree.changes("docker_train")
    assert tree.launch("desk", 70, **bare) == "desk: the program isn't built, and the kit's command rt isn't on the PATH to prove and build it\n"


def test_a_program_that_something_else_built_from_other_sources(tree):
    """The sources are put back afterwards, but the program isn't from them."""
    tree.launch("desk")
    tree.program("desk").write_text("#!/bin/sh\necho another\n", encoding="utf-8")
    time.sleep(0.1)
    os.utime(tree.source("desk"))
    tree.launch("desk")
    tree.runs_at_once("desk")


def test_a_program_that_rt_built_runs(tree):
    """It isn't the one that is recorded, or there is no record. No source is newer."""
    tree.launch("desk")
    for change, names in (("", ["desk.sources"]), ("", ["desk.built", "desk.sources"]), ("// changed\n", ["desk.built", "desk.sources"])):
        for name in names:
            (tree.program("desk").parent / name).unlink()
        with open(tree.program("desk"), "a", encoding="utf-8") as program:
            program.write("# built by rt\n")
        time.sleep(0.1)
        tree.changes("docker_train", change)
        tree.launch("desk")
        assert ("docker_train" in tree.crates("begin")) == bool(change)
        tree.runs_at_once("desk")


def test_what_is_proved_in_a_copy_is_kept(tree):
    """After a failure too. An old copy is removed."""
    old = tree.folder / "crates" / "docker" / "out" / "proving" / "lane-1"
    old.mkdir(parents=True)
    (old / "old.rt").touch()
    tree.launch(status=70, FAILING="docker_excerpt")
    ended = tree.crates("end")
    kept = {path.read_text(encoding="utf-8").strip() for path in tree.folder.glob("crates/*/out/incremental/kept")}
    assert (kept, tree.copies()) == (ended, [])
    tree.launch()
    assert "docker_excerpt" in tree.crates("begin")
    assert (tree.crates("begin"), tree.copies()) == (below("docker") - ended, [])


@pytest.mark.parametrize("name, text", [("rattle-kept", ""), ("memory", f"{LITTLE}")], ids=["without shared work", "in little memory"])
def test_one_at_a_time(tree, name, text):
    (tree.folder / name).write_text(text, encoding="utf-8")
    tree.launch()
    assert (tree.crates("end"), tree.most_at_once()) == (below("docker"), 1)


def test_a_crate_that_fails(tree):
    """No crate begins after the failure, and what is under way ends."""
    told = tree.launch(status=70, FAILING="cif_change")
    assert re.search(r"^docker: cif_change isn't proved: see .*/cif_change\.log$", told, re.M)
    assert not {"docker_join", "cif_file"} & tree.crates("begin")
    counts = collections.Counter(word for word, _ in tree.events())
    assert counts["begin"] == counts["end"] + 1


@pytest.mark.parametrize("name", ["SIGINT", "SIGTERM", "SIGHUP"])
def test_an_interrupt_ends_all(tree, name):
    processes = tree.folder / "processes"
    # A background job of a shell ignores interrupts, and so would the launcher that it starts.
    words = ["env", "--default-signal=INT,HUP", tree.folder / "docker"]
    with subprocess.Popen(words, env=tree.environment(TAKES="600"), stderr=subprocess.DEVNULL, start_new_session=True) as started:
        until = time.monotonic() + 60
        while not processes.exists() and time.monotonic() < until:
            time.sleep(0.1)
        time.sleep(0.5)
        os.killpg(started.pid, signal.Signals[name])
        try:
            assert started.wait(timeout=60) == 128 + signal.Signals[name]
        finally:
            begun = processes.read_text(encoding="utf-8").split()
            left = [int(it) for it in begun if os.path.exists(f"/proc/{it}")]
            for it in left:
                os.killpg(it, signal.SIGKILL)
    assert begun and not left
    assert tree.copies() == []
