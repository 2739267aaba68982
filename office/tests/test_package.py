"""The Debian package: it is made, checked, and installed in a root folder of its own, where it is used and removed."""
import filecmp
import gzip
import os
import pathlib
import re
import shutil
import subprocess
import tempfile
import time
import urllib.request

import pytest
from https import free_port
from machine import ROOT

# The folders that an office makes.
OFFICE = ("in", "swap", "copies", "taken", "refused", "held", "dockers", "mornings", "printed", "wanted")
# Where the package puts its files.
OWN = ("/usr/", "/lib/", "/var/lib/", "/etc/default/")
PROGRAMS = ("station-office", "station-office-screen")
DAY = "2024-06-12"
SERVICES = [f"station-office@{name}.service" for name in ("morning", "evening", "arrivals", "fetch")] + ["station-office-screen.service"]
# When each timer comes first.
TIMERS = {"station-office": "05:00:00", "station-office-evening": "20:00:00", "station-office-fetch": "04:30:00"}
IS_ROOT = os.getuid() == 0


def run(*words, status=0, **how):
    """Runs a program, and checks its status. Returns what it prints, with its messages."""
    ended = subprocess.run(list(map(str, words)), stdin=subprocess.DEVNULL, stdout=subprocess.PIPE, stderr=subprocess.STDOUT, text=True, check=False, **how)
    assert ended.returncode == status, ended.stdout
    return ended.stdout


def needs(program):
    if shutil.which(program) is None:
        pytest.skip(f"there is no {program}")


class Place:
    """A root folder in which the package is installed."""

    def __init__(self, folder, package):
        self.work, self.root, self.package = folder, folder / "root", package
        folder.chmod(0o755)
        for name in ("info", "updates", "triggers"):
            (self.root / "var/lib/dpkg" / name).mkdir(parents=True)
        (self.root / "var/lib/dpkg/status").touch()
        self.dpkg("-i", package)
        self.units, self.folder, self.text = self.root / "lib/systemd/system", self.root / "var/lib/station-office", self.root / "usr/share/doc/station-docker"
        self.user = next(line.split(":")[2] for line in self.read("etc/passwd").splitlines() if line.startswith("station-office:"))
        # The programs of the package are tested.
        self.environment = {name: value for name, value in os.environ.items() if name not in ("DOCKER", "DESK", "STILL")} | {"PATH": f"{self.root}/usr/bin:{os.environ['PATH']}"}

    def dpkg(self, *words):
        own = ["dpkg", f"--root={self.root}", "--log=/dev/null", "--force-depends", "--force-script-chrootless", *words]
        run(*(own if IS_ROOT else ["fakeroot", *own, "--force-not-root"]))

    def read(self, name):
        return (self.root / name).read_text(encoding="utf-8")

    def run(self, *words, **how):
        return run(*words, env=self.environment, **how)

    def becomes(self, unit, name, instance="", listen=""):
        """The words that run the command in a line of a unit, for an instance of the unit: as the unit's user, with the unit's settings, from the office's folder.
        In the settings, /var/lib becomes var/lib in this root folder."""
        text = (self.units / unit).read_text(encoding="utf-8")
        assert re.search(r"^User=station-office$", text, re.M)
        settings = "\n".join(self.read(path[1:]).replace("=/var/lib", f"={self.root}/var/lib") for path in re.findall(r"^EnvironmentFile=(.*)$", text, re.M))
        line = re.search(rf"^{name}=(?:/usr/bin/|(?=/bin/))(.*)$", text, re.M)[1].replace("%i", instance)
        as_user = f"setpriv --reuid={self.user} --regid={self.user} --clear-groups" if IS_ROOT else ""
        return ["bash", "-c", f"cd {self.folder}; set -a\n{settings}\nLISTEN={listen}\nexec {as_user} {line}"]

    def left(self):
        """The files that are left, apart from the office's files, dpkg's, and the lists of users that systemd-sysusers made."""
        found = (path.relative_to(self.root) for path in self.root.rglob("*") if not path.is_dir() or path.is_symlink())
        return sorted(str(path) for path in found if path.parts[0] != "var" and not re.search(r"^passwd|^group|shadow|^\.pwd\.lock$", path.name))


@pytest.fixture
def place(package):
    with tempfile.TemporaryDirectory() as name:
        yield Place(pathlib.Path(name), package)


def has_morning(place):
    """Puts the examples into the office, and runs the service's commands for a morning."""
    run("bash", "-c", f"cp {place.text}/examples/*.cif {place.folder}/in/ && touch -d '1 hour ago' {place.folder}/in/*.cif && cat {place.text}/examples/places >{place.folder}/places")
    place.run(*place.becomes("station-office@.service", "ExecStartPre"))
    assert "old: the update DFROC1H" in place.run(*place.becomes("station-office@.service", "ExecStart", "morning"), status=5)


def dockers(place):
    """The three dockers of the office, without remarks."""
    printed = place.run("station-office", "print", place.folder / "office.state", DAY)
    return re.sub(r"^#.*\n", "", printed, flags=re.M)


def test_made_again_it_is_the_same(package, tmp_path):
    again = run(ROOT / "packaging" / "deb", tmp_path).strip()
    assert pathlib.Path(again).name == pathlib.Path(package).name
    assert filecmp.cmp(package, again, shallow=False)


def test_lintian_finds_no_error(package):
    needs("lintian")
    run("lintian", "--fail-on", "error", package)


def test_it_has_a_user_a_folder_and_its_version_and_no_service_is_on(place):
    assert not list(place.root.glob("etc/systemd/**/station-office*"))
    found = [run("stat", "-c", "%u %a", path).strip() for path in (place.folder, place.folder / "in", place.folder / "places")]
    assert found == [f"{place.user} {mode}" for mode in ("755", "2775", "664")]
    version = run("dpkg-deb", "-f", place.package, "Version").strip()
    for program in PROGRAMS:
        assert shutil.which(program, path=place.environment["PATH"]) == str(place.root / "usr/bin" / program)
        assert place.run(program, "--version") == f"station-office {version}\n"
        assert "STATE" in place.run(program, "--help")


def names_in(text):
    """The words in backquotes and in blocks of code that may be names. Addresses, assignments and patterns aren't names."""
    blocks, rest = re.findall(r"^```\n(.*?)^```$", text, re.M | re.S), re.sub(r"^```\n.*?^```$", "", text, flags=re.M | re.S)
    words = [*re.findall(r"`([^`\s]+)`", rest), *(word for block in blocks for word in block.split())]
    return {word for word in words if not re.search(r"[:=~*$<>{}\"']|^-|\.\.\.$", word)}


def is_lacking(root, page, name):
    """Whether a name means a file that should be in the package, but isn't there."""
    if name.startswith("/"):
        return name.startswith(OWN) and not (root / name[1:]).exists()
    is_file = name.startswith("./") or re.search(r"\.(md|py|cif)$", name) or "/" in name and name.split("/")[0] not in OFFICE
    return bool(is_file) and not any((folder / name).exists() for folder in (page.parent, root / "usr" / "share" / "station-office"))


def test_its_pages_name_only_what_it_has(place):
    pages = sorted(place.text.glob("*.md"))
    assert pages
    assert not [f"{page.name}: {name}" for page in pages for name in sorted(names_in(page.read_text(encoding="utf-8"))) if is_lacking(place.root, page, name)]


def test_the_first_commands_of_its_readme(place):
    first = re.search(r"^```\n(.*?)^```$", (place.text / "README.md").read_text(encoding="utf-8"), re.M | re.S)[1]
    home = place.work / "home"
    home.mkdir()
    place.environment["HOME"] = str(home)
    place.run("bash", "-ec", first.replace("/usr/share", f"{place.root}/usr/share"), status=5)
    assert (home / "north" / "dockers.txt").read_text(encoding="utf-8").count("\nEND") == 3


def test_its_service_does_a_morning_as_its_user(place):
    has_morning(place)
    assert sum(path.read_text(encoding="utf-8").count("DOCKER ") for path in place.folder.glob("dockers/*/*.txt")) == 3
    assert run("find", place.folder, "!", "-uid", place.user) == ""
    place.run(*place.becomes("station-office@.service", "ExecStartPre"))
    morning = (ROOT / "examples" / "office" / "transcript").read_text(encoding="utf-8").partition("\n$ station-office morning")[2]
    assert dockers(place) == "".join(re.findall(r"^(?:DOCKER|\d|END).*\n", morning, re.M))


def test_the_screen_shows_the_same_by_the_words_of_its_service(place):
    pytest.importorskip("flask", reason="there is no flask")
    pytest.importorskip("waitress", reason="there is no waitress")
    settings = place.read("etc/default/station-office-screen")
    assert "\nLISTEN=127.0.0.1:8480\n" in settings and "\nSHARE=\n" in settings
    has_morning(place)
    address = f"127.0.0.1:{free_port()}"
    with subprocess.Popen(place.becomes("station-office-screen.service", "ExecStart", listen=address), env=place.environment, stderr=subprocess.DEVNULL) as server:
        try:
            assert "".join(page(f"http://{address}/{code}/{DAY}.txt") for code in ("ASHFELD", "BRAYTON", "CORHAM")) == dockers(place)
        finally:
            server.terminate()


def page(address):
    """A page of a server that may still be starting."""
    for _ in range(100):
        try:
            with urllib.request.urlopen(address) as answer:
                return answer.read().decode("utf-8")
        except OSError:
            time.sleep(0.1)
    raise AssertionError(f"no answer: {address}")


def test_its_services_are_right_and_may_do_little(place):
    needs("systemd-analyze")
    units = [*place.units.glob("station-office*.timer"), *place.units.glob("station-office*.path"), *(place.units / name for name in [*SERVICES, "station-office-alarm@morning.service"])]
    ended = subprocess.run(["systemd-analyze", "verify", "--man=no", *units], stdin=subprocess.DEVNULL, capture_output=True, text=True, check=False)
    # systemd complains that the programs aren't in this machine's root folder. They are in another one.
    told = [line for line in (ended.stdout + ended.stderr).splitlines() if "station-office" in line]
    assert not [line for line in told if not re.search(r"Command /usr/bin/station-office.* is not executable", line)]
    # The alarm may do more, because programs that send mail may need more.
    for name in SERVICES:
        assert "Overall exposure level for" in run("systemd-analyze", "security", "--offline=true", "--threshold=20", place.units / name)
    for name in ("station-office@.service", "station-office-screen.service"):
        assert "\nProtectSystem=strict\n" in (place.units / name).read_text(encoding="utf-8")
    for name, clock in TIMERS.items():
        calendar = re.search(r"^OnCalendar=(.*)$", (place.units / f"{name}.timer").read_text(encoding="utf-8"), re.M)[1]
        assert f"Normalized form: *-*-* {clock}" in run("systemd-analyze", "calendar", calendar)


@pytest.mark.parametrize("name", ["station-docker", "station-docker-desk", *PROGRAMS])
def test_its_manual_pages(place, name):
    needs("man")
    assert gzip.decompress((place.root / f"usr/share/man/man1/{name}.1.gz").read_bytes())
    ended = subprocess.run(["man", "--warnings", "-l", place.root / f"usr/share/man/man1/{name}.1.gz"], env={**os.environ, "MANROFFSEQ": ""}, stdin=subprocess.DEVNULL, capture_output=True, text=True, check=False)
    assert (ended.returncode, ended.stderr) == (0, "")


def test_removed_it_leaves_its_settings_and_purged_only_the_office(place):
    has_morning(place)
    (place.root / "etc/default/station-office-screen").unlink()
    place.dpkg("--force-confmiss", "-i", place.package)
    place.dpkg("-r", "station-docker")
    assert place.left() == ["etc/default/station-office", "etc/default/station-office-screen"]
    place.dpkg("-P", "station-docker")
    assert place.left() == []
    assert (place.folder / "office.state").stat().st_size > 0
