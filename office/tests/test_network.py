"""Tests the recipes in NETWORK.md by which offices exchange states, with real servers on this machine. DOCKER names the program, DESK the program `desk`."""
import contextlib
import os
import pathlib
import re
import shutil
import socket
import subprocess
import time
import unittest
import urllib.error
import urllib.request

import https
import pytest
from offices import NOW, OFFICE, Place, extract

PAGE = (OFFICE / "NETWORK.md").read_text(encoding="utf-8")
FULL = extract("DFROC1F", "2024-06-10T21:00", "DFROC1E", schedules=20)
MONDAY = extract("DFROC1G", "2024-06-11T01:00", "DFROC1F", kind="U", schedules=2, departs="0905")


def recipe(section, beginning, **names):
    """The text of the page's section that is set apart and begins so, with other names for what it names."""
    text = re.search(rf"^## {section}\n(.*?)(?=^## |\Z)", PAGE, re.M | re.S)[1]
    found = [block for block in re.findall(r"^```\n(.*?)^```$", text, re.M | re.S) if block.startswith(beginning)]
    assert len(found) == 1, beginning
    for name, other in names.items():
        name = {"etc": "/etc/rsyncd", "srv": "/srv/swap", "home": "/var/lib/station-office", "hub": "hub.example", "port": "8443", "screen": "127.0.0.1:8480"}.get(name, name)
        assert name in found[0], name
        found[0] = found[0].replace(name, str(other))
    return found[0]


def needs(*programs):
    for program in programs:
        if shutil.which(program, path=f"{os.environ['PATH']}:/usr/sbin") is None:
            pytest.skip(f"there is no {program}")


def answers(port):
    with contextlib.suppress(OSError), socket.create_connection(("127.0.0.1", port), 1):
        return True
    return False


@contextlib.contextmanager
def running(port, *words, **how):
    """Runs a server until the statements inside the block are done. It listens on a port of this machine."""
    server = subprocess.Popen(list(map(str, words)), stdin=subprocess.DEVNULL, stdout=subprocess.PIPE, stderr=subprocess.STDOUT, text=True, **how)
    try:
        end = time.monotonic() + 20
        while not answers(port) and server.poll() is None and time.monotonic() < end:
            time.sleep(0.05)
        assert answers(port), server.communicate()[0] if server.poll() is not None else "it doesn't listen"
        yield server
    finally:
        server.terminate()
        server.communicate()


@pytest.fixture
def pair(tmp_path):
    """Two offices without a common folder. Each has an extract that the other hasn't."""
    found = {}
    for name, content in (("north", FULL), ("south", MONDAY)):
        (tmp_path / name / "others").mkdir(parents=True)
        found[name] = Place(unittest.TestCase(), tmp_path / name / "office", "office.state", tmp_path / name / "others")
        found[name].take("extract.cif", content)
        found[name].run("send")
    return found


def test_rsync(pair, tmp_path):
    """After each office has run the script and a morning, both know the same. What hasn't changed isn't copied again."""
    needs("rsync")
    if os.geteuid() != 0:
        pytest.skip("only root can start the daemon as the page does")
    hub, port = tmp_path / "hub", https.free_port()
    hub.mkdir()
    shutil.chown(hub, "nobody")
    # The daemon writes as nobody, who has to reach the folder.
    for folder in (hub, *hub.parents):
        if folder.stat().st_uid == os.geteuid() and folder != pathlib.Path("/"):
            folder.chmod(folder.stat().st_mode | 0o011)
    (tmp_path / "rsyncd.conf").write_text(recipe("By rsync", "[swap]", srv=hub, etc=tmp_path / "rsyncd"))
    secrets = recipe("By rsync", "north:")
    (tmp_path / "rsyncd.secrets").write_text(secrets)
    (tmp_path / "rsyncd.secrets").chmod(0o600)
    passwords = dict(line.split(":") for line in secrets.splitlines())

    def exchanges(name):
        script = recipe("By rsync", "cd ", home=pair[name].folder, hub=f"localhost:{port}").replace("north@", f"{name}@")
        ended = subprocess.run(["bash", "-euc", script.replace("rsync -", "rsync --stats -")], capture_output=True, text=True, check=False)
        assert ended.returncode == 0, ended.stderr
        return sum(map(int, re.findall(r"regular files transferred: (\d+)", ended.stdout)))

    for name, office in pair.items():
        (office.folder / "swap.password").write_text(f"{passwords[name]}\n")
        (office.folder / "swap.password").chmod(0o600)
    with running(port, "rsync", "--daemon", "--no-detach", "--address=127.0.0.1", f"--port={port}", f"--config={tmp_path}/rsyncd.conf"):
        assert (exchanges("north"), exchanges("south"), exchanges("north")) == (1, 2, 1)
        (hub / "unrelated.txt").write_text("x")
        before = [office.sent().read_bytes() for office in pair.values()]
        assert [exchanges(name) for name in pair] == [0, 0]
        assert [office.sent().read_bytes() for office in pair.values()] == before
        assert [office.list("swap") for office in pair.values()] == [sorted(office.sent().name for office in pair.values())] * 2
        for office in pair.values():
            office.run("merge")
        assert [office.known() for office in pair.values()] == [["DFROC1F", "DFROC1G"]] * 2
        (pair["south"].folder / "swap.password").write_text("wrong\n")
        with pytest.raises(AssertionError, match="auth failed"):
            exchanges("south")


def screen(office, port, *words):
    return running(port, OFFICE / "screen" / "serve", "--listen", f"127.0.0.1:{port}", "--now", f"{NOW:%FT%H:%M}", *words, office.state)


def asked(address, **headers):
    """The status, the headers and the content of an answer."""
    try:
        with urllib.request.urlopen(urllib.request.Request(address, headers={name.replace("_", "-"): value for name, value in headers.items()}), timeout=10) as answer:
            return answer.status, answer.headers, answer.read()
    except urllib.error.HTTPError as error:
        return error.code, error.headers, error.read()


def test_the_screen_sends_no_state(pair):
    """Unless an address is set, the screen sends no state."""
    pytest.importorskip("waitress")
    with screen(pair["north"], port := https.free_port()):
        for path in ("/north.state.zst", f"/{pair['north'].sent().name}", f"/swap/{pair['north'].sent().name}"):
            assert asked(f"http://127.0.0.1:{port}{path}")[2] != pair["north"].sent().read_bytes()


def test_the_screen_sends_the_newest_state(pair):
    """At its address the screen sends what the office last sent, whole, only if it changed. All other pages are as before."""
    pytest.importorskip("waitress")
    north, port = pair["north"], https.free_port()
    address = f"http://127.0.0.1:{port}/north.state.zst"
    with screen(north, port, "--share", "/north.state.zst"):
        status, headers, content = asked(address)
        assert (status, content, headers["Content-Length"]) == (200, north.sent().read_bytes(), str(len(content)))
        assert asked(address, If_None_Match=headers["ETag"])[0] == 304
        assert asked(address, If_Modified_Since=headers["Last-Modified"])[0] == 304
        north.take("monday.cif", MONDAY)
        north.run("send")
        status, _, newer = asked(address, If_None_Match=headers["ETag"])
        assert (status, newer) == (200, north.sent().read_bytes()) and newer != content
        assert asked(f"http://127.0.0.1:{port}/ASHFELD/2024-06-12.txt")[0] == 200
        north.sent().unlink()
        assert asked(address)[::2] == (404, b"the office hasn't sent its state yet\n")


@pytest.mark.parametrize("word", ["north", "/<word>", "/a b", "/../x/", "//x"])
def test_addresses_that_are_no_path(pair, word):
    ended = subprocess.run([OFFICE / "screen" / "serve", "--share", word, pair["north"].state], stdin=subprocess.DEVNULL, capture_output=True, text=True, timeout=20, check=False)
    assert ended.returncode == 2 and "is no address: write a path" in ended.stderr


def test_https(pair, tmp_path):
    """By nginx, with a password and a certificate, South fetches North's state and merges it. Nobody gets it without the password, and nothing else is shown."""
    pytest.importorskip("waitress")
    needs("nginx", "openssl")
    north, south, inner, outer = pair["north"], pair["south"], https.free_port(), https.free_port()
    https.makes_certificates(tmp_path)
    site = recipe(
        "By HTTPS", "server {", port=outer, screen=f"127.0.0.1:{inner}", **{"/etc/ssl/certs/north.example.pem": tmp_path / "good.pem", "/etc/ssl/private/north.example.key": tmp_path / "good.key"},
        **{"/etc/nginx/offices": tmp_path / "offices"},
    )
    user = recipe("By HTTPS", "printf", **{"/etc/nginx/offices": tmp_path / "offices", "openssl passwd -6": "openssl passwd -6 -stdin <<<'the password of South'"})
    subprocess.run(["bash", "-euc", user], check=True)
    (tmp_path / "nginx.conf").write_text(
        f"daemon off;\nuser root;\npid {tmp_path}/pid;\nerror_log stderr;\nevents {{}}\nhttp {{\naccess_log off;\nproxy_temp_path {tmp_path}/temporary;\n"
        f"client_body_temp_path {tmp_path}/body;\nfastcgi_temp_path {tmp_path}/f;\nuwsgi_temp_path {tmp_path}/u;\nscgi_temp_path {tmp_path}/s;\n{site}}}\n"
    )
    sources = recipe("By HTTPS", "[north]", **{"north.example:8443": f"localhost:{outer}"}) + f"authority = {tmp_path}/authority.pem\n"
    (south.folder / "sources").write_text(sources)
    (south.folder / "sources").chmod(0o600)
    share = recipe("By HTTPS", "SHARE=").strip().removeprefix("SHARE=")
    nginx = shutil.which("nginx", path=f"{os.environ['PATH']}:/usr/sbin")
    with screen(north, inner, "--share", share), running(outer, nginx, "-p", tmp_path, "-c", tmp_path / "nginx.conf"):
        assert "swap/north.state.zst came" in south.run("fetch")[1]
        assert (south.folder / "swap" / "north.state.zst").read_bytes() == north.sent().read_bytes()
        assert "it has nothing newer" in south.run("fetch")[1]
        assert "north.state.zst: it brought the full extract DFROC1F" in south.run("merge")[1]
        assert south.known() == ["DFROC1F", "DFROC1G"]
        (south.folder / "sources").write_text(sources.replace("the password of South", "another"))
        assert "the server answers 401" in south.run("fetch", status=4, force=True)[1]
        (south.folder / "sources").write_text(sources.replace("/north.state.zst", "/ASHFELD/2024-06-12.txt"))
        assert "the server answers 404" in south.run("fetch", status=4)[1]
