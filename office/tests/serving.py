"""An office, with a server of its pages, for the tests of the pages."""
import http.client
import importlib.util
import os
import pathlib
import shutil
import socket
import subprocess
import time
from typing import NamedTuple

from https import free_port
from offices import DOCKER, docker

TESTS = pathlib.Path(__file__).resolve().parent
OFFICE = TESTS.parent
HAS_FLASK = all(importlib.util.find_spec(name) for name in ("flask", "waitress"))
DESK = shutil.which(os.environ.get("DESK") or f"{DOCKER}-desk") or str(TESTS / "desk-of-docker")


class Answer(NamedTuple):
    """What the server answers: its HTTP status, its headers and the text."""
    status: int
    headers: http.client.HTTPMessage
    text: str


class Server:
    """A server of the pages of an office's STATE, whose clock shows a given time. Variables of its environment may be given."""

    def __init__(self, folder, now, **environment):
        self.folder, self.state, self.port = folder, folder / "office.state", free_port()
        words = [OFFICE / "screen" / "serve", "--listen", f"127.0.0.1:{self.port}", "--now", now, self.state]
        self.process = subprocess.Popen(words, env={**os.environ, "DESK": DESK, **environment}, stderr=subprocess.DEVNULL)
        self.waits()

    def waits(self):
        for _ in range(200):
            try:
                return socket.create_connection(("127.0.0.1", self.port), 1).close()
            except OSError:
                time.sleep(0.1)
        raise AssertionError("the server doesn't listen")

    def ask(self, path, method="GET", headers=None):
        """What the server answers: its HTTP status, its headers and its bytes."""
        connection = http.client.HTTPConnection("127.0.0.1", self.port, timeout=60)
        try:
            connection.request(method, path, headers=headers or {})
            answer = connection.getresponse()
            return answer.status, answer.headers, answer.read()
        finally:
            connection.close()

    def get(self, path, **headers):
        status, named, body = self.ask(path, headers=headers)
        return Answer(status, named, body.decode("utf-8", "replace"))

    def page(self, path):
        answer = self.get(path)
        assert answer.status == 200, (path, answer.status)
        return answer.text

    def address(self, path):
        return f"http://127.0.0.1:{self.port}{path}"

    def take(self, text):
        """Has STATE take an extract."""
        (self.folder / "more.cif").write_text(text)
        docker("take", self.state, self.folder / "more.cif")

    def ends(self):
        self.process.terminate()
        self.process.wait()

    def dies(self):
        self.process.kill()
        self.process.wait()


def made(folder, *extracts, places=""):
    """Makes a STATE in a folder, which takes these extracts."""
    folder.mkdir(exist_ok=True)
    state = folder / "office.state"
    docker("new", state)
    for text in extracts:
        (folder / "extract.cif").write_text(text)
        docker("take", state, folder / "extract.cif")
    (folder / "places").write_text(places)
    return state
