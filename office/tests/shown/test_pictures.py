"""The pictures in docs/screens, which a person looks at. SCREENS names a folder for them; without it, the pages are only opened, and must fit their screens."""
import os
import pathlib
import shutil
import signal
import subprocess
import time

import pytest

from extracts import DAY, NEXT, WEDNESDAY, basic, update
from serving import TESTS

SCREENS = os.environ.get("SCREENS")
SIZES = {1920: 1080, 1366: 768, 768: 1024, 390: 844, 320: 640}
# Each picture: its name, the width of the screen, the address, and what is done before it is taken.
PICTURES = [
    *((f"wall-{width}" if width != 1920 else "wall", width, "/ASHFELD", "") for width in SIZES), *((f"changes-{width}", width, f"/ASHFELD/{DAY}/changes", "") for width in SIZES),
    *((f"train-{width}" if width != 1366 else "train", width, f"/train/C00024/{DAY}", "") for width in (1366, 390)), ("lines", 1366, f"/ASHFELD/{DAY}?rows=lines&at=08:55", ""),
    ("chosen", 1366, "/ASHFELD?stops=1&platform=5&platform=6", ""), ("other-day", 1366, f"/ASHFELD/{NEXT}", ""), ("uncovered", 1366, "/ASHFELD/2024-12-20", ""),
    ("unknown", 1366, "/ASHFIL", ""), ("search", 1366, "/?q=ash", ""), ("train-found", 390, "/?q=1A24", ""), ("cancelled", 1366, f"/train/C00030/{DAY}", ""),
    ("graph", 1920, f"/ASHFELD/{DAY}", "document.querySelector('#platforms summary').click()"), ("print", 718, f"/ASHFELD/{DAY}", "print"),
]


def busy_day(*words):
    return subprocess.run([TESTS / "busy-day", *words], capture_output=True, check=True, text=True).stdout


@pytest.fixture(scope="module")
def served(serves):
    # An update of the last evening, so that nothing is old. It cancels a train.
    return serves(busy_day(), update(basic("C00030", "C", WEDNESDAY, "    ")), places="ASHFELD\nBRAYTON\nCORHAM\n")


def keeps(chrome, name):
    if SCREENS:
        path = pathlib.Path(SCREENS) / f"{name}.png"
        chrome.picture(path)
        if shutil.which("pngquant"):
            subprocess.run(["pngquant", "--force", "--output", path, "32", path], check=True)


@pytest.mark.parametrize("name, width, path, done", PICTURES, ids=[picture[0] for picture in PICTURES])
def test_picture(served, chrome, name, width, path, done):
    chrome.sized(width, SIZES.get(width, 1047), width < 500)
    chrome.open(served.address(path))
    if done == "print":
        chrome.media("print")
    elif done:
        chrome.run(done)
        time.sleep(1)
    assert chrome.run("return [innerWidth, document.documentElement.scrollWidth]") == [width, width]
    keeps(chrome, name)


def test_old(serves, chrome):
    """A wall whose data is old, and whose server then hangs."""
    served = serves(busy_day())
    chrome.sized(1920, 1080)
    chrome.open(served.address("/ASHFELD#renew=1"))
    keeps(chrome, "old")
    served.process.send_signal(signal.SIGSTOP)
    try:
        for _ in range(80):
            if chrome.run("return document.getElementById('status').classList.contains('bad')"):
                break
            time.sleep(0.25)
        assert chrome.run("return document.getElementById('status').textContent").startswith("Not renewed since 0")
        keeps(chrome, "hung")
    finally:
        served.process.send_signal(signal.SIGCONT)


def test_midnight(serves, chrome):
    served = serves(busy_day(), update(basic("C00030", "C", WEDNESDAY, "    ")), now=f"{DAY}T23:40")
    chrome.sized(1920, 1080)
    chrome.open(served.address("/ASHFELD"))
    assert chrome.run("return document.querySelector('.midnight').textContent") == "Thursday 13 June 2024"
    keeps(chrome, "midnight")
