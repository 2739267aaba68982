"""Follows README.md, docs/MANUAL.md and office/README.md as a newcomer would. It runs each command in their blocks, in a folder with the content of a
checkout, and with another HOME. What a block shows has to be printed. Left out are `./test`, `./try`, which tests/examples/test_try.py runs, and commands that run until they
are stopped. Each file that the pages name has to exist."""
import os
import re
import shutil
import subprocess

import pytest
from machine import ROOT, is_built_here

PAGES = ("README.md", "docs/MANUAL.md", "office/README.md")
LEFT_OUT = ("./test", "./try ", "systemctl ", "station-office-screen ")
# The folders that an office makes.
OFFICE = ("in", "swap", "copies", "taken", "refused", "held", "dockers", "mornings", "printed", "wanted")


def blocks(page):
    """The blocks of code of a page."""
    return re.findall(r"^```\n(.*?)^```$", (ROOT / page).read_text(encoding="utf-8"), re.M | re.S)


def steps(block):
    """The commands of a block. If the block shows what its commands print, each has its output."""
    parts = re.findall(r"^\$ (.*)\n((?:(?!\$ ).*\n)*)", block, re.M)
    if any(shown for _, shown in parts):
        return parts
    return [(line.removeprefix("$ "), None) for line in block.splitlines()]


def checkout(folder):
    """A folder with everything that a newcomer's commands name."""
    folder.mkdir()
    for path in ROOT.iterdir():
        if path.name not in (".git", "examples"):
            (folder / path.name).symlink_to(path)
    shutil.copytree(ROOT / "examples", folder / "examples")
    return folder


def follow(page, block, folder, home):
    """Runs the commands of a block in one shell."""
    marked = [(command, shown) for command, shown in steps(block) if not command.startswith(LEFT_OUT)]
    script = "".join(f"{command}\necho \"--- $?\"\n" for command, _ in marked)
    environment = {**os.environ, "HOME": str(home), "PATH": f"{home}/.local/bin:{os.environ['PATH']}"}
    for name in ("DOCKER", "DESK", "STILL"):
        environment.pop(name, None)
    ended = subprocess.run(["bash", "-c", script], cwd=folder, env=environment, stdin=subprocess.DEVNULL, capture_output=True, text=True, check=False)
    printed = re.split(r"^--- (\d+)\n", ended.stdout, flags=re.M)
    for number, (command, shown) in enumerate(marked):
        text, status = printed[2 * number], printed[2 * number + 1]
        wanted = "5" if command.startswith("station-office morning") else "0"
        assert (status, text) == (wanted, text if shown is None else shown), f"{page}: {command}: {ended.stderr}"


def unknown_files(page):
    """The files that a page names but that don't exist: neither from the top, nor beside the page, nor in an office."""
    folders = (ROOT, (ROOT / page).parent)
    for name in re.findall(r"`([^` ]+)`", (ROOT / page).read_text(encoding="utf-8")):
        if "/" in name and "://" not in name and name[0] not in "/~" and name.split("/")[0] not in OFFICE and not any((folder / name).exists() for folder in folders):
            yield f"{page}: there is no {name}"


@pytest.mark.parametrize("page", PAGES)
def test_each_file_that_a_page_names_is_there(page):
    assert not list(unknown_files(page))


@pytest.mark.timeout(600)
def test_commands(tmp_path):
    if not is_built_here():
        pytest.skip("another program is tried than the launcher's")
    home, sources = tmp_path / "home", checkout(tmp_path / "sources")
    home.mkdir()
    first, look, day = blocks("README.md")[:3]
    desk = next(block for block in blocks("docs/MANUAL.md") if "./desk " in block)
    for page, block in (("README.md", first), ("README.md", look), ("docs/MANUAL.md", desk)):
        follow(page, block, sources, home)
    subprocess.run(["bash", "-c", "./install --prefix ~/.local --name docker"], cwd=sources, env={**os.environ, "HOME": str(home)}, check=True, stdout=subprocess.DEVNULL)
    copy = shutil.copytree(ROOT / "examples" / "office", tmp_path / "copy")
    follow("README.md", day, copy, home)
    # station-office finds the program under the name that ./install gave it, even if station-office is a copy.
    shutil.copytree(ROOT / "office", tmp_path / "office")
    follow("a copy of office", "../office/station-office --now 2024-06-12T06:00 known south.state\n", copy, home)
    follow("office/README.md", blocks("office/README.md")[0], sources, home)
    assert (home / "north" / "dockers.txt").read_bytes().count(b"\nEND") == 3
