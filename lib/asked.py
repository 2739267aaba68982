"""Answers --help and --version, for the scripts that are written in Python."""
import pathlib
import subprocess
import sys


def version():
    """The version of the sources: the day of the last commit."""
    words = ["git", "-C", pathlib.Path(__file__).parent, "log", "-1", "--date=format:0.%Y%m%d", "--format=%cd"]
    try:
        return subprocess.run(words, capture_output=True, text=True, check=True).stdout.strip()
    except (OSError, subprocess.CalledProcessError):
        return "of a checkout"


def answers(text):
    """If the first word is --help, prints a text. If it is --version, prints the version. In both cases the script ends."""
    match sys.argv[1:2]:
        case ["--help"]:
            print(text.strip())
        case ["--version"]:
            print(f"{pathlib.Path(sys.argv[0]).name} {version()}")
        case _:
            return
    sys.exit(0)
