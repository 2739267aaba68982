"""An office in a folder, for the tests of pages that show what station-office keeps."""
import os
import subprocess

from extracts import DAY
from serving import DESK, OFFICE


class Office:
    """An office in a folder, and its station-office."""

    def __init__(self, folder):
        self.folder, self.state = folder, folder / "north.state"
        self.run("new")
        (folder / "places").write_text("ASHFELD\nBRAYTON\n")

    def run(self, *words, status=0, now=f"{DAY}T05:00", **environment):
        """Runs a command, whose status is checked. Returns its output and its messages."""
        words = [words[0], str(self.state), *words[1:]] if words[:2] != ("changes", "--since") else words
        ended = subprocess.run([OFFICE / "station-office", "--now", now, *map(str, words)], stdin=subprocess.DEVNULL, capture_output=True, text=True, check=False,
                               env={**os.environ, "DESK": DESK, "STILL": "0", "MAX_AGE": "999", **environment})
        assert ended.returncode == status, (words, ended.stderr)
        return ended.stdout, ended.stderr

    def since(self, *words, **how):
        return self.run("changes", "--since", *words, **how)

    def put(self, text):
        (self.folder / "in" / "extract.cif").write_text(text)

    def morning(self, text=None, **how):
        if text:
            self.put(text)
        return self.run("morning", **how)

    def copies(self):
        return sorted((self.folder / "copies").iterdir())
