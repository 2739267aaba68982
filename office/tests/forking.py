"""Runs a script of Python many times. A server loads it once and forks for each run, so no run has to wait until Python has started and loaded the modules."""
import contextlib
import importlib.machinery
import importlib.util
import json
import os
import pathlib
import select
import signal
import subprocess
import sys
import tempfile
import time
import traceback


class Runs:
    """Runs of a script by a server. Every process of a run is in a group of its own, so that a run can be ended at any moment."""

    def __init__(self, script):
        self.script, self.folder = script, tempfile.TemporaryDirectory()
        self.printed = [pathlib.Path(self.folder.name, name) for name in ("out", "err")]
        self.starts()

    def starts(self):
        self.server = subprocess.Popen([sys.executable, "-B", __file__, self.script], stdin=subprocess.PIPE, stdout=subprocess.PIPE, text=True)

    def run(self, *words, seconds=None, **environment):
        """Runs the script with these words, in this process's environment and with these variables. Returns its status, its output, and its messages. A run that would take
        longer than some seconds is killed then."""
        request = list(map(str, words)), {**os.environ, **environment}, *map(str, self.printed), seconds
        try:
            print(json.dumps(request), file=self.server.stdin, flush=True)
            status = int(self.server.stdout.readline())
        except BaseException:
            # A case that took too long ends here. The next one mustn't get the answer of this one.
            self.server.kill()
            self.ends()
            self.starts()
            raise
        out, said = (path.read_bytes() for path in self.printed)
        return status, out, said.decode("utf-8")

    def ends(self):
        self.server.communicate()


def loaded(path):
    """The script as a module. As for any script, its folder is the first one in which modules are looked for."""
    sys.path[0] = os.path.dirname(path)
    loader = importlib.machinery.SourceFileLoader("station", path)
    module = importlib.util.module_from_spec(importlib.util.spec_from_loader(loader.name, loader))
    loader.exec_module(module)
    return module


def serves(path):
    """Answers each request by the status of a run."""
    script = loaded(path)
    for line in sys.stdin:
        words, environment, out, said, seconds = json.loads(line)
        child = os.fork()
        if child == 0:
            os.environ.clear()
            os.environ.update(environment)
            sys.path[1:1] = filter(None, environment.get("PYTHONPATH", "").split(os.pathsep))
            runs(script, [path, *words], out, said)
        print(ended(child, seconds), flush=True)


def runs(script, words, out, said):
    """Runs the script in this process, as Python would, and ends the process."""
    os.setpgid(0, 0)
    os.dup2(os.open(os.devnull, os.O_RDONLY), 0)
    for number, name in ((1, out), (2, said)):
        os.dup2(os.open(name, os.O_WRONLY | os.O_CREAT | os.O_TRUNC), number)
    sys.argv, status = words, 1
    try:
        status = script.main()
    except SystemExit as end:
        status = end.code
    except BaseException:
        traceback.print_exc()
    sys.stdout.flush()
    os._exit(status or 0)


def ended(child, seconds):
    """The status of a run after its end. After some seconds the run is ended, with every process that it started."""
    with contextlib.suppress(OSError):
        os.setpgid(child, child)
    descriptor = os.pidfd_open(child)
    if not select.select([descriptor], [], [], seconds)[0]:
        os.killpg(child, signal.SIGKILL)
        while is_running(child):
            time.sleep(0.001)
    os.close(descriptor)
    return os.waitstatus_to_exitcode(os.waitpid(child, 0)[1])


def is_running(group):
    """Whether a process of a group is still running. A process that was ended may have to finish a call of the system first."""
    for path in pathlib.Path("/proc").glob("[0-9]*/stat"):
        with contextlib.suppress(OSError):
            state, _, its, *_ = path.read_text(encoding="utf-8", errors="replace").rpartition(")")[2].split()
            if int(its) == group and state not in "ZX":
                return True
    return False


if __name__ == "__main__":
    serves(sys.argv[1])
