"""Files in in/ that are still being written. They wait for the next run."""
import contextlib
import glob
import os
import pathlib
import re
import time


def still(office, paths):
    """The files among these that nobody is writing. The others are reported."""
    writing, found = being_written(paths), []
    for path in paths:
        age = time.time() - os.stat(path).st_mtime
        if path in writing:
            office.say(path, "a program is writing it, so it waits for the next run")
        elif abs(age) < office.settings.still:
            office.say(path, f"it changed {max(age, 0):.0f} seconds ago, so it waits for the next run")
        else:
            found.append(path)
    return found


def being_written(paths):
    """The files among these that a program has open for writing, as far as the system shows the programs."""
    wanted = {identity(os.stat(path)): path for path in paths}
    found = set()
    for process in glob.glob("/proc/[0-9]*") if wanted else ():
        # A process may end meanwhile, and it may be another user's.
        with contextlib.suppress(OSError):
            found.update(written_by(process, wanted))
    return found


def written_by(process, wanted):
    """The wanted files that a process has open for writing."""
    for name in os.listdir(f"{process}/fd"):
        with contextlib.suppress(OSError):
            path = wanted.get(identity(os.stat(f"{process}/fd/{name}")))
            if path and is_for_writing(pathlib.Path(f"{process}/fdinfo/{name}")):
                yield path


def identity(found):
    return found.st_dev, found.st_ino


def is_for_writing(info):
    """Whether a descriptor is open for writing."""
    flags = re.search(r"^flags:\s*([0-7]+)$", info.read_text(encoding="ascii"), re.M)
    return flags is not None and int(flags[1], 8) & os.O_ACCMODE != os.O_RDONLY
