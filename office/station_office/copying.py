"""The copies of STATE. The newest ones are kept, so that an earlier STATE can be put back."""
import os
from datetime import datetime

from . import archive, swap
from .faults import Fault

COPIES = 7


def copies(office):
    """The copies of STATE, newest first."""
    files, _ = archive.contents_of(office.folder / "copies")
    return [path for path in reversed(files) if path.name.startswith(f"{office.state.name}.") and path.suffix == ".zst"]


def copy_of(office):
    """The file in copies/ for a copy of the present STATE. Its name has the time at which STATE was written."""
    found = os.stat(office.state)
    made = datetime.fromtimestamp(found.st_mtime).strftime("%Y%m%d-%H%M%S")
    return office.folder / "copies" / f"{office.state.name}.{made}.{found.st_mtime_ns % 10**9:09}.zst"


def keeps_copy(office):
    """Keeps a copy of STATE as it was before this run, unless the newest copy is the same. If there are more than seven, the oldest are removed."""
    if office.is_copied:
        return
    kept, copy = copies(office), copy_of(office)
    try:
        copy.parent.mkdir(exist_ok=True)
        if not copy.exists():
            swap.packs(office, office.work / "copy")
            if not kept or not archive.is_same(kept[0], office.work / "copy"):
                os.replace(office.work / "copy", copy)
    except OSError:
        raise Fault(4, office.state, "no copy can be made, so it stays as it is", *office.shortage(office.needed())) from None
    for old in copies(office)[COPIES:]:
        old.unlink()
    office.is_copied = True
