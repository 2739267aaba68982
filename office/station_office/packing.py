"""Reads files that are packed by gzip, zstd or zip, and finds the kind of a file from its first
bytes."""
import contextlib
import gzip
import pathlib
import shutil
import subprocess
import zipfile
import zlib

from .faults import Fault, Refused

PACKINGS = {b"\x1f\x8b": "gzip", b"\x28\xb5\x2f\xfd": "zstd", b"PK\x03\x04": "zip"}
OTHER_PACKINGS = {b"BZh": "bzip2", b"\xfd7zXZ\0": "xz", b"7z\xbc\xaf\x27\x1c": "7z", b"Rar!": "rar", b"\x1f\x9d": "compress"}
# Kinds of files that aren't extracts, by their first bytes. An extract begins with HD.
KINDS = {
    b"DKS2": "it is an office's state: `station-office merge` takes those",
    b"DKS1": "it is a state of the older format: its office has to `docker migrate` it, and `station-office merge` takes it then",
    b"/!!": "it has comment lines that begin with /!!, and docker reads Network Rail's own extracts, which have none",
    b"%PDF-": "it is a PDF, and no CIF extract",
    b"{": "it is JSON, and no CIF extract: ask for the schedule as CIF",
    b"[": "it is JSON, and no CIF extract: ask for the schedule as CIF",
    b"<": "it is XML or a web page, and no CIF extract: ask for the schedule as CIF",
    b"\xff\xfe": "it is UTF-16, and a CIF extract is ASCII: fetch it again, byte for byte",
}
DAMAGED = (gzip.BadGzipFile, EOFError, zlib.error, zipfile.BadZipFile, NotImplementedError)


def packing_of(path):
    """How a file is packed; None if it isn't."""
    with open(path, "rb") as file:
        head = file.read(4)
    return next((name for mark, name in PACKINGS.items() if head.startswith(mark)), None)


def kind_of(head):
    """The kind of file that begins with these bytes, if they show that it isn't an extract."""
    if head[257:262] == b"ustar":
        return "it is a tar: unpack it, and put its extracts here one by one"
    for mark, name in (PACKINGS | OTHER_PACKINGS).items():
        if head.startswith(mark):
            return f"it is packed by {name}, and can't be read so: unpack it first"
    return next((kind for mark, kind in KINDS.items() if head.startswith(mark)), None)


@contextlib.contextmanager
def zstd_stream(path):
    """The content of a file that is packed with zstd."""
    if shutil.which("zstd") is None:
        raise Fault(4, path, "there is no zstd here to unpack it")
    with open(path, "rb") as packed, subprocess.Popen(["zstd", "-dcq"], stdin=packed, stdout=subprocess.PIPE, stderr=subprocess.DEVNULL) as process:
        try:
            yield process.stdout
            if process.stdout.read(1) == b"" and process.wait() != 0:
                raise EOFError
        finally:
            process.kill()


@contextlib.contextmanager
def zip_stream(path):
    """The content of the only file in a zip archive."""
    with zipfile.ZipFile(path) as packed:
        files = [entry for entry in packed.infolist() if not entry.is_dir()]
        if len(files) != 1:
            raise Refused(1, path, "it is a zip of several files. Unpack it, and put its extracts here one by one.")
        if files[0].flag_bits & 1:
            raise Refused(1, path, "it is a zip with a password: unpack it first")
        with packed.open(files[0]) as stream:
            yield stream


@contextlib.contextmanager
def stream_of(path):
    """The content of a file, unpacked if it is packed. A file that can't be unpacked is refused."""
    openers = {"gzip": gzip.open, "zip": zip_stream, "zstd": zstd_stream}
    packing = packing_of(path)
    try:
        with openers[packing](path) if packing else open(path, "rb") as stream:
            yield stream
    except DAMAGED:
        raise Refused(1, path, "it can't be unpacked. Fetch it again, byte for byte.") from None


def head_of(path, size=512):
    """The first bytes of a file's content."""
    with stream_of(path) as stream:
        return stream.read(size)


class Packing:
    """A file that zstd packs into another file, on all processors, while other things are done."""

    def __init__(self, path, target):
        self.path, self.target = path, pathlib.Path(target)
        try:
            self.process = subprocess.Popen(["zstd", "-qfT0", "-o", target, "--", path], stdin=subprocess.DEVNULL, stderr=subprocess.DEVNULL)
        except FileNotFoundError:
            raise Fault(4, path, "there is no zstd here to pack it") from None

    def __enter__(self):
        return self

    def __exit__(self, *_):
        self.process.kill()
        self.process.wait()

    def ends(self, meanwhile=()):
        """Waits until the file is packed, and takes steps of other work meanwhile."""
        for _ in meanwhile:
            if self.process.poll() is not None:
                break
        if self.process.wait() != 0:
            self.target.unlink(missing_ok=True)
            raise OSError(f"{self.path} can't be packed into {self.target.parent}")


def pack(path, target, meanwhile=()):
    """Packs a file with zstd into another file, on all processors, and takes steps of other work meanwhile."""
    with Packing(path, target) as packing:
        packing.ends(meanwhile)
