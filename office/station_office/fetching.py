"""Fetches extracts, and states of other offices, from the sources of an office. What comes is looked at before it gets into the office's folders."""
import contextlib
import os
import signal
import ssl
import time

from . import archive, fetched, locking, packing, sources
from .extracts import MARK
from .faults import Fault, Refused

try:
    import requests
    import urllib3
    from urllib3.util.ssl_match_hostname import CertificateError
except ModuleNotFoundError:
    raise Fault(4, "fetch", "it needs Debian's python3-requests") from None

# The answers after which another try may succeed: the server is busy, or fails for a while.
PASSING = (408, 425, 429, 500, 502, 503, 504)
# The most seconds between two tries, the most redirects, and the most characters that are shown of what a server says.
LONGEST_PAUSE, REDIRECTS, SHOWN = 600, 5, 100
# How many bytes are read at once, and how many show what a file is: its beginning and its end.
CHUNK, END = 1 << 20, 512
ENDINGS = {"gzip": ".gz", "zstd": ".zst", "zip": ".zip", None: ""}


class Passing(Exception):
    """A failure that may pass, so that it is worth trying again. `wait` is the number of seconds after which the server wants to be asked again; 0 if it didn't say."""

    def __init__(self, reason, wait=0):
        super().__init__(reason)
        self.reason, self.wait = reason, wait


def fetches_all(office):
    """Fetches from each source what is new there. A failure is reported, and the other sources follow all the same."""
    found = sources.sources_of(office)
    if not found:
        office.say(office.folder / "sources", "it names no source, so nothing is fetched")
        return
    with locking.locked(office, "fetching"):
        known = fetched.remembered(office)
        last = {source.name: known.get(source.name, fetched.Last()) for source in found}
        for source in found:
            try:
                last[source.name] = fetches(office, source, last[source.name])
            except (Fault, OSError) as error:
                fault = error if isinstance(error, Fault) else office.device_fault(error)
                last[source.name] = last[source.name]._replace(tried=now_of(office), fault=fault.lines[0])
                office.report(fault)
            with office.reporting():
                fetched.remembers(office, last)


def now_of(office):
    return office.settings.now.isoformat(" ", "minutes")


def fetches(office, source, last):
    """Fetches a newer file from a source. Returns what to remember. After a failure that may pass it tries again, each time after a longer pause."""
    archive.writable(office, source.folder)
    if office.settings.is_forced or last.address != fetched.digest(source.address):
        last = fetched.Last()
    for number in range(1, source.tries + 1):
        try:
            return gets(office, source, last)
        except Passing as failure:
            pause = max(failure.wait, min(source.pause * 2 ** (number - 1), LONGEST_PAUSE))
            if failure.wait > LONGEST_PAUSE:
                raise Fault(4, f"source {source.name}", f"{failure.reason}, and wants no request for {failure.wait:.0f} seconds") from None
            if number == source.tries:
                raise Fault(4, f"source {source.name}", f"{failure.reason}; it was tried {number} times") from None
            office.say(f"source {source.name}", f"{failure.reason}; the next try is in {pause:g} seconds")
        time.sleep(pause)


def gets(office, source, last):
    """Tries once to fetch a newer file. Returns what to remember."""
    folder = office.folder / source.folder
    part = folder / f".{source.name}.part"
    try:
        with limited(source.limit), asked(source, last) as answer:
            now, known = now_of(office), fetched.digest(source.address)
            if answer.status_code == 304 and last.came:
                office.say(f"source {source.name}", f"it has nothing newer than what came on {last.came}")
                return last._replace(tried=now, fault="")
            if answer.status_code != 200:
                raise refusal(source, answer)
            receives(office, answer, part)
            looks_at(source, part)
            size, target = os.stat(part).st_size, target_of(office, source, part)
            # It is complete, so it needn't wait in in/ until it is old enough.
            os.utime(part, (time.time() - office.settings.still - 1,) * 2)
            os.replace(part, target)
            office.say(f"source {source.name}", f"{target} came")
            name = f"{source.folder}/{target.name}"
            return fetched.Last(known, answer.headers.get("ETag", ""), answer.headers.get("Last-Modified", ""), name, size, now, now)
    except (requests.RequestException, urllib3.exceptions.HTTPError) as error:
        raise failure_of(source, error) from None
    finally:
        part.unlink(missing_ok=True)


@contextlib.contextmanager
def limited(seconds):
    """Ends the statements inside the block if they take longer than this number of seconds, whatever they wait for."""
    def ends(*_):
        raise Passing(f"it took longer than {seconds:g} seconds")

    signal.signal(signal.SIGALRM, ends)
    # If something inside the block holds back the first signal, the next one comes a second later.
    signal.setitimer(signal.ITIMER_REAL, seconds, 1)
    try:
        yield
    finally:
        signal.setitimer(signal.ITIMER_REAL, 0)


@contextlib.contextmanager
def asked(source, last):
    """The answer of a source's server to a request for what is newer than the last file. Only https is spoken, also after a redirect, and another host than the
    source's own gets no user and no password."""
    headers = {"User-Agent": "station-office", "Accept-Encoding": "identity"}
    headers |= {name: value for name, value in (("If-None-Match", last.etag), ("If-Modified-Since", last.modified)) if value}
    with requests.Session() as session:
        # Nothing but the file `sources` says who asks, and whom to trust.
        session.trust_env, session.max_redirects = False, REDIRECTS
        del session.adapters["http://"]
        if source.user:
            session.auth = tuple(word.encode("utf-8", "surrogateescape") for word in (source.user, source.password))
        with session.get(source.address, headers=headers, stream=True, timeout=source.patience, verify=source.authority or True) as answer:
            yield answer


def refusal(source, answer):
    """The failure that an answer without a file means. It shows what the server says first."""
    says = f"the server answers {answer.status_code} {shown(answer.reason or '')}".rstrip()
    if line := first_line(answer.raw.read(END, decode_content=True)):
        says += f" and says {line!r}"
    if answer.status_code not in PASSING:
        return Fault(4, f"source {source.name}", says)
    with contextlib.suppress(urllib3.exceptions.InvalidHeader):
        return Passing(says, urllib3.Retry().get_retry_after(answer.raw) or 0)
    return Passing(says)


def failure_of(source, error):
    """The failure that an error on the way means. The library's own message isn't shown, because it could have the address, and a secret in it."""
    subject, causes = f"source {source.name}", list(causes_of(error))
    if wrong := next((one for one in causes if isinstance(one, (ssl.SSLCertVerificationError, CertificateError))), None):
        return Fault(4, subject, f"the server's certificate isn't trusted: {shown(getattr(wrong, 'verify_message', None) or str(wrong))}")
    if isinstance(error, requests.TooManyRedirects):
        return Fault(4, subject, f"the server redirects more than {REDIRECTS} times")
    if isinstance(error, (requests.exceptions.InvalidSchema, requests.exceptions.InvalidURL, requests.exceptions.MissingSchema)):
        return Fault(4, subject, "the server redirects to an address that isn't one of https")
    if any(isinstance(one, (TimeoutError, requests.Timeout)) for one in causes):
        return Passing(f"the server said nothing for {source.patience:g} seconds")
    if isinstance(error, urllib3.exceptions.HTTPError):
        return Passing("the answer was cut short")
    why = next((one.strerror for one in causes if isinstance(one, OSError) and one.strerror), type(error).__name__)
    return Passing(f"the server can't be reached: {why}")


def causes_of(error):
    """An error, and the errors that led to it."""
    while error is not None:
        yield error
        error = error.__context__


def receives(office, answer, part):
    """Writes the content of an answer into a file, as it comes. It has to be as long as the server says."""
    said = answer.headers.get("Content-Length", "")
    length = int(said) if said.isdecimal() and not answer.raw.chunked else None
    if length and (lacks := office.shortage(length, part.parent)):
        raise Fault(4, part.parent, *lacks)
    size = 0
    with open(part, "wb") as file:
        for piece in answer.raw.stream(CHUNK, decode_content=False):
            file.write(piece)
            size += len(piece)
        file.flush()
        os.fsync(file.fileno())
    if length is not None and size != length:
        raise Passing(f"the answer was cut short: {size} of {length} bytes came")


def looks_at(source, part):
    """Refuses a file that isn't a whole extract, or a state if it goes into swap/. Packed files are unpacked to their end, which compares their checksums."""
    try:
        with packing.stream_of(part) as stream:
            head = end = stream.read(END)
            while piece := stream.read(CHUNK):
                end = (end + piece)[-END:]
    except Refused as fault:
        raise Passing(f"what came is damaged: {fault.lines[0]}") from None
    mark, kind = (MARK, "state") if source.folder == "swap" else (b"HD", "extract")
    if not head.startswith(mark):
        raise Fault(1, f"source {source.name}", f"what came is no {kind}: its first line is {first_line(head)!r}")
    if kind == "extract" and not end.rstrip(b"\r\n").rpartition(b"\n")[2].startswith(b"ZZ"):
        raise Passing("what came is cut short: an extract ends with a record ZZ")


def first_line(text):
    """The first line in a text that isn't blank."""
    return shown(next((line for line in text.decode("utf-8", "replace").splitlines() if line.strip()), ""))


def shown(text):
    """The beginning of a server's text, with a question mark for each character that can't be printed."""
    return "".join(letter if letter.isprintable() else "?" for letter in text.strip())[:SHOWN]


def target_of(office, source, part):
    """The name that a fetched file gets once it is complete. The name of an extract has the time of the fetch. A state replaces the state that came before it."""
    ending = ENDINGS[packing.packing_of(part)]
    if source.folder == "swap":
        return part.with_name(f"{source.name}.state{ending}")
    return part.with_name(archive.free_name(part.parent, f"{source.name}-{office.settings.now:%Y%m%d-%H%M%S}.cif{ending}"))
