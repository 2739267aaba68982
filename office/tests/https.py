"""A server on this machine that speaks HTTPS, for tests. Its certificates are made by openssl, with an authority that only the tests know."""
import contextlib
import http.server
import socket
import ssl
import subprocess
import threading



def openssl(folder, *words):
    subprocess.run(["openssl", *words], cwd=folder, stdin=subprocess.DEVNULL, capture_output=True, check=True)


def makes_certificates(folder):
    """Makes `authority.pem`, and certificates that it signed with their keys: `good.pem`, `expired.pem`, whose last day was in 2021, and `other.pem`, which is of
    another host."""
    config = "[ca]\ndefault_ca=a\n[a]\ndatabase=index\nserial=serial\nnew_certs_dir=.\ndefault_md=sha256\npolicy=p\ncopy_extensions=copy\n[p]\ncommonName=supplied\n"
    for name, text in (("config", config), ("index", ""), ("serial", "01\n")):
        (folder / name).write_text(text)
    key = ("-newkey", "ec", "-pkeyopt", "ec_paramgen_curve:prime256v1", "-nodes")
    openssl(folder, "req", "-x509", *key, "-keyout", "authority.key", "-out", "authority.pem", "-subj", "/CN=authority", "-days", "2")
    here = "DNS:localhost,IP:127.0.0.1"
    for name, last, hosts in (("good", "20491231000000Z", here), ("expired", "20210101000000Z", here), ("other", "20491231000000Z", "DNS:other.example")):
        openssl(folder, "req", *key, "-keyout", f"{name}.key", "-out", f"{name}.request", "-subj", f"/CN={name}", "-addext", f"subjectAltName={hosts}")
        openssl(
            folder, "ca", "-batch", "-config", "config", "-cert", "authority.pem", "-keyfile", "authority.key", "-in", f"{name}.request", "-out", f"{name}.crt", "-notext",
            "-startdate", "20200101000000Z", "-enddate", last,
        )
        (folder / f"{name}.pem").write_text((folder / f"{name}.crt").read_text() + (folder / f"{name}.key").read_text())


def free_port():
    """A port of this machine on which nothing listens."""
    with socket.socket() as one:
        one.bind(("127.0.0.1", 0))
        return one.getsockname()[1]


class Server(http.server.ThreadingHTTPServer):
    """A server whose answers are functions: each is called with the handler of a request. `asked` has the path and the headers of each request."""

    daemon_threads = True

    def __init__(self, certificate=None):
        super().__init__(("127.0.0.1", 0), Handler)
        self.answers, self.asked, self.stopping = {}, [], threading.Event()
        if certificate:
            context = ssl.SSLContext(ssl.PROTOCOL_TLS_SERVER)
            context.load_cert_chain(certificate)
            self.socket = context.wrap_socket(self.socket, server_side=True)

    def handle_error(self, request, client_address):
        """A client that hangs up is what some tests want."""

    def address(self, path, host="localhost"):
        return f"https://{host}:{self.server_port}{path}"

    def answers_with(self, path, *answers):
        """Sets the answers to the requests for a path, one after another. The last one is repeated."""
        self.answers[path] = list(answers)

    def headers_of(self, path):
        """The headers of each request for a path."""
        return [headers for asked, headers in self.asked if asked == path]


class Handler(http.server.BaseHTTPRequestHandler):
    protocol_version = "HTTP/1.1"

    def do_GET(self):
        self.server.asked.append((self.path, dict(self.headers)))
        answers = self.server.answers[self.path]
        (answers.pop(0) if len(answers) > 1 else answers[0])(self)

    def log_message(self, *_):
        """Requests aren't printed."""


@contextlib.contextmanager
def serving(certificate=None):
    """A server that runs while the statements inside the block do."""
    with Server(certificate) as server:
        threading.Thread(target=server.serve_forever, kwargs={"poll_interval": 0.02}, daemon=True).start()
        try:
            yield server
        finally:
            server.stopping.set()
            server.shutdown()


def sends(content=b"", status=200, length=None, **headers):
    """An answer with this content. `length` is what it says of its length, if that isn't true; after a false length the server hangs up."""
    def answer(handler):
        handler.send_response(status)
        for name, value in {"Content-Length": str(len(content) if length is None else length), **headers}.items():
            handler.send_header(name.replace("_", "-"), value)
        handler.end_headers()
        handler.wfile.write(content)
        handler.close_connection = length is not None

    return answer


def sends_parts(*parts, pause=0, is_chunked=True, is_whole=True):
    """An answer that comes in parts without a length, with pauses between them. If it isn't whole, the server hangs up in its midst."""
    def answer(handler):
        handler.send_response(200)
        handler.send_header(*(("Transfer-Encoding", "chunked") if is_chunked else ("Connection", "close")))
        handler.end_headers()
        for part in parts:
            handler.wfile.write(b"%x\r\n%s\r\n" % (len(part), part) if is_chunked else part)
            handler.server.stopping.wait(pause)
        if is_chunked and is_whole:
            handler.wfile.write(b"0\r\n\r\n")
        handler.close_connection = True

    return answer


def sends_file(content, etag=None, modified=None):
    """An answer that has the content, unless the client has it already by its tag or its date."""
    def answer(handler):
        is_known = etag is not None and handler.headers["If-None-Match"] == etag or etag is None and modified is not None and handler.headers["If-Modified-Since"] == modified
        words = {name: value for name, value in (("ETag", etag), ("Last_Modified", modified)) if value}
        sends(b"" if is_known else content, 304 if is_known else 200, **words)(handler)

    return answer


def says_nothing(handler):
    """An answer that never comes."""
    handler.server.stopping.wait(60)
