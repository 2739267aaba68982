"""What the tests of the pages share: an office with a server of its pages, and a browser. DOCKER names the program. DESK names the program `desk`. If there is none,
a stand-in that speaks its protocol is used."""
import shutil

import pytest

pytest.importorskip("flask")
pytest.importorskip("waitress")
from serving import Server, made  # noqa: E402


@pytest.fixture(scope="module")
def serves(tmp_path_factory):
    """Makes an office of these extracts, and serves its pages. Variables of the server's environment may be given."""
    servers = []

    def serving(*extracts, now="2024-06-12T08:55", places="ASHFELD\n", **environment):
        folder = tmp_path_factory.mktemp("office")
        made(folder, *extracts, places=places)
        servers.append(Server(folder, now, **environment))
        return servers[-1]

    yield serving
    for server in servers:
        server.ends()


@pytest.fixture(scope="session")
def chromium():
    """One browser for all tests. They are skipped where there is none."""
    if shutil.which("chromedriver") is None:
        pytest.skip("there is no chromedriver")
    import browser

    found = browser.Browser()
    yield found
    found.close()


@pytest.fixture
def chrome(chromium):
    """The browser, with an empty page as wide and as high as the screen of a laptop."""
    chromium.open("about:blank")
    chromium.media("")
    chromium.sized(1366, 768)
    return chromium
