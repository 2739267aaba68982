"""The server of the pages: waitress, with limits. Slow or idle clients, and requests that never end, don't keep others out."""
import math
import time

import waitress
import waitress.channel
import waitress.server

# The number of seconds that the server waits for a client. The server ends a connection that has
# sent no whole request for longer than this, unless a request is being answered. It also ends a
# connection whose client hasn't read its answer for longer than this.
PATIENCE = 20
# The greatest number of connections. If another client connects, the connection that has waited
# longest is ended. All connections, including the ones that are ending, need fewer than the 1,024
# files that a process may have open.
MOST = 400
# The number of requests that a client may send before it has read the answers. Browsers send one.
AT_ONCE = 4
# The greatest size of a request: of its head, and of a body, which no page needs.
HEAD, BODY = 16 << 10, 64 << 10


class Channel(waitress.channel.HTTPChannel):
    """A client's connection. It records the time since which the client has sent no whole request."""

    def __init__(self, server, *words, **named):
        self.since = time.monotonic()
        super().__init__(server, *words, **named)
        waiting = [channel for channel in list(server.active_channels.values()) if not channel.will_close]
        if len(waiting) > MOST:
            idle = [channel for channel in waiting if not channel.requests and channel is not self]
            min(idle, key=lambda channel: channel.since, default=self).will_close = True

    def received(self, data):
        done = super().received(data)
        # Bytes of an incomplete request don't count: a client could send one a minute.
        if self.request is None:
            self.since = time.monotonic()
        # Answers that nobody reads would keep a thread busy.
        if len(self.requests) > AT_ONCE:
            self.will_close = True
        return done

    def service(self):
        # While a request is being answered, the server doesn't wait for the client.
        self.since = math.inf
        super().service()
        self.since = time.monotonic()

    def has_waited(self):
        """Whether the client has used up its time to send a request or to read an answer."""
        if self.total_outbufs_len:
            return time.time() - self.last_activity > PATIENCE
        return not self.requests and time.monotonic() - self.since > PATIENCE


def end_waiting(server, _now):
    """Ends the connections that have waited too long. The server calls this each second."""
    for channel in list(server.active_channels.values()):
        if channel.has_waited():
            channel.will_close = True


def made(app, listen):
    """A server that is already listening."""
    waitress.server.BaseWSGIServer.channel_class = Channel
    waitress.server.BaseWSGIServer.maintenance = end_waiting
    return waitress.create_server(
        app, listen=listen, threads=4, ident="station-office", asyncore_use_poll=True, connection_limit=2 * MOST, cleanup_interval=1, backlog=MOST,
        max_request_header_size=HEAD, max_request_body_size=BODY,
    )
