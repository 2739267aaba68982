"""Sends the office's newest packed state to other offices, which fetch it. The server does this only if an address for it is set."""
import os
import pathlib

import flask


def shares(app, state, path):
    """Has the server send the state that the office last put into swap/, at this path. Without a path it sends none."""
    if not path:
        return

    @app.get(path)
    def newest():
        try:
            name = pathlib.Path(f"{state}.name").read_text(encoding="utf-8").strip()
            sent = os.path.join(os.path.dirname(os.path.abspath(state)), "swap", f"{name}.state.zst")
            return flask.send_file(sent, mimetype="application/zstd", conditional=True)
        except FileNotFoundError:
            return "the office hasn't sent its state yet\n", 404, {"Content-Type": "text/plain; charset=utf-8"}
