"""tf play: a page on this machine that shows a pipeline at work."""
import os
import sys
import webbrowser

from . import leaving
from .output import tell
from .play_given import session_of
from .play_server import Server
from .running import program
from .words import asked


LINK = """<!DOCTYPE html>
<html lang="en"><meta charset="utf-8"><meta name="referrer" content="no-referrer"><title>tf play</title>
<meta http-equiv="refresh" content="0; url={address}">
<a href="{address}">the page of tf play</a></html>
"""


def play(words: list[str]) -> int:
    """Serves the page until a signal ends it, as Ctrl-C does."""
    it = asked(words)
    program()
    server = Server(session_of(it))
    tell(f"the page is at {server.address()} (Ctrl-C ends it)")
    with leaving.room("tf-play-") as room:
        try:
            if "--no-browser" not in it.own and has_screen():
                webbrowser.open(f"file://{link(room, server.address())}")
            server.serve_forever()
        finally:
            server.session.runs.end()
            server.server_close()
    return 0


def link(room: str, address: str) -> str:
    """A file that leads a browser to the page, and that the user alone can read. The words of a browser are seen by all who list processes."""
    path = f"{room}/play.html"
    with open(os.open(path, os.O_WRONLY | os.O_CREAT | os.O_EXCL, 0o600), "w", encoding="ascii") as file:
        file.write(LINK.format(address=address))
    return path


def has_screen() -> bool:
    """Whether a browser has a screen to open on, and would not take the terminal."""
    return sys.platform in ("darwin", "win32") or bool(os.environ.get("DISPLAY") or os.environ.get("WAYLAND_DISPLAY"))
