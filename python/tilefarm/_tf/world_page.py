"""The drawing of a world, and its page as one file."""
from .stored_page import page_of as stored_page
from .world_drawing import WorldDrawing
from .world_trace import Trace
from .world_view import view_of


def page_of(trace: Trace) -> bytes:
    """The page, with all that it shows stored in it."""
    return stored_page("talk.html", "talk.js", view_of(trace, WorldDrawing(trace).svg(is_alone=False))).encode()


def drawing_of(trace: Trace) -> bytes:
    """The drawing alone, with its own colours."""
    return WorldDrawing(trace).svg().encode()
