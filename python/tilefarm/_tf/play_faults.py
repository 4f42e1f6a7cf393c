"""Faults as a page shows them: the line, the places in the program's text, and the sentence of cure."""
import re

from .blame import Blame, Situation
from .faults import TABLE
from .text import Place, Text


def fault(line: str, situation: Situation) -> dict:
    """A fault line with its places and its cure."""
    for pattern, blame in TABLE.items():
        found = re.fullmatch(pattern, line, re.S)
        if found:
            return blamed(line, blame(found, situation), situation.text())
    return {"line": line, "cure": "", "places": [], "elsewhere": []}


def blamed(line: str, blame: Blame, text: Text) -> dict:
    """Places in the program by characters of its text; others as they are drawn."""
    places = [it for it in blame.places if isinstance(it, Place)]
    inside = [span(it) for it in places if it.text is text]
    elsewhere = [it for it in blame.places if isinstance(it, str)] + ["\n".join(it.drawing()) for it in places if it.text is not text]
    return {"line": line, "cure": blame.cure, "places": inside, "elsewhere": elsewhere}


def span(place: Place) -> dict:
    """Where a place begins and ends, in the characters that a browser counts."""
    start = units(place.text.data[: place.offset])
    return {"start": start, "end": max(start, units(place.text.data[: place.offset + place.length])), "drawing": place.drawing()}


def units(data: bytes) -> int:
    """How many units of 16 bits a text has."""
    return len(data.decode("utf-8", "replace").encode("utf-16-le")) // 2
