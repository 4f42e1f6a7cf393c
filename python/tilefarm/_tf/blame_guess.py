"""What was probably meant where a token cannot stand: words that are nearly those of the language, and forms of other languages."""
from .around import ITEMS, Around, Guess, at
from .blame_forms import FORMS
from .near import near
from .tokens import CALLS

WORDS = (*CALLS, "stencil")
# words of other languages, and the item that says the same
OTHERS = {"def": "func", "fn": "func", "stage": "func", "let": "func", "const": "param", "var": "param", "input": "image", "plane": "image",
          "histogram": "accum", "hist": "accum", "return": "output", "out": "output"}
FLIPS = ("vertical", "horizontal")


def guess(it: Around) -> Guess | None:
    """The first guess that fits."""
    ways = (comment, stencil_of_a_read, mirror, call, *FORMS, word, else_is_missing, semicolon_is_missing)
    return next(filter(None, (way(it) for way in ways)), None)


def close(text: str, words: tuple[str, ...]) -> str | None:
    """The word that is nearest to a text, if one is near."""
    return near(text.lower(), words, 0.5 if len(text) < 4 else 0.6)


def comment(it: Around) -> Guess | None:
    pair = [it.here, *it.behind[:1]] if it.last() != "/" else [it.before[-1], it.here]
    if [token.text for token in pair] != ["/", "/"] or pair[0].end != pair[1].offset:
        return None
    return Guess(pair[0].offset, 2, "There is no //: a comment begins with #, and one / divides.")


def stencil_of_a_read(it: Around) -> Guess | None:
    if it.here.text != "(" or [token.text for token in it.before[-3:-1]] != ["stencil", "("]:
        return None
    name = it.last()
    return at(it.here, f"A stencil takes the name alone, since it reads round each point by itself: stencil({name}, 1, [[..]]).")


def mirror(it: Around) -> Guess | None:
    """An index with a variable behind a minus."""
    name, start = it.call()
    if not name or name.kind != "name":
        return None
    inside = [*it.before[start + 1 :], it.here, *it.behind[:8]]
    commas = [at for at, token in enumerate(it.before[start + 1 :]) if token.text == ","]
    index = inside[commas[-1] + 1 if commas else 0 :]
    end = next((at for at, token in enumerate(index) if token.text in (",", ")", ";")), len(index))
    taken_off = [second for first, second in zip(index, index[1:end]) if first.text == "-" and second.kind == "name"]
    if not taken_off:
        return None
    flip = FLIPS[min(len(commas), 1)]
    return at(it.here, f"An index has no negative factor, so there is no mirror: turn the picture before, as by vips flip IN OUT {flip}; "
              f"an index is {taken_off[0].text}, {taken_off[0].text}+1 or 2*{taken_off[0].text}-3.")


def call(it: Around) -> Guess | None:
    name, _ = it.call()
    meant = close(name.text, WORDS) if name and name.kind == "name" and name.text not in it.declared() else None
    return at(name, f"{name.text} is no word of the language, and declared nowhere: {meant} is one.") if name and meant else None


def word(it: Around) -> Guess | None:
    if it.here.kind != "name":
        return None
    wanted = ("case", "else") if it.wanted == ("}",) else tuple(token for token in it.wanted if token.isalpha())
    meant = close(it.here.text, wanted)
    if set(ITEMS) <= set(wanted):
        meant = OTHERS.get(it.here.text.lower(), meant)
    return at(it.here, f"{it.here.text} is no word of the language: {meant} is one that can stand here.") if meant else None


def else_is_missing(it: Around) -> Guess | None:
    begins = it.here.kind in ("name", "number") or it.here.text in ("(", "-", *WORDS)
    if it.wanted != ("}",) or it.last() not in ("{", ";") or not begins:
        return None
    return at(it.here, f"A value stands behind a case or an else: write else : {it.here.text} ..;")


def semicolon_is_missing(it: Around) -> Guess | None:
    """A line that goes on where a ; could stand."""
    if it.wanted != (";",) or not it.before or b"\n" not in it.data[it.before[-1].end : it.here.offset]:
        return None
    return Guess(it.before[-1].end, 1, f"Behind {it.last()}, at the end of this line, a ; is wanted, or an operator.")
