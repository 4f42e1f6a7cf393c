"""Which word was probably meant."""
from typing import Iterable

# what other tools call options of tf
OTHERS = {"--output": "-o", "--out": "-o", "--gray": "--grey", "--colors": "--colours", "--color": "--colours", "--silent": "--quiet"}


def near(word: str, known: Iterable[str], cutoff: float = 0.6) -> str | None:
    """The word that is nearest to this one, if one is near."""
    # (the module takes as long to load as all others of tf, and is wanted only where something is refused)
    import difflib

    return OTHERS.get(word) or next(iter(difflib.get_close_matches(word, list(known), 1, cutoff)), None)


def meant(word: str, known: Iterable[str]) -> str:
    """A question, where one of the words that there are may be meant."""
    other = near(word, known)
    return f" Did you mean {other}?" if other else ""
