"""Whole numbers in words and files of the user's, of any length: Python itself refuses digits in great numbers, and takes other scripts'."""
import re

NUMBER = re.compile(r"(-?)0*([0-9]+)")
# what has fewer digits is soon read
SHORT = 10


def whole_number(word: str | bytes, least: int, most: int) -> int | None:
    """The number that a word spells in digits from 0 to 9, if it spells one, and one from the least to the greatest. A - stands before it
    only where there are numbers below 0."""
    if len(word) < SHORT and word.isascii() and word.isdigit():
        value = int(word)
        return value if least <= value <= most else None
    text = word.decode("latin-1") if isinstance(word, bytes) else word
    found = NUMBER.fullmatch(text)
    if not found or (found[1] and least >= 0) or len(found[2]) > len(str(max(abs(least), abs(most)))):
        return None
    value = int(found[1] + found[2])
    return value if least <= value <= most else None
