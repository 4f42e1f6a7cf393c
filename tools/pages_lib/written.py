"""Writes pages that are made, or compares them."""
import os
import sys

from .sources import TOP


def content(name: str) -> str:
    """What a page has, and nothing where it is not there."""
    if not os.path.exists(f"{TOP}/{name}"):
        return ""
    with open(f"{TOP}/{name}", encoding="utf-8") as file:
        return file.read()


def filled(name: str, mark: str, made: str) -> dict[str, str]:
    """A page with what is made between its marks."""
    begin, end = f"<!-- {mark} -->\n", f"<!-- end of {mark} -->\n"
    before, found, rest = content(name).partition(begin)
    behind = rest.partition(end)[2]
    return {name: "".join((before, begin, made, end, behind))} if found else {}


def main(pages: dict[str, str], faults: list[str], words: list[str], usage: str) -> int:
    """Writes the pages, or with `--check` compares them; tells each fault, and gives the exit status."""
    if words not in ([], ["--check"]):
        sys.exit(usage)
    differing = [name for name, made in pages.items() if content(name) != made]
    if words:
        faults = [*faults, *(f"{it} is not what {os.path.relpath(sys.argv[0], TOP)} makes: run it" for it in differing)]
    else:
        for name in differing:
            os.makedirs(os.path.dirname(f"{TOP}/{name}"), exist_ok=True)
            with open(f"{TOP}/{name}", "w", encoding="utf-8") as file:
                file.write(pages[name])
    for it in faults:
        print(it)
    if words:
        print(f"{len(pages) - len(differing)} passed, {len(faults)} failed")
    return 1 if faults else 0
