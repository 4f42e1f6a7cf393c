"""Times sides of tiles and percentages on one input, and says which are best here."""
from statistics import median
from typing import Callable, Iterator

from .running import run

SIDES = (32, 64, 128, 256, 512, 1024)
PERCENTS = ("0", "20", "100", "400")


def words_of(side: int, percent: str) -> list[str]:
    """The options for tiles with these sides; a percentage, or `stored`."""
    sides = ["--rows", str(side), "--cols", str(side)]
    return [*sides, "--stored"] if percent == "stored" else [*sides, "--percent", percent]


def timed(words: list[str], data: bytes, rounds: int) -> float | None:
    """The median of the seconds of so many runs, or none where the program refuses."""
    ran = [run(["eval", *words], data) for _ in range(rounds)]
    return None if any(it.status for it in ran) else median(it.seconds for it in ran)


def tune(words: list[str], data: bytes, rounds: int, tell: Callable[[str], None]) -> Iterator[str]:
    """The lines of the result: first the sides at the usual percentage, then percentages at the best side."""
    kept = without_settings(words)
    found: dict[tuple[int, str], float] = {}

    def time(side: int, percent: str) -> None:
        seconds = timed([*words_of(side, percent), *kept], data, rounds)
        if seconds is not None:
            found[side, percent] = seconds
        tell(f"{' '.join(words_of(side, percent))}: {'refused' if seconds is None else f'{1000 * seconds:.1f} ms'}")

    for side in SIDES:
        time(side, "40")
    best_side = best(found)[0] if found else 64
    for percent in (*PERCENTS, "stored"):
        time(best_side, percent)
    yield from told(found, rounds)


def best(found: dict[tuple[int, str], float]) -> tuple[int, str]:
    return min(found, key=lambda it: found[it])


def told(found: dict[tuple[int, str], float], rounds: int) -> Iterator[str]:
    if not found:
        yield "no setting ran: see what tf eval says"
        return
    usual = found.get((64, "40"))
    yield f"best: {' '.join(words_of(*best(found)))}: {1000 * min(found.values()):.1f} ms" + (
        f", beside {1000 * usual:.1f} ms of the usual setting" if usual else "")
    yield f"(each a whole process, the median of {rounds} runs, on this machine and this picture; within a tenth is no difference)"


def without_settings(words: list[str]) -> list[str]:
    """The words without the settings that are tried."""
    kept, skip = [], False
    for word in words:
        is_setting = word.split("=")[0] in ("--rows", "--cols", "--percent", "--stored")
        if not skip and not is_setting:
            kept.append(word)
        skip = is_setting and "=" not in word and word != "--stored"
    return kept
