"""True facts of a job's tiles: the program makes them in a world, all in one run where a script is long enough for that."""
from .fact_scripts import Group, Scripts, node_line
from .facts import line_of
from .making import Maker, Tile
from .running import run
from .text import Refused

# what makes each tile from the tiles of others alone, so that none takes more scratch memory than there is
STORED = "--stored"


def line_of_tiles(maker: Maker, check: str, plan: str, tiles: list[Tile], words: list[str]) -> bytes:
    """The line of the fact file of these tiles."""
    if not tiles:
        return line_of([])
    scripts = Scripts(maker, check, plan)
    found = made(scripts, tiles, words)
    if not found and STORED not in words:
        found = made(Scripts(maker, check, ""), tiles, [*words, STORED])
    if not found:
        raise Refused("tilefarm does not make the tiles: it refuses an event of the script", 3)
    return found


def made(scripts: Scripts, tiles: list[Tile], words: list[str]) -> bytes:
    """The line of the tiles' facts, or nothing where a world refuses to make one of them."""
    lines = [node_line(written("world", ["--nodes", "2", *words], scripts.input(it))) for it in scripts.fitting(Group(tuple(tiles)))]
    if not all(lines):
        return b""
    return lines[0] if len(lines) == 1 else written("merge", [], b"".join(lines))


def written(command: str, words: list[str], data: bytes) -> bytes:
    """What the program writes, which is to go well: the job was checked."""
    ended = run([command, *words], data)
    if ended.status:
        raise Refused(f"tilefarm does not make the tiles: {ended.written.decode('utf-8', 'replace').strip()}", ended.status)
    return ended.written
