"""Programs to begin with, each with a picture: those of the gallery, of the examples, and the page's own first one."""
import os
from typing import NamedTuple

from .joining import read_lines
from .running import TOP
from .tables import Line
from .text import content


# a package has its own copies of these files, and a repository or an installed folder has them where they are
COPIES = f"{os.path.dirname(os.path.realpath(__file__))}/examples"
HOME = COPIES if os.path.isdir(COPIES) else TOP


class Example(NamedTuple):
    """A program, a picture, and a file of tables if the program has some, by their paths from the top of the repository."""

    name: str
    program: str
    picture: str
    values: dict[str, int] = {}
    tables: str = ""

    def text(self) -> str:
        return content(f"{HOME}/{self.program}").decode("ascii")

    def lines(self) -> list[Line]:
        return read_lines([f"{HOME}/{self.tables}"]) if self.tables else []

    def picture_path(self) -> str:
        return f"{HOME}/{self.picture}"

    def paths(self) -> list[str]:
        return [it for it in (self.program, self.picture, self.tables) if it]


def gallery(name: str, picture: str = "grey.png") -> Example:
    return Example(name, f"docs/gallery/{name}.pipe", f"docs/gallery/{picture}")


def with_table(name: str, picture: str = "grey.png") -> Example:
    return gallery(name, picture)._replace(tables=f"docs/gallery/{name}.table")


def example(name: str, picture: str = "docs/gallery/grey.png") -> Example:
    return Example(name, f"examples/{name}/{name}.pipe", picture)


EXAMPLES = (
    Example("edges", "python/tilefarm/_tf/page/edges.pipe", "docs/gallery/grey.png"),
    example("sobel"), example("unsharp"), example("blur"), example("brown", "docs/gallery/scene.png"), example("half"),
    example("histogram"), example("blurred_histogram"),
    gallery("local_contrast"), gallery("bilateral"), gallery("harris"), gallery("pyramid"), gallery("blend", "scene.png"),
    with_table("tone", "scene.png"), with_table("equal"),
)
