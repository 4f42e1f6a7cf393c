"""The command tf of an installed package: tools/tf, which runs the program that the package brings."""
from __future__ import annotations

import os

from ._tf import leaving
from ._tf.main import main as main_of_tf
from .processes import program_path


def main() -> int:
    """Does what the words of the command line ask for, and answers the exit status."""
    leaving.watch()
    os.environ.setdefault("TILEFARM", program_path())
    return main_of_tf()
