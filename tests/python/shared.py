"""What the tests of tilefarm for Python share: the package, the program, and random pictures."""
import os
import subprocess
import sys

TOP = os.path.dirname(os.path.dirname(os.path.dirname(os.path.realpath(__file__))))
PACKAGE = f"{TOP}/python"
sys.path.insert(0, PACKAGE)
os.environ["TILEFARM"] = os.path.abspath(sys.argv[1] if len(sys.argv) > 1 else f"{TOP}/crates/tilefarm/out/tilefarm")

import numpy as np

COPY = """param R; param C;
image I(R, C);
func f(x in [0 .. R-1], y in [0 .. C-1]) { else : I(x, y); }
output f max 255;
"""


def picture(*shape: int, dtype: type = np.uint8, seed: int = 1) -> np.ndarray:
    """A picture of random samples."""
    return np.random.default_rng(seed).integers(0, np.iinfo(dtype).max, shape, dtype, endpoint=True)


def version(module: str) -> str:
    """What a module that this Python runs says of its version; nothing where it lacks."""
    return subprocess.run([sys.executable, "-m", module, "--version"], stdout=subprocess.PIPE, stderr=subprocess.DEVNULL, text=True).stdout
