"""The tools that bench/peers times beside tilefarm and C: Halide, libvips and ImageMagick, each with the pipelines that it can do.

A tool does a pipeline if its own operators give the bytes that tilefarm writes. It takes the picture from standard input and writes the
result to standard output, as the C programs do. Halide has several commands for a pipeline, one for each schedule.
"""
import os
import re
import shutil
import subprocess
from typing import NamedTuple

from timing import TOP, content

VIPS = ("copy", "grey", "blur", "unsharp", "sobel", "harris", "median", "conv15", "bilateral", "histogram")
# ImageMagick 6 with 16 bits: a byte v is 257 v. Rows are 'And'ed with 65280 to round down: so numbers are multiplied by 256/257 before,
# and by its inverse behind. Debian gives this name to the program itself, and no script is between.
MAGICK = "convert-im6.q16"
DOWN = ("-evaluate", "And", "65280")
BACK = ("-evaluate", "Multiply", "1.00390625")


def kernel(cols, rows, factors, divisor):
    """A kernel of ImageMagick whose sum over bytes is 256 times the quotient."""
    return ("-morphology", "Convolve", f"{cols}x{rows}:" + ",".join(f"{it * 256 / 257 / divisor:.17g}" for it in factors))


def again(cols, rows, factors, divisor):
    """A kernel over what another has left rounded down."""
    return ("-morphology", "Convolve", f"{cols}x{rows}:" + ",".join(f"{it / divisor:.17g}" for it in factors))


def sum_of(*kernels):
    """The sum of what several kernels give, each cut to 0 and the greatest number: so a kernel and its opposite give absolute values."""
    return ("-define", "morphology:compose=Plus", "-morphology", "Convolve", ";".join(kernels))


def magick_words():
    """The words of ImageMagick for each pipeline."""
    grey = ",".join([f"{it / 257:.17g}" for it in (77, 150, 29)] * 3)
    tent = [*range(1, 9), *range(7, 0, -1)]
    across, down = "3x3:-1,0,1,-2,0,2,-1,0,1", "3x3:-1,-2,-1,0,0,0,1,2,1"
    opposite = ["3x3:1,0,-1,2,0,-2,1,0,-1", "3x3:1,2,1,0,0,0,-1,-2,-1"]
    return {
        "copy": (),
        "grey": ("-color-matrix", grey, "-channel", "R", "-separate", "+channel", "-evaluate", "Add", "128", *DOWN, *BACK),
        "blur": (*kernel(3, 1, [1] * 3, 3), *DOWN, *again(1, 3, [1] * 3, 3), *DOWN, *BACK, "-shave", "1x1"),
        "sobel": (*sum_of(across, down, *opposite), "-shave", "1x1", "-bordercolor", "black", "-border", "1x1"),
        "median": ("(", "+clone", "-statistic", "Median", "3x3", "-shave", "1x1", ")", "-geometry", "+1+1", "-composite"),
        # What comes down lies between a whole number and 15/16 above it, before it is rounded to the nearest.
        "conv15": (*kernel(15, 1, tent, 64), "-bias", "-0.47", *again(1, 15, tent, 64), *DOWN, *BACK, "-shave", "7x7"),
    }


class Tool(NamedTuple):
    """A tool, its version, and the words of its commands by pipeline."""

    name: str
    version: str
    commands: dict


class Absent(Exception):
    """A tool is not there: what it lacks."""


def output_of(*words):
    return subprocess.run(words, stdout=subprocess.PIPE, text=True, check=True).stdout


def package_version(name):
    """The version that Debian names, without its own part."""
    if not shutil.which("dpkg-query"):
        return ""
    told = subprocess.run(["dpkg-query", "-W", "-f", "${Version}", name], capture_output=True, text=True)
    return re.sub(r"^\d+:|[+-].*$", "", told.stdout)


def halide(folder):
    if not package_version("libhalide14-0-dev") or not shutil.which("g++"):
        raise Absent("Halide: apt-get install g++ libhalide14-0-dev")
    room = f"{folder}/halide"
    subprocess.run([f"{TOP}/bench/halide/build", room], stdout=subprocess.DEVNULL, check=True)
    commands = {}
    for pipeline, schedule in re.findall(r"X\((\w+), (\w+)\)", content(f"{room}/list.h").decode()):
        commands.setdefault(pipeline, []).append([f"{room}/halide", pipeline, schedule])
    return Tool("Halide", package_version("libhalide14-0-dev"), commands)


def vips(folder):
    if not all(map(shutil.which, ("g++", "pkg-config"))) or subprocess.run(["pkg-config", "--exists", "vips-cpp"]).returncode:
        raise Absent("vips: apt-get install g++ libvips-dev")
    flags = output_of("pkg-config", "--cflags", "--libs", "vips-cpp").split()
    made = f"{folder}/vips"
    subprocess.run(["g++", "-O2", "-o", made, f"{TOP}/bench/vips/main.cpp", *flags], check=True)
    return Tool("vips", package_version("libvips-dev"), {name: [[made, name]] for name in VIPS})


def magick(_):
    if not shutil.which(MAGICK):
        raise Absent("ImageMagick: apt-get install imagemagick")
    version = re.search(r"ImageMagick (\S+)", output_of(MAGICK, "-version"))[1]
    commands = {name: [[MAGICK, "pnm:-", *words, "-depth", "8", "pnm:-"]] for name, words in magick_words().items()}
    return Tool("ImageMagick", version, commands)


def found(folder):
    """The tools that are there, and what those lack that are not."""
    os.makedirs(folder, exist_ok=True)
    tools, lacking = [], []
    for tool in (halide, vips, magick):
        try:
            tools.append(tool(folder))
        except Absent as fault:
            lacking.append(str(fault))
    return tools, lacking
