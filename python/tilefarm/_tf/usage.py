"""The one list of commands, options, statuses and limits. The usage texts, the man pages, the completions and the tables of the
documents are made from it (tools/make_usage)."""
from typing import NamedTuple


class Command(NamedTuple):
    """A command of `tilefarm`. `files` are the files that its words name, in their order; `sections` are the parts of its
    input in theirs. A section is a program, a picture, fact files (as many as are named), or a script, which is passed on."""

    name: str
    files: tuple[str, ...]
    sections: tuple[str, ...]
    writes: str

    @property
    def takes_words(self) -> bool:
        """Whether it takes options and values: what has no program is not asked for anything more."""
        return "program" in self.sections

    @property
    def is_of_facts(self) -> bool:
        """Whether it takes or writes facts."""
        return FACTS in self.sections or SCRIPT in self.sections


class Option(NamedTuple):
    """An option, the word for its value if it takes one, what it says, and the commands that take it, if not all do."""

    name: str
    value: str
    says: str
    only: tuple[str, ...] = ()


class Status(NamedTuple):
    number: int
    when: str
    lines: str


ONE, FACTS, SCRIPT = ("program", "picture"), "facts", "script"
COMMANDS = {
    it.name: it
    for it in (
        Command("eval", ONE, ONE, "the result: a raw PGM picture, or a raw PPM where the output names three functions, if there is an "
                "output; then for each accumulator a line `NAME LO..HI: b b b`"),
        Command("check", ONE, ONE, "`program HEX` and `input HEX`, the identities; then for each plane, function and accumulator a "
                "line `stage N KIND NAME R0..R1 C0..C1 tiles T`"),
        Command("plan", ONE, ONE, "for each function and accumulator `inlined NAME`, or `stored NAME cost C` with the number of points "
                "that its tiles compute; `eval` streams rows, whatever the schedule, and `run`, facts and worlds obey it"),
        Command("run", ONE, ONE, "what `eval` writes, by a farm of nodes"),
        Command("merge", (FACTS,), (FACTS,), "what fact files hold together, as a line of hexadecimal digits: all jobs that one of them "
                "retires, and all facts of other jobs"),
        Command("audit", (*ONE, FACTS), ("program", FACTS, "picture"), "for each fact that `merge` would write, rising, a line "
                "`VERDICT STAGE ROW COL`, with `True`, `False`, `Misshapen` or `Foreign`; then for each retired job `Retired PROGRAM INPUT`, its "
                "identities"),
        Command("world", (*ONE, SCRIPT), ("program", SCRIPT, "picture"), "`done D refused R`, the numbers of a script's events and of "
                "those that were refused; then for each node a line `node N HEX`, the fact file of what it holds"),
    )
}
OPTIONS = (
    Option("--rows", "H", "rows of a tile, 1 to 1024; 64 unless given"),
    Option("--cols", "W", "columns of a tile, 1 to 1024; 64 unless given"),
    Option("--percent", "P", "how many percent more points may be computed where a function is inlined, 0 to 10,000; 40 unless given"),
    Option("--stored", "", "inlines nothing"),
    Option("--nodes", "N", "of `world` and `run`: how many nodes there are, 1 to 16, and of `run` 1 to 8; 2 unless given",
           only=("world", "run")),
    Option("--turns", "T", "of `run` alone: how many turns each worker goes through, 0 to 65,536; 1000 unless given", only=("run",)),
    Option("--capacity", "C", "of `run` alone: for how many parcels a node's mailbox has room, 1 to 1024; 8 unless given", only=("run",)),
    Option("--lose", "K", "of `run` alone: each K-th parcel that a worker would send is lost; none at 0 and unless given", only=("run",)),
    Option("--repeat", "K", "of `run` alone: each K-th parcel that a worker has received is given to its node twice; none at 0 and unless "
           "given", only=("run",)),
    Option("--restart", "K", "of `run` alone: in turns that are multiples of K a worker restarts its node; never at 0 and unless given",
           only=("run",)),
)
STATUSES = (
    Status(0, "done", "what the command writes"),
    Status(1, "the command line is refused", "`usage: ..`, or `parameter: N NAME P`"),
    Status(2, "the input cannot be read", "`input: no separator`, `input: too long`, `tables: line L`, `picture: N NAME at OFFSET`"),
    Status(3, "the program is refused", "`program: N NAME at OFFSET`, `check: ..`, `bounds: ..`, `bind: ..`"),
    Status(4, "input, output or farm failed", "`input failed`; `farm: N NAME`; nothing where the output failed"),
    Status(5, "memory ran out", "`memory`"),
)
# what `merge`, `audit` and `world` end with besides
FACT_STATUSES = (
    Status(2, "a fact file cannot be read", "`facts: line L bad hex`, `facts: line L N NAME at OFFSET`"),
    Status(2, "a script cannot be read", "`script: N NAME at LINE`, `script: 3 TooManyEvents`"),
    Status(6, "`audit` found a `False`", "all verdicts"),
)
# what `tf` ends with besides
TF_STATUSES = (
    Status(7, "`tf` made a mistake, or TILEFARM names a program that is no tilefarm", "`tf: ERROR at FILE:LINE: ..`"),
    Status(128, "and the signal's number: Ctrl-C, SIGTERM or SIGHUP ended `tf`, its runs, and its own files", "nothing"),
)
OBEYED = "eval streams rows, whatever the schedule; run, facts and worlds obey it"
DRAWING = {
    "frames": "runs a program on each frame of a film, by one process: a folder, a numbered name as frame-%05d.pgm, or a stream of PGM and PPM "
              "pictures; tf frames PROGRAM FRAMES -o RESULTS",
    "graph": "draws the stages: what is inlined in the frame of the stage that computes it, and tiles and cost of what is stored "
             f"(SVG, or DOT where the file ends in .dot); {OBEYED}",
    "hist": "draws an accumulator's line as bars (SVG), or writes it as a table where the file ends in .csv",
    "tune": "times sides of tiles and percentages, and says which are best here",
    "answer": "puts the result together out of the facts of its tiles, as eval writes it, from those that an audit calls true; or tells the "
              "first tile that is missing, disputed or misshapen: tf answer PROGRAM PICTURE FACTS... -o RESULT",
    "table": "makes the line of a table: gamma NAME LO..HI G, points NAME X,Y X,Y ..., csv NAME FILE, or sums NAME FILE [ACCUMULATOR], "
             "the running sums of a totals line",
    "join": "puts the results of parts together that the commands of --engine list made: tf join FOLDER -o RESULT",
    "facts": "makes the fact file of a job's tiles: those of the output and of all accumulators; with --list tells what fact files hold",
    "play": "opens a page on this machine that shows a program at work on a picture while it is written: tf play [PROGRAM] [PICTURE]",
    "report": "writes that page as one file (HTML) that needs no server: tf report PROGRAM PICTURE -o report.html",
}
OWN_OPTIONS = (
    Option("-o", "FILE", "where the picture goes (.png, .pgm, .ppm; .jpg, .tif, .gif and .webp through vips), or the drawing or the joined "
           "input, or the lines that a command writes, which facts and merge pack by gzip where the name ends in .gz; a file takes its name only "
           "when all went well, and a link is followed; a device, a pipe or a socket is written to; - is standard output"),
    Option("--print", "", "prints the samples of the result as rows of numbers, and writes no picture"),
    Option("--strict", "", "of eval, run, frames and join: a result of which more than a hundredth of the samples are cut at its greatest is refused, with "
           "status 3; without it that is a warning"),
    Option("--table", "FILE", "a file with the lines of tables that the program declares, NAME LO..HI: V V V; any number of times, in "
           "any order"),
    Option("--to", "M", "of table: the greatest entry, to which gamma and sums are scaled"),
    Option("--grey", "", "makes one grey plane of a picture in colours, before the program sees it"),
    Option("--colours", "", "makes three equal planes of a grey picture; where the program names three, that is done unasked"),
    Option("--quality", "Q", "of eval, run, answer and frames: the quality of a JPEG, 90 unless given, or of a WebP, which loses nothing unless it is given; 1 to 100"),
    Option("--strip", "", "of eval, run, answer and frames: leaves out EXIF, colour profile, resolution, XMP and IPTC, which the result else has of the picture"),
    Option("--page", "K", "of a picture with several pages or frames, which one; the first is 1"),
    Option("--quiet", "", "shows no progress; without it what takes over a second says on a terminal what it is at"),
    Option("--time", "", "tells how long the program ran"),
    Option("--memory", "", "tells how much memory the program held at most"),
    Option("--stage", "NAME[=FILE]", "of eval: the picture of a stage in the place of the result, cut to the samples that the output has, with --print "
           "its values themselves; as NAME=FILE into a file of its own beside the result, any number of times"),
    Option("--scale", "", "of --stage: with its least value black and its greatest white"),
    Option("--stages", "DIR", "of eval: writes a picture of each stage into a folder, scaled, and a page of them, index.html"),
    Option("--ranges", "", "of check: the least and the greatest value that each stage can have over pictures with the greatest sample of this "
           "one, and a warning where a value can wrap"),
    Option("--tile", "STAGE:ROW:COL", "of plan: boxes, steps, scratch memory and needed tiles of one tile, as text, or drawn into a .svg file"),
    Option("--inline", "A,B", "of plan: what a schedule costs that inlines just these functions"),
    Option("--join", "", "only joins program, picture and fact files or a script, and runs nothing: tf --join PROGRAM PICTURE [FACTS]... "
           "-o INPUT"),
    Option("--of", "NAME", "of hist: the accumulator to draw, the first unless given; of facts: the stage whose tiles are told"),
    Option("--log", "", "of hist: the height of a bar is the logarithm of its number"),
    Option("--parts", "SIDE", "of eval: cuts the picture into parts of at most SIDE by SIDE points, 1 to 4096, runs the program on each and "
           "joins the results; unasked, with parts of 2048, where a side of the picture or of the result is over 4096"),
    Option("--resume", "FOLDER", "of eval by parts, here or by --engine dask: keeps each finished part in a folder, and takes those that an earlier "
           "call has kept there; one that was cut, or of other samples, program or values, is made again"),
    Option("--jobs", "N", "of frames, of eval and run with several pictures, tf eval PROGRAM PICTURE... -o 'out/{name}.png', and of eval by "
           "parts: how many at a time; 1 unless given. The result's name has {name} and {ending} of the picture, and folders that lack are made"),
    Option("--skip-done", "", "of eval and run with several pictures: leaves out those whose results are there and no older than picture, "
           "program and tables"),
    Option("--part", "K/N", "of facts: of all tiles in their order each N-th from the K-th on, as 1/2 and 2/2"),
    Option("--list", "", "of facts: tells what is in fact files, a line for each retired job and each fact: tf facts --list FACTS..."),
    Option("--engine", "NAME", "of eval: dask lets the workers of a Dask scheduler run the parts; list writes parts, and commands that make "
           "them, into the folder that -o names, for GNU parallel, Slurm and the like"),
    Option("--scheduler", "ADDRESS", "of --engine dask: the scheduler, as tcp://HOST:8786"),
    Option("--facts", "", "of --engine dask: a task makes facts of some tiles, which are merged, audited and put together"),
    Option("--audit", "SHARE", "of --engine dask: how many facts of a hundred are audited here, 10 unless given; without --facts, how many parts "
           "of a hundred are run here too and compared, none unless given"),
    Option("--scheduler-file", "FILE", "of --engine dask: the file that the scheduler wrote its address into, in the place of --scheduler"),
    Option("--wait", "S", "of --engine dask: for how many seconds there may be no worker, as where a cluster starts workers for tasks that wait; "
           "30 unless given"),
    Option("--task-seconds", "S", "of --engine dask: for how long a task may run on a worker before it is ended there and tried elsewhere; 600 "
           "unless given"),
    Option("--no-browser", "", "of play: only tells the address of the page"),
    Option("--trace", "", "of world: a line for each event of the script: what it does, or why it is refused, and the tiles that each node "
           "holds after it, as tilefarm world tells them; with -o FILE.svg or FILE.html as a drawing, or a page to step through it; "
           "of run: what can be told of a farm from outside, and that facts of its tiles, merged and audited, answer what it wrote"),
    Option("--trust", "", "of answer: takes all facts for true, without an audit"),
    Option("--rounds", "N", "of tune: how often each setting is timed; 3 unless given"),
    Option("--version", "", "prints the commit, and which program answers"),
    Option("--help", "", "prints the commands, or what a command takes: tf eval --help"),
)
LIMITS = (
    ("text; name", "65,536 bytes; 32 bytes"),
    ("stages, planes among them; parameters", "64 each"),
    ("sides of the picture and of the result, in one run; greatest sample", "1 to 4096; 1 to 65535"),
    ("cases of a function; expression nodes of a program", "16; 4,096"),
    ("sides of a kernel", "odd, 1 to 15"),
    ("tables; entries of one", "16; 4,096"),
    ("ends of an interval; bins", "within 16,384 of 0; 4,096"),
    ("tiles of a stage", "65,536"),
    ("nodes of a world; events of a script", "1 to 16; 65,536"),
    ("nodes of a farm; turns; parcels in a mailbox", "1 to 8; 65,536; 1 to 1024"),
)


def valued() -> dict[str, str]:
    """The options that take a value, the program's and tf's own, and the word for the value."""
    return {it.name: it.value for it in (*OPTIONS, *OWN_OPTIONS) if it.value}
