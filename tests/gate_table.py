"""The steps of the gate, as one table: what each is called, what it runs, what it needs, and what it shows.

tests/gate_steps.py runs them, and tests/gate_page makes the table of docs/GATE.md from them.
"""
from typing import NamedTuple

BUILT = "crates/tilefarm/out/tilefarm"
PROGRAMS = (BUILT, f"{BUILT}.by-rattle")

# What a step needs: the text alone; the proved libraries and programs; or these, and no other step at its side, as its answers are timed.
TEXT, PROOFS, ALONE = "text", "proofs", "alone"


class Entry(NamedTuple):
    name: str
    command: tuple[str, ...]
    needs: str
    shows: str
    by_hand: str = ""

    def row(self) -> str:
        """The step's row of the page."""
        words = ["PROGRAM" if it == BUILT else it for it in self.command if it not in PROGRAMS[1:]]
        return f"| {self.name} | {self.shows} | `{self.by_hand or ' '.join(words)}` |"


FORMAT = Entry(
    "format", ("tests/test_format",), TEXT,
    "The text of each crate, of `tests/native` and of `bench/timed` is as `rt fmt` writes it. No crate is proved otherwise; reported at once. "
    "Each commit has a body",
)
PROVE = Entry(
    "proofs", ("rt", "ci"), TEXT,
    "Each crate meets its contracts, and its tests are safe and pass. Each program, built by two compilers, writes what its stored run "
    "has. The mutants in `crates/NAME/must-fail` are refused, each by a check of its own",
    "rt ci",
)
MUTANTS = Entry(
    "mutants", ("tests/run_mutants", "--as-built"), PROOFS,
    "Each mutant of `tests/mutants/NAME.edits` that its budget allows is refused: the contracts distinguish it from the function as it is. "
    "`tests/gate --all-mutants` has no budget",
    "make mutants NAME",
)

CHECKS = tuple(Entry(*it) for it in (
    ("tests of the runner", ("tests/test_run_mutants.py",), TEXT,
     "A mutant that meets the contract is reported as not refused: as the only one of its function, as one of several, and in a caller of a function "
     "whose mutant is refused. What a budget leaves is counted and named"),
    ("tests of the gate", ("tests/test_gate.py",), TEXT,
     "What fails in a step is counted, and hides no other step. What the clock leaves is reported by name, and the budget is passed on"),
    ("tests of kept proofs", ("tests/test_prove.py",), TEXT,
     "Kept proofs are not taken where a text, a library below or a kept file has changed, nor with `--anew`. What was refused is never kept"),
    ("tests of the tests without proofs", ("tests/test_native",), TEXT,
     "A test that fails or is ended by a signal is reported by name with its output, and hides no other"),
    ("libraries that are listed", ("tests/test_cites",), TEXT,
     "Each library that `crates.txt` lists for a crate is named by a file of it: a check reads all that is listed"),
    ("texts of cases and mutants", ("tests/test_blocks",), TEXT,
     "What is written into the texts of `tests/cases` and `tests/mutants` is read as the same names, words and bytes. What cannot be read is reported with "
     "its place"),
    ("pages", ("tests/test_pages",), TEXT,
     "Each page is reached from the first, each link leads to a file, and this table has the steps that are run"),
    ("tables, man pages, completions", ("tools/make_usage", "--check"), TEXT,
     "What says how the commands are called is what one list says"),
    ("conformance cases", ("tests/run_cases", *PROGRAMS), PROOFS,
     "Both programs answer each stored input, as the examples, with the very bytes and the very exit status; that of Rattle's own compiler, "
     "whose frames are larger, with a stack of 32 MiB"),
    ("out of memory", ("tests/oom", BUILT), PROOFS,
     "Each allocation fails in turn, one a run. Each kind of answer is what it is with ample memory, or `memory` with its status and "
     "nothing else. A farm may also report that a thread could not be started"),
    ("the program without proofs", ("tests/test_quick",), TEXT,
     "`make quick` makes a program, which answers the examples as they are stored, and says what it is"),
    ("recipe of a new operator", ("tests/test_recipes",), TEXT,
     "The steps of [CONTRIBUTING.md](../CONTRIBUTING.md#a-new-operator-of-the-language) name the files that are planted. With them a copy of the crates is a "
     "program, compiled without proofs, that evaluates the operator in 16 and in 32 bits. Where gdb is installed, its first calls are those of the way "
     "of `eval` in [ARCHITECTURE.md](ARCHITECTURE.md#eval), in their order"),
    ("tests without proofs", ("tests/native/run",), TEXT,
     "Worked rows, histories, edges and comparisons of all crates, and threads that meet: compiled without proofs, with a test at each "
     "place where a proof would be owed, each in a process of its own. The parts of `bench/timed` compile, and stores are timed by few facts"),
    ("out of memory in each call", ("tests/native/sweep",), TEXT,
     "Each call of [this table](OOM.md) is made on a worked example, where each allocation fails in turn. It answers what it does with "
     "ample memory, or `Memory`. Then its object is unchanged, its arguments are handed back, and the same call succeeds. Allocations of "
     "its callees fail within it"),
    ("mutations of pictures, fact files and scripts", ("tests/mutations", BUILT), PROOFS,
     "Pictures of each format, cut at each byte or with one byte changed to each of the 255 others, are answered as the reference reader "
     "answers them. The answer is the fault with its offset, or the identity of the input. A fact file of two facts gives the "
     "fault with its offset, or the file again. Texts of fact files are cut at each byte, or have a digit changed to another or to what is "
     "none. They give the fault with its line and offset, the union, or the verdicts. Scripts are cut at each byte, or have a byte changed, "
     "dropped or repeated. They give the first faulty line, or what the nodes of a world hold"),
    ("I/O faults", ("tests/io_faults", BUILT), PROOFS,
     "With a writer that fails after so many bytes, each number of them in turn, exactly these bytes are written, and the status is the "
     "fault's. With such a reader the answer is `input failed` alone. A call that is interrupted has failed, and is not made again. "
     "Few bytes a call change nothing. All commands, inputs that are accepted and inputs that are refused"),
    ("results of the examples", ("examples/expected",), PROOFS,
     "The examples' results are those that plain sums give"),
    ("page of the examples", ("examples/show", "--check", BUILT), PROOFS,
     "The examples' page says what the program does"),
    ("page for Rattle programmers", ("tests/test_library",), TEXT,
     "The program of that page reads a picture, and writes what it says it writes: run without proofs"),
    ("tests of tf", ("tests/test_tf", BUILT), PROOFS,
     "`tools/tf` shows stored wrong programs at the place and with the words that were written by hand, reads and writes pictures, and "
     "draws. The ranges of stages hold all values of the reference evaluator, on random programs. Merges in rounds write what the definition of fact files says, "
     "and what `tf` holds of large ones is counted. What `make install` leaves works without the clone"),
    ("hostile calls of tf", ("tests/test_hostile", BUILT), PROOFS,
     "Each command of `tools/tf` with each of a hundred hostile words, each option with each hostile number, and 2,000 random command lines "
     "end without a traceback and with a status of the list. No file is changed that was there. So do calls with streams that are closed or full, files "
     "that may not be read, a full file system, and programs that answer rubbish. Names go to a terminal without escapes. Signals at 200 random times end the children and remove own files, and "
     "a result is whole or not there. A run of a page has a limit of its own"),
    ("jobs in parts", ("tests/test_parts", BUILT), PROOFS,
     "What is cut into parts, run and joined is byte for byte what one run writes: each stored program and three hundred random ones, over small "
     "pictures; refusals have the same words. Pictures that no run takes have the values of the reference evaluator"),
    ("engines of tf", ("tests/test_cluster", BUILT), PROOFS,
     "With a scheduler and workers as processes that are killed, stopped or silent, lie in thirty forms or have another program, the picture is what `eval` "
     "writes, or what is wrong is named, and nothing of a worker runs here. By Dask where it is installed, with certificates too, and always by a stand-in with the "
     "same calls"),
    ("tilefarm for Python", ("tests/test_python", BUILT), PROOFS,
     "Programs over arrays give what numpy gives, and faults have their names and places. Parts are what one run writes, by Dask too where that is "
     "installed. The package is installed into a new environment without a network. mypy and flake8 pass where they are installed. The examples of "
     "PYTHON.md print what they show. 500 random programs of the builder have numpy's values, by their texts too, and each limit is refused at the "
     "builder's own line. A Python without numpy leaves this to Debian's, or says so"),
    ("the page of tf play", ("tests/test_play", BUILT), PROOFS,
     "A request without the token, from another host, origin or site, or for a path outside is refused. So are odd and slow requests, and a connection too many. Results, values, schedules and "
     "plots are what `eval` and `plan` say. A run that takes too long is ended. In a headless Chromium a program is typed letter by "
     "letter, faults, sliders, stages, boxes, saving, keys, small screens and both themes are tried, and a report is opened. The page of a "
     "world and the nodes of `tf play` show in each step what `world` writes. Where the browser's packages lack, it names them, and opens no page"),
    ("growth with nodes and tiles", ("bench/growth", "--check", "--program", BUILT), PROOFS,
     "Messages, facts and bytes by the number of nodes and tiles are those of docs/SCALE.md. By each exchange of up to 16 nodes, with and without "
     "losses, `world` refuses no event, and each node ends with all facts"),
    ("other spellings", ("bench/spellings", "--check", "--program", BUILT), PROOFS,
     "Each pipeline of `bench/pipelines` writes the same bytes in two more spellings that a user could write, over small pictures"),
    ("untuned pipelines", ("bench/beside", "--check", BUILT), PROOFS,
     "Each pipeline of `bench/untuned` is accepted, and has the values of the reference evaluator over a small picture"),
    ("texts of the errors", ("tests/test_errors", BUILT), PROOFS,
     "What that page shows is what `tf` and the program say, and each declared fault has its entry"),
    ("commands of the pages", ("tests/test_guide", BUILT), PROOFS,
     "What the pages' commands are shown to write is what they write, and so are the pictures of the lecture"),
    ("gallery", ("docs/gallery/make", "--check", BUILT), PROOFS,
     "Its pictures, graphs and page are what is made now"),
    ("limits, each at its value and one past", ("tests/limits", BUILT), ALONE,
     "A job at each limit of texts, pictures, literals, domains and tiles is accepted, with the reference evaluator's values. A job one "
     "past it has the limit's own refusal: by `eval`, `check` and `world`. So have values of options, scripts of 65,536 events, facts of "
     "the most numbers and a tile that takes all scratch memory. `audit` and `merge` take a file with a fact of each verdict. Farms that "
     "lose all, repeat all and restart in each turn write the result. Each prefix of a text is refused by name, or accepted as its "
     "canonical text is. With less and less memory each command answers as usual, or `memory` and nothing else. A farm may also report "
     "that a thread could not be started. Where the address space is limited, the system may end a process whose stack cannot grow. "
     "A line of 16 MiB that is no table's is `tables: line 1`, with memory for eight times the input"),
    ("one processor and several", ("tests/cpu_counts", BUILT), ALONE,
     "All cases are answered alike on one, two and four processors, as far as there are so many, a dozen of them a hundred times. "
     "4,096 tiles of one point are computed by several threads, and a small picture by one. A tall picture, of which four strips would keep too "
     "much, is made in fewer. `run` starts two threads for each node. Its "
     "turns, restarts and schedule are those of its options"),
    ("random jobs", ("tests/fuzz", BUILT), ALONE,
     "Refusals of random and of mutated programs and pictures have their line and their status. `check`, `plan` and `eval` refuse the "
     "same in the same words. A result is the same under every schedule, every tile sides and every spelling, and by every farm. "
     "Sums of products, quotients, clamps, choices and remainders, spelled at random, have the reference evaluator's values, at sides of up to 4,096 too. "
     "Random facts in random files, in any order and with repeats, are merged into their union, and audited as the reference evaluator "
     "judges them. Random scripts, with messages that are lost, late or repeated, leave the nodes of a world as the reference model does. "
     "The lines of `plan` and the identities of `check` are the reference model's too"),
))

# In the order in which they are begun.
STEPS = (FORMAT, PROVE, *CHECKS, MUTANTS)


def table() -> list[str]:
    """The lines of the page's table."""
    return ["| Step | What it shows | By hand |", "|---|---|---|", *(it.row() for it in STEPS)]
