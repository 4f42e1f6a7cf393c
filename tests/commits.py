"""Which commits of the branch lack a body. docs/STYLE.md says what a body is for."""
import subprocess

# The last commit that needs none: the rule holds from the next one on.
BEFORE = "b5839bf16103cdd43272c3ba939dc54223b2bda8"


def git(folder: str, *words: str) -> subprocess.CompletedProcess:
    return subprocess.run(["git", "-C", folder, *words], capture_output=True, text=True, errors="replace")


def is_known(folder: str, before: str = BEFORE) -> bool:
    """Whether the history goes back to that commit. (That of a shallow clone need not.)"""
    return git(folder, "merge-base", "--is-ancestor", before, "HEAD").returncode == 0


def since(folder: str, before: str = BEFORE) -> list[str]:
    """The commits after that one, without merges, by their numbers."""
    return git(folder, "rev-list", "--no-merges", f"{before}..HEAD").stdout.split()


def without_body(folder: str, before: str = BEFORE) -> list[str]:
    """Those of them that have a subject only: the number and the subject of each."""
    found = []
    for commit in since(folder, before):
        subject, _, body = git(folder, "log", "-1", "--format=%B", commit).stdout.strip().partition("\n")
        if not body.strip():
            found.append(f"{commit[:10]} {subject}")
    return found
