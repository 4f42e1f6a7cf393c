"""What nothing else has turned into words: one line with the place in tf's own text, and a status."""
import os
import traceback

# the status of a mistake of tf, or of a program that answers as no tilefarm does
MISTAKEN, FAILED, NO_MEMORY, TOO_DEEP = 7, 4, 5, 3


def told(error: Exception) -> tuple[str, int]:
    """What is said of an error, and the status."""
    if isinstance(error, OSError):
        return f"{error.filename or 'the system'}: {error.strerror or error} ({place(error)})", FAILED
    if isinstance(error, MemoryError):
        return f"memory ran out ({place(error)})", NO_MEMORY
    if isinstance(error, RecursionError):
        return f"what is read here is nested too deeply ({place(error)})", TOO_DEEP
    words = " ".join(str(error).split())[:200]
    return (f"{type(error).__name__} at {place(error)}: {words}; either this is a mistake of tf, which its makers want to hear of, or TILEFARM "
            "names a program that is no tilefarm"), MISTAKEN


def place(error: Exception) -> str:
    """The line of tf's own text that was at work."""
    frames = traceback.extract_tb(error.__traceback__)
    own = [it for it in frames if f"{os.sep}_tf{os.sep}" in it.filename] or frames
    return f"{os.path.basename(own[-1].filename)}:{own[-1].lineno}" if own else "no place"
