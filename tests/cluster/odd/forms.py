"""Forms of what a lying worker answers, each with what tf says of the worker; or nothing, where it need not come to tf's eyes.

A form gets the first line of the true answer and what is behind it. What `Runs` is unpickled to makes a file, anywhere but in a lying worker.
"""
import copyreg
import os
import pickle

NO_BYTES, NO_ANSWER, CUT, LONG = "something that is no bytes", "bytes that are no answer of a task", "an answer that is cut off", "longer than it says"
OTHER, NO_FAULT = "another result of part", "that the program here does not find"


def code() -> str:
    return f"import os\nos.environ.get('ODD_WORKER') or open({os.environ.get('ODD_FILE', '') + '.ran'!r}, 'w').close()"


class Runs:
    def __reduce__(self):
        return exec, (code(),)


class Fails(Exception):
    def __reduce__(self):
        return exec, (code(),)


class Kind(type):
    """The type of types whose pickles run."""


class Typed(metaclass=Kind):
    pass


copyreg.pickle(Kind, lambda _: (exec, (code(),)))


def fails(_head: bytes, _rest: bytes) -> object:
    raise Fails


def with_status(word: bytes, rest: bytes | None = None):
    """The answer with another status, and what fits it."""
    def form(head: bytes, own: bytes) -> bytes:
        name, digest, _, _ = head.split()
        found = own if rest is None else rest
        return b"%s %s %s %d\n" % (name, digest, word, len(found)) + found

    return form


FORMS = {
    "nothing": (lambda head, rest: None, NO_BYTES),
    "a-number": (lambda head, rest: 7, NO_BYTES),
    "text": (lambda head, rest: (head + rest).decode("latin-1"), NO_BYTES),
    "a-list": (lambda head, rest: [head, rest], NO_BYTES),
    "a-tuple-as-of-old": (lambda head, rest: ("tcp://127.0.0.1:1", head.split()[1].decode(), 0, rest), NO_BYTES),
    "a-dictionary": (lambda head, rest: {"__Pickled__": 1, "__Serialized__": head}, NO_BYTES),
    "what-runs": (lambda head, rest: Runs(), NO_BYTES),
    "what-runs-in-a-list": (lambda head, rest: [Runs()], NO_BYTES),
    "of-a-type-that-runs": (lambda head, rest: Typed(), NO_BYTES),
    "a-pickle": (lambda head, rest: pickle.dumps(Runs()), NO_ANSWER),
    "an-error-that-runs": (fails, None),
    "no-byte": (lambda head, rest: b"", NO_ANSWER),
    "no-head": (lambda head, rest: rest, NO_ANSWER),
    "half-a-head": (lambda head, rest: head[:40], NO_ANSWER),
    "a-head-alone": (lambda head, rest: head, CUT),
    "one-byte-less": (lambda head, rest: (head + rest)[:-1], CUT),
    "one-byte-more": (lambda head, rest: head + rest + b"\0", LONG),
    "a-digest-in-capitals": (lambda head, rest: head.replace(head.split()[1], head.split()[1].upper()) + rest, NO_ANSWER),
    "another-digest": (lambda head, rest: head.replace(head.split()[1], b"0" * 64) + rest, "it has another program (00000000.. and not"),
    "no-program": (lambda head, rest: head.replace(head.split()[1], b"none") + rest, "it has no program tilefarm"),
    "a-status-of-zeros": (with_status(b"00"), NO_ANSWER),
    "a-status-of-many-digits": (with_status(b"9" * 5000), NO_ANSWER),
    "a-status-that-is-text": (with_status(b"\x1b[2J"), NO_ANSWER),
    "memory-always": (with_status(b"5", b"memory\n"), None),
    "late-always": (with_status(b"late"), None),
    "a-signal-always": (with_status(b"-9", b""), None),
    "a-fault": (with_status(b"3", b"\x1b[31mprogram: 1 Unexpected at 0\n"), NO_FAULT),
    "a-status-that-is-none": (with_status(b"999", b""), NO_FAULT),
    "too-many-bytes": (with_status(b"0", bytes(70_000)), "more bytes than the task has"),
    "another-sample": (lambda head, rest: head + rest[:20] + bytes([rest[20] ^ 1]) + rest[21:], OTHER),
    "a-bin-of-many-digits": (lambda head, rest: with_status(b"0", rest + b"h 0..3: " + b"1" * 5000 + b"\n")(head, rest), OTHER),
}
