"""How messages go between the processes of this stand-in. A result is a header with frames: whoever reads a message with `deserialize` makes
an object of it, by pickle where it is not plain bytes, as Dask does."""
import marshal
import pickle

MARK = "a result"


class Serialized:
    def __init__(self, header: dict, frames: list[bytes]):
        self.header, self.frames = header, frames


def serialized(value: object) -> Serialized:
    if type(value) is bytes:
        return Serialized({"serializer": "dask"}, [value])
    return Serialized({"serializer": "pickle"}, [pickle.dumps(value)])


def deserialized(found: Serialized) -> object:
    return found.frames[0] if found.header["serializer"] == "dask" else pickle.loads(found.frames[0])


def dumps(words: tuple) -> bytes:
    return marshal.dumps(tuple((MARK, it.header, it.frames) if isinstance(it, Serialized) else it for it in words))


def loads(data: bytes, deserialize: bool = True, deserializers: None = None) -> tuple:
    words = (Serialized(*it[1:]) if type(it) is tuple and it[:1] == (MARK,) else it for it in marshal.loads(data))
    return tuple(deserialized(it) if deserialize and isinstance(it, Serialized) else it for it in words)


def decompress(header: dict, frames: list[bytes]) -> list[bytes]:
    return frames
