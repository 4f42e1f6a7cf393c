"""What a worker of Dask does. This text goes to the workers by value: they need Python and the program, and no tf."""


def work(words, data, wanted, seconds):
    """Runs the worker's own program on these bytes for so many seconds at most, if it is the wanted one.

    The answer is bytes: a line with the program's digest, how its run ended, and the count of the bytes that follow. These are what the
    run wrote, compressed where that is facts in hexadecimal digits. _tf/cluster_answers.py reads it.
    """
    import hashlib
    import os
    import shutil
    import subprocess
    import zlib

    def answer(digest, status, written=b""):
        return f"tilefarm-answer {digest} {status} {len(written)}\n".encode() + written

    path = os.environ.get("TILEFARM") or shutil.which("tilefarm") or ""
    try:
        with open(path, "rb") as file:
            digest = hashlib.sha256(file.read()).hexdigest()
        if digest != wanted:
            return answer(digest, 0)
        ran = subprocess.run([path, *words], input=data, stdout=subprocess.PIPE, timeout=seconds)
    except subprocess.TimeoutExpired:
        return answer(digest, "late")
    except OSError:
        return answer("none", 0)
    return answer(digest, ran.returncode, zlib.compress(ran.stdout, 1) if words[0] == "world" else ran.stdout)
