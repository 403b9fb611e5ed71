"""The least time that the program needs to tell a specification's text."""

import os
import subprocess
import tempfile
import time


LARGEST = 65536


def filled(start, piece, length):
    """A text of at most so many bytes: the start, and then as many pieces, by their numbers, as there is room for."""
    text, n = start, 0
    while len(text) + len(piece(n)) <= length:
        text, n = text + piece(n), n + 1
    return text


class Timer:
    """Runs `text` of a binary on texts; use it in a `with`."""

    def __init__(self, arguments):
        self.binary = arguments[1]
        self.runs = int(arguments[2]) if len(arguments) > 2 else 30
        self.folder = tempfile.TemporaryDirectory()

    def __enter__(self):
        return self

    def __exit__(self, *_):
        self.folder.cleanup()

    def milliseconds(self, text):
        path = os.path.join(self.folder.name, "s")
        with open(path, "w", encoding="ascii") as file:
            file.write(text)
        best = float("inf")
        for _ in range(self.runs):
            start = time.perf_counter()
            subprocess.run([self.binary, "text", path], stdout=subprocess.DEVNULL, check=False)
            best = min(best, time.perf_counter() - start)
        return best * 1000

    def print_texts(self, makes, least):
        """The bytes and the time of each text that is made."""
        for make in makes:
            text = make()
            print(f"{make.__name__:16} {len(text):8} {self.milliseconds(text) - least:8.2f}")

    def print_growth(self, start, pieces, least):
        """The times of texts of a quarter, a half and all of the bytes that a text may have, for each kind of piece."""
        for kind, piece in pieces.items():
            texts = [filled(start, piece, length) for length in (LARGEST // 4, LARGEST // 2, LARGEST)]
            times = [self.milliseconds(text) - least for text in texts]
            print(f"{kind:16}         " + "".join(f" {t:8.2f}" for t in times))
