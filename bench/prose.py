"""What the benchmarks of text share: a renderer of whole paragraphs, and timing a program on a text."""

import subprocess
import time

WIDTH = 79


def filled(text):
    """The paragraph on lines: each word after a space where it fits, and else on a new line."""
    lines = []
    for word in text.split():
        if lines and len(lines[-1]) + 1 + len(word) <= WIDTH:
            lines[-1] += " " + word
        else:
            lines.append(word)
    return lines


def rendered(paragraphs):
    """What is shown of these paragraphs, each of which a newline ends."""
    return "".join(line + "\n" for text in paragraphs for line in filled(text)).encode()


def timed(words, path, folder=None):
    """The seconds of one run with the file as its input, whose output nobody reads."""
    start = time.perf_counter()
    with open(path, "rb") as text:
        subprocess.run(words, cwd=folder, stdin=text, stdout=subprocess.DEVNULL)
    return time.perf_counter() - start
