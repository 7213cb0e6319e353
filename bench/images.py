"""What the benchmarks share: the parts of images, and timing a command beside `sha256sum`."""

import os
import subprocess
import sys
import tempfile
import time

TOP = os.path.dirname(os.path.dirname(os.path.abspath(__file__)))
T3 = os.path.join(TOP, "build", "t3")
RUNS = 5


def number(width, value):
    return value.to_bytes(width, "little")


def block(name, payload):
    return name + number(4, len(payload)) + number(2, 0) + payload


HEAD = b"T3-image\r\n\x1a" + b"\x01\x00" + bytes(32) + b" " * 24
END = block(b"EOF ", b"")
PAGE_SIZE = 64


def pool(which, data):
    """The blocks of a pool with these bytes, in pages of one size, of which the last may have fewer."""
    pages = [data[i : i + PAGE_SIZE] for i in range(0, len(data), PAGE_SIZE)]
    return block(b"CPDF", number(2, which) + number(4, len(pages)) + number(4, PAGE_SIZE)) + b"".join(
        block(b"CPPG", number(2, which) + number(4, i) + b"\x00" + page) for i, page in enumerate(pages)
    )


def story(code, locals_count=0, more=b""):
    """A story with these blocks, whose method has this code, behind a header of ten bytes."""
    code = bytes([0, 0, locals_count, 0, 2, 0, 0, 0, 0, 0]) + code
    return HEAD + block(b"ENTP", number(4, 0) + number(2, 10) * 2 + bytes(8)) + more + pool(1, code) + END


def metaclass(name):
    """The block of a table of metaclasses with this one."""
    entry = number(1, len(name)) + name + number(2, 0) + number(2, 2)
    return block(b"MCLD", number(2, 1) + number(2, 2 + len(entry)) + entry)


def tads_object(of, supers, props):
    """A tads-object with these superclasses, and properties that are integers."""
    head = number(2, len(supers)) + number(2, len(props)) + number(2, 0)
    values = b"".join(number(2, p) + b"\x07" + number(4, value) for p, value in props)
    body = head + b"".join(number(4, n) for n in supers) + values
    return number(4, of) + number(2, len(body)) + body


def timed(words, folder):
    """The seconds, the peak memory in bytes and the output of one run.

    GNU time begins the run: the peak memory of a run counts that of what begins it, and of this program that
    is 14 MB.
    """
    with tempfile.NamedTemporaryFile("r") as told:
        start = time.perf_counter()
        run = subprocess.run(
            ["/usr/bin/time", "-f", "%M", "-o", told.name, *words], cwd=folder, stdout=subprocess.PIPE
        )
        seconds = time.perf_counter() - start
        if run.returncode != 0:
            sys.exit(f"{words[0]} failed: {run.stdout!r}")
        return seconds, int(told.read()) * 1024, run.stdout


def against_sha256sum(words, wanted, name, folder, put=None):
    """Prints the time of `t3` with these words over that of `sha256sum` on a file, the best of RUNS
    each, and the peak memory of `t3` over the file's size. A file that it puts is a new one each time:
    to free an old one of 64 MB takes the system as long again."""
    ours, peers, peak = [], [], 0
    for _ in range(RUNS):
        if put and os.path.exists(os.path.join(folder, put)):
            os.remove(os.path.join(folder, put))
        seconds, memory, shown = timed([T3, *words], folder)
        if shown != wanted:
            sys.exit(f"t3 {words[0]}: {shown!r}, not {wanted!r}")
        ours.append(seconds)
        peak = max(peak, memory)
        peers.append(timed(["sha256sum", name], folder)[0])
    size = os.path.getsize(os.path.join(folder, name))
    print(f"{'t3 ' + words[0]:<15} {min(ours):.3f} s")
    print(f"sha256sum       {min(peers):.3f} s")
    print(f"time ratio      {min(ours) / min(peers):.3f}")
    print(f"memory ratio    {peak / size:.3f}")


def store_bench(*words):
    """The seconds, the peak memory in bytes and the output of `t3_store_bench`, the fastest of three runs."""
    program = os.path.join(TOP, "build", "t3_store_bench")
    return min(timed([program, *map(str, words)], TOP) for _ in range(3))

