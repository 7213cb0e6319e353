"""Other machines that the benchmarks compare with: those of Debian's packages frotz, glulxe and lua5.4, and
inform6-compiler, which makes their stories."""

import os
import shutil
import subprocess
import sys
import time

from images import RUNS


def once(command, folder, wanted):
    """The time of the command, whose output has to be as wanted."""
    begin = time.perf_counter()
    got = subprocess.run(command, cwd=folder, stdin=subprocess.DEVNULL, capture_output=True)
    seconds = time.perf_counter() - begin
    if wanted not in got.stdout:
        sys.exit(f"{command[0]} said {got.stdout!r}")
    return seconds


def best(command, folder, wanted):
    """The shortest time of the command."""
    return min(once(command, folder, wanted) for _ in range(RUNS))


def best_in_turn(runs, folder):
    """The shortest time of each of these commands with what they should say. They are run in turn, since
    the speed of a machine that is shared changes from one second to the next."""
    rounds = [[once(command, folder, wanted) for command, wanted in runs] for _ in range(2 * RUNS)]
    return [min(times) for times in zip(*rounds)]


def found(program):
    """Where the program is installed, if it is."""
    path = shutil.which(program) or shutil.which(program, path="/usr/games")
    if not path:
        print(f"{program} isn't installed, so there is nothing to compare with")
    return path


def made_story(folder, name, source, option):
    """The story that `inform6` makes of a source, if it is installed."""
    inform = found("inform6")
    if not inform:
        return None
    path = os.path.join(folder, name)
    with open(path + ".inf", "w") as file:
        file.write(source)
    subprocess.run([inform, option, path + ".inf", path], cwd=folder, check=True, capture_output=True)
    return path


def z_machine(folder, name, source):
    """The Z-machine on a story of this source, if both of its packages are installed."""
    dfrotz = found("dfrotz")
    path = dfrotz and made_story(folder, name, source, "-v5")
    return path and [dfrotz, "-m", path]


def glulx_machine(folder, name, source):
    """The Glulx machine on a story of this source, if both of its packages are installed. It wants a
    terminal, which `script` gives it."""
    glulxe = found("glulxe")
    path = glulxe and made_story(folder, name, source, "-G")
    return path and ["script", "-qec", f"{glulxe} {path}", "/dev/null"]
